#include "daytime.h"

#include <stdio.h>
#include <string.h>

#include "text.h"

bool time_read(struct day_time *t, const char *day, const char *rest)
{
    uint32_t number;
    unsigned hour, minute, second, ms = 0;
    int used = 0, more = 0;
    if (!number_of(day, 366, &number) || number == 0 || strspn(rest, "0123456789:.") != strlen(rest))
        return false;
    if (sscanf(rest, "%2u:%2u:%2u%n", &hour, &minute, &second, &used) != 3)
        return false;
    if (rest[used] == '.' && (sscanf(rest + used, ".%3u%n", &ms, &more) != 1 || more != 4))
        return false;
    if (rest[used + more] != '\0' || hour > 23 || minute > 59 || second > 59)
        return false;
    *t = (struct day_time){(uint16_t)number, (uint16_t)hour, (uint16_t)minute, (uint16_t)second, (uint16_t)ms};
    return true;
}

static uint8_t digits(unsigned n)
{
    return (uint8_t)(n / 10 << 4 | n % 10);
}

static uint16_t figure(uint8_t c)
{
    return (uint16_t)((c >> 4) * 10 + (c & 15));
}

void time_to(uint8_t chars[TIME_CHARS], const struct day_time *t)
{
    const uint8_t told[TIME_CHARS] = {(uint8_t)(t->day / 100), digits(t->day % 100u), digits(t->hour),        digits(t->minute),
                                      digits(t->second),       (uint8_t)(t->ms >> 8), (uint8_t)(t->ms & 0xFF)};
    memcpy(chars, told, TIME_CHARS);
}

struct day_time time_at(const uint8_t *chars, bool stamp)
{
    return (struct day_time){(uint16_t)(chars[0] * 100 + figure(chars[1])), figure(chars[2]), figure(chars[3]), figure(chars[4]),
                             stamp ? (uint16_t)0 : (uint16_t)(chars[5] << 8 | chars[6])};
}
