#include "clock.h"

#include <stdio.h>
#include <stdlib.h>
#include <string.h>
#include <time.h>
#include <unistd.h>

int64_t clock_now(void)
{
    struct timespec t;
    clock_gettime(CLOCK_MONOTONIC, &t);
    return (int64_t)t.tv_sec * 1000 * NS_OF_MS + t.tv_nsec;
}

uint32_t clock_passed(int64_t *told, int64_t now)
{
    int64_t ms = (now - *told) / NS_OF_MS;
    if (ms > UINT32_MAX)
        ms = UINT32_MAX;
    *told += ms * NS_OF_MS;
    return (uint32_t)ms;
}

bool clock_has_zone(const char *zone)
{
    char path[256];
    int many = snprintf(path, sizeof path, "/usr/share/zoneinfo/%s", zone);
    bool named = many < (int)sizeof path && zone[0] != '\0' && zone[0] != '/' && !strstr(zone, "..") && access(path, R_OK) == 0;
    /* three letters and hours at least; the C library takes anything, and means UTC by what it does not know */
    return named || strcmp(zone, "UTC") == 0 || (strlen(zone) > 3 && strcspn(zone, "0123456789") >= 3 && strpbrk(zone, "0123456789"));
}

struct day_time clock_host(const char *zone)
{
    struct timespec t;
    struct tm tm;
    if (zone)
        setenv("TZ", zone, 1);
    tzset();
    clock_gettime(CLOCK_REALTIME, &t);
    localtime_r(&t.tv_sec, &tm);
    /* a leap second is the 59th once more */
    return (struct day_time){(uint16_t)(tm.tm_yday + 1), (uint16_t)tm.tm_hour, (uint16_t)tm.tm_min,
                             (uint16_t)(tm.tm_sec < 60 ? tm.tm_sec : 59), (uint16_t)(t.tv_nsec / NS_OF_MS)};
}
