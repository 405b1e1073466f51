/* Time that passes, in whole milliseconds, none of it lost between two readings. */
#ifndef UNIT2179_CLOCK_H
#define UNIT2179_CLOCK_H

#include <stdbool.h>
#include <stdint.h>

enum { NS_OF_MS = 1000000 };

/* Nanoseconds of a clock that no one sets. */
int64_t clock_now(void);

/* A time of day as a unit's clock has it. */
struct day_time {
    uint16_t day, hour, minute, second, ms; /* days from 1 */
};

/* Whether there is such a time zone: a name in the system's list, or what the variable TZ takes, as CET-1CEST. */
bool clock_has_zone(const char *zone);

/* The host's time in a zone, or in the host's own (NULL). */
struct day_time clock_host(const char *zone);

/* The whole milliseconds from *told to now, which *told then includes: what is left of one counts the next time. */
uint32_t clock_passed(int64_t *told, int64_t now);

#endif
