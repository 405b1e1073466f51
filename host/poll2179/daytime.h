/* Times as the protocol sends them: day of the year, hour, minute, second in decimal digits, milliseconds in binary. */
#ifndef POLL2179_DAYTIME_H
#define POLL2179_DAYTIME_H

#include <stdbool.h>
#include <stdint.h>

#include "clock.h"

enum { TIME_CHARS = 7, STAMP_CHARS = 5 };

/* Reads DAY and HH:MM:SS[.MMM]. */
bool time_read(struct day_time *t, const char *day, const char *rest);

void time_to(uint8_t chars[TIME_CHARS], const struct day_time *t);

/* Of a record's stamp the five characters before the milliseconds. */
struct day_time time_at(const uint8_t *chars, bool stamp);

#endif
