/* Stretches: the characters between two idle marks, put together from what a line brings. Times are nanoseconds of one clock. */
#ifndef UNIT2179_STRETCH_H
#define UNIT2179_STRETCH_H

#include <stdbool.h>
#include <stddef.h>
#include <stdint.h>

#include "osturdam.h"

/* One character more than the longest stretch that is not damage: a longer one is refused for its length, so no more of it is needed. */
enum { STRETCH_KEPT = OSTURDAM_STRETCH + 1 };

struct stretch {
    uint8_t chars[STRETCH_KEPT];
    size_t heard;
    int64_t latest; /* when the latest character was seen */
    int64_t sync;   /* when the start bit of its fifth character ended, where it has one */
};

/* How long a character takes on the wire, and one of its bits; 0 where nobody knows. */
struct pace {
    int64_t character, bit;
};

/* How long a line is quiet at an idle mark. */
struct quiet {
    int64_t gap;        /* behind any character */
    int64_t suspension; /* behind the header of a Set Time, where a master suspends its sending */
};

/* Characters that are seen now. */
void stretch_take(struct stretch *s, const uint8_t *chars, size_t many, int64_t now, const struct pace *pace);

/* Whether it has the header of a Set Time, to whichever unit. */
bool stretch_sets_time(const struct stretch *s);

/* The milliseconds, to the nearest, from the sync point of a Set Time to an instant; 0 of a stretch that has not come to that point. */
uint32_t stretch_lag(const struct stretch *s, int64_t until);

/* When the line, if no character comes, is idle; only of a stretch that has begun. */
int64_t stretch_due(const struct stretch *s, const struct quiet *quiet);

#endif
