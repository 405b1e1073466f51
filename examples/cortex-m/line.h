/* The line: stretches of characters between two idle marks, and the milliseconds. */
#ifndef LINE_H
#define LINE_H

#include "osturdam.h"

/* A character more than the longest stretch that is not damage has: a longer one is refused for its length alone. */
enum { LINE_KEPT = OSTURDAM_STRETCH + 1 };

struct stretch {
    uint8_t chars[LINE_KEPT];
    volatile uint8_t many, whole; /* how many there are; whether an idle mark stands behind them */
    volatile uint32_t fifth;      /* when the fifth came, in milliseconds of the line's own clock */
};

/* The stretch that is whole, or none; line_done lets it go. */
struct stretch *line_stretch(void);
void line_done(struct stretch *s);

/* The milliseconds that passed since this was asked last. */
uint32_t line_passed(void);

/* The milliseconds from a stretch's sync point to the moment for which that was asked last: a clock that is set to the time sent and so much
 * more goes on from there, with no millisecond lost or counted twice. */
uint32_t line_lag(const struct stretch *s);

#endif
