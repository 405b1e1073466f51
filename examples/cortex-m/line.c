#include "line.h"

#include "board.h"

/* An idle mark is 3.5 characters of quiet, at 9,600 baud less than 5 ms. In a Set Time a master suspends its sending behind the header:
 * no mark stands there until it is certain that nothing follows. */
enum { SUSPENSION_MS = 1000, SET = 0x20, TIME = 0x38, HEADER = 4 };

/* The sync point ends the start bit of the character behind the header; the interrupt for that character comes nine bits later, which at
 * 9,600 baud is 0.94 ms. Both ends of a lag are counted in whole milliseconds, so it is right to one; a board that is to do better reads its
 * timer's own count there. */
enum { SYNC_MS = 1 };

static struct stretch stretches[2]; /* one is filled while the other is served */
static volatile uint8_t filled;
static volatile uint32_t quiet, now;
static uint32_t told; /* up to when milliseconds were handed over */

void line_heard(uint8_t character)
{
    struct stretch *s = &stretches[filled];
    quiet = 0;
    if (s->many == HEADER)
        s->fifth = now;
    if (s->many < LINE_KEPT)
        s->chars[s->many++] = character;
}

/* To whichever unit: its rest would else be heard as damage. */
static int suspended(const struct stretch *s)
{
    return s->many == HEADER && s->chars[2] == SET && s->chars[3] == TIME;
}

/* While the other stretch is still served, this one goes on: what joins it is refused, and a master repeats. */
void line_tick(void)
{
    struct stretch *s = &stretches[filled];
    now++;
    quiet++;
    if (s->many > 0 && quiet >= (suspended(s) ? SUSPENSION_MS : GAP_MS) && !stretches[!filled].whole) {
        s->whole = 1;
        filled = !filled;
    }
}

struct stretch *line_stretch(void)
{
    struct stretch *s = &stretches[!filled];
    return s->whole ? s : 0;
}

void line_done(struct stretch *s)
{
    s->many = 0;
    s->whole = 0;
}

uint32_t line_passed(void)
{
    uint32_t ms = now - told;
    told += ms;
    return ms;
}

uint32_t line_lag(const struct stretch *s)
{
    return s->many > HEADER ? told - s->fifth + SYNC_MS : 0;
}
