#include "stretch.h"

#include <string.h>

#include "clock.h"

enum { HEADER = 4 }; /* address, function and command; the sync point ends the start bit of the character behind it (paper 6.5) */

/* Of characters seen together the last has come by now, and they stood one behind the other: so the sync point was so many of them, but for
 * a bit, before. Where nobody knows how long these take, it is taken to be when its character is seen. */
void stretch_take(struct stretch *s, const uint8_t *chars, size_t many, int64_t now, const struct pace *pace)
{
    size_t room = STRETCH_KEPT - s->heard;
    size_t taken = many < room ? many : room;
    if (s->heard <= HEADER && s->heard + many > HEADER)
        s->sync = now - (int64_t)(s->heard + many - HEADER) * pace->character + pace->bit;
    memcpy(s->chars + s->heard, chars, taken);
    s->heard += taken;
    s->latest = now;
}

bool stretch_sets_time(const struct stretch *s)
{
    return s->heard >= HEADER && s->chars[2] == 0x20 && s->chars[3] == 0x38;
}

/* Behind the header and nothing more: to whichever unit, since its rest would else be heard as damage. */
static bool suspended(const struct stretch *s)
{
    return s->heard == HEADER && stretch_sets_time(s);
}

uint32_t stretch_lag(const struct stretch *s, int64_t until)
{
    int64_t passed = s->heard > HEADER && until > s->sync ? until - s->sync : 0;
    int64_t ms = (passed + NS_OF_MS / 2) / NS_OF_MS;
    return ms < UINT32_MAX ? (uint32_t)ms : UINT32_MAX;
}

int64_t stretch_due(const struct stretch *s, const struct quiet *quiet)
{
    int64_t wait = suspended(s) && quiet->suspension > quiet->gap ? quiet->suspension : quiet->gap;
    return s->latest + wait;
}
