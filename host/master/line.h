/* A master's side of the line, as far as the checks of the C interface need it. */
#ifndef LINE_H
#define LINE_H

#include <stddef.h>
#include <stdint.h>
#include <string.h>

enum { LINE_BROADCAST = 0x7FF, LINE_MOST = 0xFFFF };

/* Divided bit by bit, low bit first. */
static inline uint16_t line_check(const uint8_t *chars, size_t many)
{
    unsigned word = 0;
    for (size_t i = 0; i < many; i++) {
        word ^= chars[i];
        for (int bit = 0; bit < 8; bit++)
            word = (word >> 1) ^ ((word & 1) != 0 ? 0xA001u : 0u);
    }
    return (uint16_t)word;
}

static inline void line_word(uint8_t *place, unsigned word)
{
    place[0] = (uint8_t)(word & 0xFF);
    place[1] = (uint8_t)(word >> 8 & 0xFF);
}

/* Writes a frame of at most LINE_MOST characters of data and 8 more; answers its length. */
static inline size_t line_frame(uint8_t *frame, unsigned unit, unsigned master, unsigned function, unsigned command, const uint8_t *data,
                                size_t many)
{
    line_word(frame, unit | master << 11);
    frame[2] = (uint8_t)function;
    frame[3] = (uint8_t)command;
    line_word(frame + 4, (unsigned)many);
    if (many > 0)
        memcpy(frame + 6, data, many);
    line_word(frame + 6 + many, line_check(frame, 6 + many));
    return many + 8;
}

#endif
