// A request on its way through the functions of the plain unit.
#ifndef PLAIN_SERVE_H
#define PLAIN_SERVE_H

#include "plain.h"

#include <stdbool.h>

enum {
    WRITE = OSTURDAM_STRETCH - OSTURDAM_FRAME,
    HEAD = 7,
    LAST_MASTER = 31,
    DATA = OSTURDAM_REPLY - HEAD - 2,
    SLOT = OSTURDAM_RECORD_HEAD + 2 * OSTURDAM_VALUES
};

typedef struct plain_config Config;
typedef struct plain_unit Unit;
typedef struct plain_kept Kept;
typedef struct plain_turned Turned;

// The request's data, the milliseconds since its sync point, the reply's data behind the head of the buffer, and what the outputs do.
typedef struct {
    const Config *c;
    Unit *u;
    uint8_t master, function, command;
    const uint8_t *data;
    size_t count;
    uint32_t lag;
    uint8_t *reply;
    size_t filled;
    uint8_t action, output;
} Request;

// A frame to this unit, and one to all units; both answer an outcome.
int plain_serve(Request *r);
int plain_broadcast(Request *r);

void plain_move_clock(Kept *k, uint32_t ms);

// The characters of a record before its values.
void plain_stamp(const Kept *k, uint8_t event, uint8_t *record);

static inline unsigned word_at(const uint8_t *s)
{
    return s[0] | s[1] << 8;
}

static inline void put_word(uint8_t *s, unsigned word)
{
    s[0] = word;
    s[1] = word >> 8;
}

static inline bool accumulator(const Config *c, uint8_t input)
{
    return c->inputs[input] && input >= 0x40 && input < 0x60;
}

// A group of contacts.
static inline bool two_bit(uint8_t input)
{
    return input / OSTURDAM_GROUPS == 0;
}

// The place of a mean, or OSTURDAM_MEANS.
static inline unsigned mean_place(const Config *c, uint8_t calculation)
{
    unsigned place = 0;
    while (place < OSTURDAM_MEANS && (!c->windows[place] || c->means[place] != calculation))
        place++;
    return place;
}

static inline unsigned record_size(const Config *c, unsigned file)
{
    return OSTURDAM_RECORD_HEAD + 2 * c->values[file];
}

static inline unsigned most_sent(const Config *c, unsigned file, bool dump)
{
    return dump ? (DATA - 1) / record_size(c, file) : 1;
}

// Every file has slots of the longest record, so that it starts where its number says.
static inline uint8_t *file_start(Unit *u, unsigned file)
{
    return u->records + file * OSTURDAM_ROOM * SLOT;
}

#endif
