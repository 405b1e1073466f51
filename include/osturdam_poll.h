/* Osturdam: the master's side of the Cooper 2179 serial protocol, as a part to link (libpoll.a).
 *
 * A master keeps one memory for each unit that it polls, which its caller owns, stores and lends to each call; it is to be stored, with the
 * records, before a request goes out. Every call takes any contents of what is lent: numbers that no master writes build nothing and believe
 * nothing. What is lent to one call must not overlap, but for what is only read. A pointer whose length is 0 may be null; no other may.
 *
 *     static struct osturdam_poll poll;
 *     uint8_t frame[OSTURDAM_POLL_FRAME];
 *
 *     osturdam_poll_begin(poll.chars, osturdam_poll_address(31, 1234));
 *     send(frame, osturdam_poll_history(&poll, left, 3, 1, frame));
 *     uint8_t read = osturdam_poll_read(poll.chars, reply, many, room, left, kept);
 *
 * A unit has no number that ties a reply to its request: wait longer than it takes to answer before the next request. */
#ifndef OSTURDAM_POLL_H
#define OSTURDAM_POLL_H

#include <stdint.h>

#ifdef __cplusplus
extern "C" {
#endif

enum {
    OSTURDAM_POLL_MEMORY = 653, /* characters of a master's memory, for one unit */
    OSTURDAM_POLL_FRAME = 136,  /* the longest frame, and the shortest buffer that one is built in */
    OSTURDAM_POLL_ROOM = 511    /* the least room for records that history is asked for with, and a reply read with */
};

/* Where a memory tells what a reply will answer, so that its data can be taken apart. */
enum {
    OSTURDAM_POLL_AT_LATEST = 4,   /* the latest history request: its file, 32 more for a dump, 64 more with the acknowledge bit */
    OSTURDAM_POLL_AT_WAITING = 5,  /* what is outstanding: 0 nothing, 1 the latest history request, 2 another */
    OSTURDAM_POLL_AT_FUNCTION = 6, /* the function of another */
    OSTURDAM_POLL_AT_COMMAND = 7   /* and its command */
};

/* How a reply was read. The five refusals stand in the order in which they are judged; each sets the retry mark and changes nothing else. */
enum osturdam_read {
    OSTURDAM_READ_NORMAL = 0,
    OSTURDAM_READ_NOT_WHOLE = 1,
    OSTURDAM_READ_CHECK_WRONG = 2,
    OSTURDAM_READ_OTHER_ADDRESS = 3,
    OSTURDAM_READ_OTHER_FUNCTION = 4, /* or NOP and RST both set, or nothing is outstanding */
    OSTURDAM_READ_NO_SUCH_DATA = 5,   /* data that no unit could send to this request */
    OSTURDAM_READ_NOP = 6,
    OSTURDAM_READ_RST = 7,
    OSTURDAM_READ_NOT_CONFIGURED = 17, /* the memory is out of range */
    OSTURDAM_READ_ROOM_SHORT = 18
};

/* Any characters: those of a fresh master are made by osturdam_poll_begin. */
struct osturdam_poll {
    uint8_t chars[OSTURDAM_POLL_MEMORY];
};

/* ---- the calls */

/* A fresh master, by the address word of master and unit. Its first history request acknowledges. */
void osturdam_poll_begin(uint8_t poll[OSTURDAM_POLL_MEMORY], uint16_t address);

/* A request to the unit polled, or to all units where `all` is not 0; `room` is how much of the room for records is left. How many
 * characters of the buffer are to be sent; 0, and nothing changed, where the figures make no request, or history finds no room. */
uint64_t osturdam_poll_ask(uint8_t poll[OSTURDAM_POLL_MEMORY], uint64_t room, uint8_t all, uint8_t function, uint8_t command,
                           const uint8_t *body, uint64_t count, uint8_t *buffer, uint64_t length);

/* A reply read. Where records are kept, they stand in the front of the room, one behind the other: `kept` has how many, and how many
 * characters each has; else 0 and 0. The data of a reply that is believed stand behind its first seven characters. */
uint8_t osturdam_poll_read(uint8_t poll[OSTURDAM_POLL_MEMORY], const uint8_t *reply, uint64_t count, uint8_t *room, uint64_t length,
                           uint8_t kept[2]);

/* 1 where the reply before was not believed. */
uint8_t osturdam_poll_retry(const uint8_t poll[OSTURDAM_POLL_MEMORY]);

/* ---- each request by its name */

/* The address word of a master, 0 to 31, and a unit, 0 to 2046. */
static inline uint16_t osturdam_poll_address(uint8_t master, uint16_t unit)
{
    return (uint16_t)(master % 32 * 2048 + unit % 2048);
}

/* History is asked for by a repeat of the latest request where that was not answered: whatever file and kind are wished. */
static inline uint64_t osturdam_poll_history(struct osturdam_poll *p, uint64_t room, uint8_t file, uint8_t dump,
                                             uint8_t frame[OSTURDAM_POLL_FRAME])
{
    return osturdam_poll_ask(p->chars, room, 0, 0x04, file < 32 ? (uint8_t)(file + (dump ? 32 : 0)) : 0xFF, 0, 0, frame,
                             OSTURDAM_POLL_FRAME);
}

/* Any other request to the unit polled. */
static inline uint64_t osturdam_poll_other(struct osturdam_poll *p, uint8_t function, uint8_t command, const uint8_t *body, uint64_t count,
                                           uint8_t frame[OSTURDAM_POLL_FRAME])
{
    return osturdam_poll_ask(p->chars, 0, 0, function, command, body, count, frame, OSTURDAM_POLL_FRAME);
}

/* Inputs by kind: 1 simple status, 4 two-bit status, 8 analogs, 64 accumulators, added. */
static inline uint64_t osturdam_poll_scan(struct osturdam_poll *p, uint8_t kinds, uint8_t frame[OSTURDAM_POLL_FRAME])
{
    return osturdam_poll_other(p, 0x00, kinds, 0, 0, frame);
}

/* A table, 1 to 15. */
static inline uint64_t osturdam_poll_table(struct osturdam_poll *p, uint8_t table, uint8_t frame[OSTURDAM_POLL_FRAME])
{
    return osturdam_poll_other(p, 0x0A, table < 16 ? (uint8_t)(0x40 + table) : 0, 0, 0, frame);
}

/* Calculation values: those of 1 to 128 numbers, or all where count is 0. */
static inline uint64_t osturdam_poll_values(struct osturdam_poll *p, const uint8_t *numbers, uint64_t count,
                                            uint8_t frame[OSTURDAM_POLL_FRAME])
{
    return osturdam_poll_other(p, 0x03, count ? 0x00 : 0x80, numbers, count, frame);
}

/* A control output selected, to close or to trip. */
static inline uint64_t osturdam_poll_select(struct osturdam_poll *p, uint8_t output, uint8_t close, uint8_t frame[OSTURDAM_POLL_FRAME])
{
    return osturdam_poll_other(p, 0x10, close ? 0x11 : 0x10, &output, 1, frame);
}

/* The output that this master selected does what it was selected for. */
static inline uint64_t osturdam_poll_operate(struct osturdam_poll *p, uint8_t frame[OSTURDAM_POLL_FRAME])
{
    return osturdam_poll_other(p, 0x10, 0x20, 0, 0, frame);
}

/* 10h/21h: a select is given up, which a unit answers by RST. */
static inline uint64_t osturdam_poll_cancel(struct osturdam_poll *p, uint8_t frame[OSTURDAM_POLL_FRAME])
{
    return osturdam_poll_other(p, 0x10, 0x21, 0, 0, frame);
}

/* 20h/00: the unit forgets its latest history reply. */
static inline uint64_t osturdam_poll_initialise(struct osturdam_poll *p, uint8_t frame[OSTURDAM_POLL_FRAME])
{
    return osturdam_poll_other(p, 0x20, 0x00, 0, 0, frame);
}

/* An accumulator set to 0, of the unit polled or of all units, which do not answer. */
static inline uint64_t osturdam_poll_reset_count(struct osturdam_poll *p, uint8_t accumulator, uint8_t all,
                                                 uint8_t frame[OSTURDAM_POLL_FRAME])
{
    return osturdam_poll_ask(p->chars, 0, all, 0x20, 0x11, &accumulator, 1, frame, OSTURDAM_POLL_FRAME);
}

/* The time, in seven characters; of all units, which do not answer, or of the one polled. */
static inline uint64_t osturdam_poll_set_time(struct osturdam_poll *p, const uint8_t time[7], uint8_t all,
                                              uint8_t frame[OSTURDAM_POLL_FRAME])
{
    return osturdam_poll_ask(p->chars, 0, all, 0x20, 0x38, time, 7, frame, OSTURDAM_POLL_FRAME);
}

/* Where the characters of the EXECUTE that follows go; a unit answers nothing to it, or RST. */
static inline uint64_t osturdam_poll_write(struct osturdam_poll *p, uint16_t bias, uint8_t ordinal, uint8_t frame[OSTURDAM_POLL_FRAME])
{
    const uint8_t body[3] = {(uint8_t)(bias % 256), (uint8_t)(bias / 256), ordinal};
    return osturdam_poll_other(p, 0x20, 0x30, body, sizeof body, frame);
}

/* 1 to 128 characters for the WRITE before. */
static inline uint64_t osturdam_poll_execute(struct osturdam_poll *p, const uint8_t *chars, uint64_t count,
                                             uint8_t frame[OSTURDAM_POLL_FRAME])
{
    return osturdam_poll_other(p, 0x20, 0x31, chars, count, frame);
}

/* A part of an ordinal's block. */
static inline uint64_t osturdam_poll_block(struct osturdam_poll *p, uint16_t bias, uint8_t ordinal, uint8_t count,
                                           uint8_t frame[OSTURDAM_POLL_FRAME])
{
    const uint8_t body[4] = {(uint8_t)(bias % 256), (uint8_t)(bias / 256), ordinal, count};
    return osturdam_poll_other(p, 0x28, 0x30, body, sizeof body, frame);
}

/* The time of the unit. */
static inline uint64_t osturdam_poll_time(struct osturdam_poll *p, uint8_t frame[OSTURDAM_POLL_FRAME])
{
    return osturdam_poll_other(p, 0x28, 0x31, 0, 0, frame);
}

#ifdef __cplusplus
}
#endif

#endif
