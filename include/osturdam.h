/* Osturdam: the remote unit of the Cooper 2179 serial protocol, as a part to link (libboard.a; where it is installed, libosturdam.a).
 *
 * A unit is memory that its caller owns and lends to each call: its own memory (configuration, points, clock and what else it knows),
 * its parameter block, and its records. There is no global state, no heap and no clock: the caller hands over each stretch of
 * characters between two idle marks, the milliseconds that passed, and what happens locally. Nothing is kept by the library between
 * calls, and two units do not touch.
 *
 * Every call takes any contents of what is lent, tells by its outcome what it made of them, and returns. Nothing is read or written past
 * the lengths given. What is lent to one call must not overlap, but for what is only read. A pointer whose length is 0 may be null; no
 * other may.
 *
 *     static struct osturdam_config config;
 *     static struct osturdam_together all;
 *
 *     if (osturdam_layout() != OSTURDAM_LAYOUT)
 *         give_up();
 *     osturdam_put_number(&config, 1234);
 *     osturdam_equip_input(&config, 0x40);
 *     struct osturdam_lent lent = osturdam_lend(&all, &config);
 *     osturdam_begin(&lent, &config);
 *
 *     struct osturdam_heard heard = { .chars = line, .count = many, .buffer = reply, .room = sizeof reply, .lag = since_sync };
 *     struct osturdam_turned turned;
 *     osturdam_hear(&lent, &heard, &turned);
 *
 * Then the caller stores what it lent, has the output do what `turned` says, and sends `turned.sent` characters of the buffer. */
#ifndef OSTURDAM_H
#define OSTURDAM_H

#include <stdint.h>

#ifdef __cplusplus
extern "C" {
#endif

/* Of this interface: one more where a call changes, or the meaning of what it takes. Where a unit's memory changes, OSTURDAM_LAYOUT is
 * another, and a unit that was stored in another layout is OSTURDAM_NOT_CONFIGURED. A program holds this header to its library once, before
 * its first unit: osturdam_layout() == OSTURDAM_LAYOUT. */
#define OSTURDAM_VERSION 8

/* ---- limits, lengths, and where a unit's parts lie in its memory */

/* tables, with their own columns: clang-format leaves them as they are */
/* clang-format off */
/* from here on made by tools/places */
enum {
    OSTURDAM_INPUTS = 256,          /* input, output and calculation numbers */
    OSTURDAM_CALCULATIONS = 128,    /* calculation values kept */
    OSTURDAM_FILES = 32,            /* history files */
    OSTURDAM_GROUPS = 32,           /* groups of eight contacts: the inputs of two-bit status */
    OSTURDAM_MEANS = 16,            /* the most calculations that are means of samples */
    OSTURDAM_SAMPLES = 256,         /* the most samples that a mean is over */
    OSTURDAM_FIXED = 528,           /* characters of the blocks of fixed length */
    OSTURDAM_BLOCK = 512,           /* the longest parameter block */
    OSTURDAM_FRAME = 136,           /* the longest frame of a master */
    OSTURDAM_STRETCH = 147,         /* the longest stretch that is not damage: a WRITE and its EXECUTE */
    OSTURDAM_REPLY = 520,           /* the longest reply, and the shortest buffer that a stretch is served with */
    OSTURDAM_VALUES = 16,           /* the most values in a record */
    OSTURDAM_ROOM = 32,             /* the most records in a file */
    OSTURDAM_DROPPED = 65535,       /* the most records of a file that are told as dropped */
    OSTURDAM_RECORD_HEAD = 6,       /* a record's characters before its values: event and clock */
    OSTURDAM_RECORDS = 38912,       /* the most characters of records that a configuration asks for */
    OSTURDAM_LENT = 47104,          /* the most characters of records and samples that it asks for */
    OSTURDAM_HOLD_MS = 5000,        /* for how long a select or a write is held */
    OSTURDAM_SILENT_MS = 60000,     /* after how long with no stretch a port is silent */
    OSTURDAM_LAG_MS = 10000,        /* the longest lag with which a Set Time is taken */
    OSTURDAM_PLANS = 112,           /* characters of the scan plans */
    OSTURDAM_CONFIG = 932,          /* characters of a configuration, which lies from AT_NUMBER on in a unit's memory */
    OSTURDAM_UNIT = 2810,           /* characters of a unit's memory */
    OSTURDAM_LAYOUT = 6,            /* the number of this layout, which stands first in the memory */
    OSTURDAM_AT_LAYOUT = 0,
    OSTURDAM_AT_NUMBER = 2,
    OSTURDAM_AT_LENGTH = 4,
    OSTURDAM_AT_INPUTS = 6,
    OSTURDAM_AT_OUTPUTS = 262,
    OSTURDAM_AT_CALCULATIONS = 518,
    OSTURDAM_AT_FILES = 774,
    OSTURDAM_AT_VALUES = 806,
    OSTURDAM_AT_OLDEST = 838,
    OSTURDAM_AT_MEANS = 870,
    OSTURDAM_AT_SAMPLED = 886,
    OSTURDAM_AT_WINDOWS = 902,
    OSTURDAM_AT_NUMBERS = 934,
    OSTURDAM_AT_WORDS = 986,
    OSTURDAM_AT_RESULTS = 1498,
    OSTURDAM_AT_FIXED = 2010,
    OSTURDAM_AT_COUNTS = 2538,
    OSTURDAM_AT_DROPPED = 2570,
    OSTURDAM_AT_CHANGED = 2634,
    OSTURDAM_AT_TAKEN = 2666,
    OSTURDAM_AT_PLANS = 2698,
    OSTURDAM_AT_00 = 2010,          /* the block of ordinal 00h */
    OSTURDAM_LENGTH_00 = 16,
    OSTURDAM_AT_03 = 2026,          /* the block of ordinal 03h */
    OSTURDAM_LENGTH_03 = 256,
    OSTURDAM_AT_0B = 2282,          /* the block of ordinal 0Bh */
    OSTURDAM_LENGTH_0B = 256
};
/* to here */

/* ---- numbers with names */

/* How an event ended. */
enum osturdam_outcome {
    OSTURDAM_DONE = 0,
    OSTURDAM_NOT_WHOLE = 1,         /* no whole frame */
    OSTURDAM_CHECK_WRONG = 2,       /* wrong check characters */
    OSTURDAM_OTHER_UNIT = 3,        /* a frame for another unit */
    OSTURDAM_BROADCAST_DONE = 4,    /* a broadcast, carried out */
    OSTURDAM_WRITE_TAKEN = 5,       /* a WRITE waits for its EXECUTE */
    OSTURDAM_UNKNOWN = 6,           /* a function or command that the unit does not have */
    OSTURDAM_WRONG_COUNT = 7,       /* a count that the command does not have */
    OSTURDAM_NOT_VALID = 8,         /* a number not equipped, a place not there, or a value not valid */
    OSTURDAM_TOO_LONG = 9,          /* more than a reply can carry */
    OSTURDAM_NOTHING_AGAIN = 10,    /* no reply to repeat */
    OSTURDAM_SELECT_TIMED_OUT = 11,
    OSTURDAM_BROKEN_OFF = 12,       /* a select broken off by another frame of its master */
    OSTURDAM_SELECT_HELD = 13,      /* another master's select is held */
    OSTURDAM_NOTHING_WAITS = 14,    /* nothing to operate or to execute */
    OSTURDAM_WRITE_HELD = 15,       /* another master's write waits */
    OSTURDAM_BROADCAST_REFUSED = 16,
    OSTURDAM_NOT_CONFIGURED = 17,   /* configuration, unit or what is lent is not one of a unit in range: nothing was changed */
    OSTURDAM_BUFFER_SHORT = 18      /* the buffer is shorter than OSTURDAM_REPLY: nothing was changed */
};

/* How storing a record ended: these are no outcomes. */
enum osturdam_stored {
    OSTURDAM_STORED = 0,            /* a full file that does not keep the oldest dropped a record for it, and the error bit is set */
    OSTURDAM_FILE_FULL = 1,         /* nothing was stored, and the error bit is set: the file keeps the oldest, or may drop none */
    OSTURDAM_NO_FILE = 2,           /* the file is not equipped */
    OSTURDAM_WRONG_VALUES = 3,      /* not as many values as the file's records have */
    OSTURDAM_STORE_NOT_CONFIGURED = 17 /* as OSTURDAM_NOT_CONFIGURED: nothing was changed */
};

/* What the caller has a control output do now. */
enum osturdam_action {
    OSTURDAM_REST = 0,
    OSTURDAM_OPEN = 1,
    OSTURDAM_CLOSE = 2
};

/* The unit's one select. */
enum osturdam_hold {
    OSTURDAM_FREE = 0,
    OSTURDAM_HELD = 1,
    OSTURDAM_TIMED_OUT = 2          /* a master's select has, which is told to it once */
};

/* The unit's one write. */
enum osturdam_pending {
    OSTURDAM_NO_WRITE = 0,
    OSTURDAM_WAITS = 1
};

/* The latest history reply: its records are released when its master acknowledges. */
enum osturdam_memory {
    OSTURDAM_NOTHING = 0,
    OSTURDAM_REMEMBERED = 1
};

/* The state of port 1. */
enum osturdam_mark {
    OSTURDAM_FINE = 0,
    OSTURDAM_SILENT = 1,            /* for OSTURDAM_SILENT_MS or more */
    OSTURDAM_DAMAGED = 2            /* damage was heard */
};

/* The blocks that a master writes and reads. */
enum osturdam_ordinal {
    OSTURDAM_ORDINAL_00 = 0x00,     /* written, it clears the error bit */
    OSTURDAM_ORDINAL_03 = 0x03,     /* the table area; written, the unit is configured */
    OSTURDAM_ORDINAL_06 = 0x06,     /* the parameter block, a memory of its own */
    OSTURDAM_ORDINAL_0B = 0x0B
};

/* The numbers that a unit keeps besides its points, blocks and records, each a word of `numbers`. Where nothing is held, waits or is
 * remembered, its other numbers are 0. Any may be stored; numbers that no unit writes are told by OSTURDAM_NOT_CONFIGURED. */
enum osturdam_kept {
    OSTURDAM_DAY = 0,               /* 1 to 366 */
    OSTURDAM_HOUR = 1,
    OSTURDAM_MINUTE = 2,
    OSTURDAM_SECOND = 3,
    OSTURDAM_MS = 4,
    OSTURDAM_SELECT = 5,            /* enum osturdam_hold */
    OSTURDAM_SELECT_MASTER = 6,
    OSTURDAM_SELECT_OUTPUT = 7,
    OSTURDAM_SELECT_CLOSE = 8,      /* 1 to close, 0 to open */
    OSTURDAM_SELECT_AGE = 9,        /* milliseconds, to OSTURDAM_HOLD_MS */
    OSTURDAM_WRITE = 10,            /* enum osturdam_pending */
    OSTURDAM_WRITE_MASTER = 11,
    OSTURDAM_WRITE_BIAS = 12,
    OSTURDAM_WRITE_ORDINAL = 13,
    OSTURDAM_WRITE_AGE = 14,
    OSTURDAM_STATUS_CONFIGURE = 15, /* status bit 7: the unit is to be configured */
    OSTURDAM_STATUS_ERROR = 16,     /* status bit 3: a file was full, and refused a record or dropped one */
    OSTURDAM_STATUS_BROADCAST = 17, /* status bit 2: a broadcast was heard */
    OSTURDAM_MEMORY = 18,           /* enum osturdam_memory */
    OSTURDAM_MEMORY_MASTER = 19,
    OSTURDAM_MEMORY_FILE = 20,
    OSTURDAM_MEMORY_DUMP = 21,      /* 1: as many records as fit, 0: one */
    OSTURDAM_MEMORY_QUANTITY = 22,
    OSTURDAM_MEMORY_MORE = 23,      /* 1: it said that more are held */
    OSTURDAM_SILENCE = 24,          /* milliseconds with no stretch, to OSTURDAM_SILENT_MS */
    OSTURDAM_MARK = 25,             /* enum osturdam_mark */
    OSTURDAM_KEPT = 26              /* how many there are */
};

/* ---- a unit's memory: characters alone, in the same order on every machine, with nothing between them
 *
 * Words, values and kept numbers are characters too, low character first; the calls below read and write them. So a stored unit is a file
 * or a page of FRAM as it stands. */

/* Which numbers are equipped (0: not; any other character: equipped), and how long records and the parameter block are. A configuration
 * is given once, to osturdam_begin, which lays it into the unit; its parts stand in it by OSTURDAM_AT_NUMBER less than in the unit. */
struct osturdam_config {
    uint8_t number[2];                      /* of the unit: 0 to 7FEh */
    uint8_t length[2];                      /* of the parameter block, 0 to OSTURDAM_BLOCK */
    uint8_t inputs[OSTURDAM_INPUTS];        /* 00-1Fh two-bit status, 30h-3Fh simple status, 40h-5Fh accumulators, 80h-FFh analogs */
    uint8_t outputs[OSTURDAM_INPUTS];
    uint8_t calculations[OSTURDAM_INPUTS];  /* 00 to 7Fh */
    uint8_t files[OSTURDAM_FILES];
    uint8_t values[OSTURDAM_FILES];         /* of each equipped file: 1 to OSTURDAM_VALUES */
    uint8_t oldest[OSTURDAM_FILES];         /* 0: full, it drops its oldest record for a new one; any other: it keeps the oldest */
    uint8_t means[OSTURDAM_MEANS];          /* of each place for a mean: an equipped calculation, which no other place has */
    uint8_t sampled[OSTURDAM_MEANS];        /* the equipped analog that is sampled for it */
    uint8_t windows[2 * OSTURDAM_MEANS];    /* over how many samples it is: 1, 2, 4 to OSTURDAM_SAMPLES; 0: the place is not used */
};

struct osturdam_unit {
    uint8_t layout[2];                      /* OSTURDAM_LAYOUT */
    struct osturdam_config config;
    uint8_t numbers[2 * OSTURDAM_KEPT];     /* enum osturdam_kept */
    uint8_t words[2 * OSTURDAM_INPUTS];
    uint8_t results[4 * OSTURDAM_CALCULATIONS];
    uint8_t fixed[OSTURDAM_FIXED];          /* the blocks of ordinals 00, 03 and 0Bh */
    uint8_t counts[OSTURDAM_FILES];         /* how many records each file holds */
    uint8_t dropped[2 * OSTURDAM_FILES];    /* and how many it has dropped */
    uint8_t changed[OSTURDAM_GROUPS];       /* of each group of contacts: which have changed since its last reply */
    uint8_t taken[2 * OSTURDAM_MEANS];      /* of each place for a mean: how many samples are in */
    uint8_t plans[OSTURDAM_PLANS];          /* made of the tables (ordinal 03): how each scan of one ends, and where its numbers stand */
};

/* What a unit's caller lends. Each equipped file has room for OSTURDAM_ROOM records of its own length, one behind the other with the oldest
 * first; the files lie by their numbers with nothing between them, and one that is not equipped takes nothing (osturdam_record_place). Behind
 * them each mean has room for as many samples as it is over, two characters each, in the order of the places (osturdam_samples_place). Fewer
 * characters than the configuration asks for (osturdam_room_of) are OSTURDAM_NOT_CONFIGURED, and so is a block of another length than its own;
 * of more, what lies behind those that it asks for is never touched. */
struct osturdam_lent {
    struct osturdam_unit *unit;
    uint8_t *block;                         /* the parameter block */
    uint64_t length;                        /* of the parameter block */
    uint8_t *records;                       /* and the samples behind them */
    uint64_t room;                          /* characters of records and samples */
};

/* A unit that lies all together, whatever its configuration asks for. */
struct osturdam_together {
    struct osturdam_unit unit;
    uint8_t block[OSTURDAM_BLOCK];          /* its first characters are the parameter block */
    uint8_t records[OSTURDAM_LENT];         /* its first characters are the files, and behind them the samples */
};

/* What a stretch comes with: to be filled by the fields' names, the others 0, since fields may be added.
 *
 * A Set Time carries the time of its sync point: the edge that ends the start bit of the fifth character, the low one of the count. The clock
 * becomes that time and the lag: how long ago the sync point was, at the moment up to which the milliseconds that passed were handed over
 * (osturdam_wait). So a driver marks the time of every fifth character, since it cannot know yet what the stretch will be; at the idle mark it
 * hands over what passed up to it, then the stretch with the difference, to the nearest millisecond, and none is lost or counted twice. The
 * time that a master suspends its sending before the sync point is no part of it. A Set Time is taken with a lag of 0 to OSTURDAM_LAG_MS; a
 * longer one is OSTURDAM_NOT_VALID, and OSTURDAM_BROADCAST_REFUSED to all units. No other stretch looks at it. Where there was no fifth
 * character, or nothing was measured, it is 0; a clock that is set so is late by what was not measured. */
struct osturdam_heard {
    const uint8_t *chars;                   /* the characters between two idle marks */
    uint64_t count;
    uint8_t *buffer;                        /* for the reply */
    uint64_t room;                          /* of the buffer: OSTURDAM_REPLY or more */
    uint32_t lag;                           /* milliseconds from the sync point to the idle mark that ended the stretch */
};

/* How a stretch ended. */
struct osturdam_turned {
    uint16_t sent;                          /* how many characters at the front of the buffer are to be sent; 0: nothing */
    enum osturdam_outcome outcome;
    enum osturdam_action action;
    uint8_t output;                         /* the control output of the action */
};

/* What became of a sample: a mean, or how many samples are still missing. Where it was not taken both are 0. */
struct osturdam_sampled {
    enum osturdam_outcome outcome;
    uint16_t missing;                       /* 0: the mean is ready */
    uint32_t mean;                          /* the 32 bits of a single-precision float; 0 until it is ready */
};
/* clang-format on */

/* ---- what the library exports; the calls further down are made of these */

/* The number of the layout that the library reads and writes, and by which it judges a unit's memory. */
uint16_t osturdam_layout(void);

/* The check of characters from `start`: 0, or the check of what stands before them. So head and data that lie in two buffers are checked in
 * turn, and the check is that of the two joined; with its check characters behind it, low one first, a frame leaves 0. */
uint16_t osturdam_check(uint16_t start, const uint8_t *chars, uint64_t count);

/* 1 for a configuration that a unit can have, else 0. */
uint8_t osturdam_valid(const uint8_t config[OSTURDAM_CONFIG]);

/* How many characters of records and samples a configuration asks for. */
uint64_t osturdam_room(const uint8_t config[OSTURDAM_CONFIG]);

/* How many records of a file a unit has dropped: to OSTURDAM_DROPPED, where it stays. Nothing clears it but osturdam_fresh. */
uint16_t osturdam_dropped(const uint8_t unit[OSTURDAM_UNIT], uint8_t file);

/* Makes every scan plan anew, of the tables and the equipment as they are: to be called once for a unit that was stored, before any event. What
 * this library's own calls left is not changed by it; plans that were changed elsewhere, or with the tables, are served as they are until then. */
void osturdam_replan(uint8_t unit[OSTURDAM_UNIT]);

void osturdam_fresh(uint8_t unit[OSTURDAM_UNIT], uint8_t *block, uint64_t length, const uint8_t config[OSTURDAM_CONFIG]);

/* `lag` is in milliseconds, from the sync point to the idle mark, as in struct osturdam_heard. `turned` receives: low and high character of
 * how many are sent, action, output. */
uint8_t osturdam_stretch(uint8_t unit[OSTURDAM_UNIT], uint8_t *block, uint64_t length, uint8_t *records, uint64_t room, uint8_t *buffer,
                         uint64_t buffer_room, const uint8_t *chars, uint64_t count, uint32_t lag, uint8_t turned[4]);

uint8_t osturdam_elapsed(uint8_t unit[OSTURDAM_UNIT], const uint8_t *block, uint64_t length, const uint8_t *records, uint64_t room,
                         uint32_t ms);

uint8_t osturdam_set_word(uint8_t unit[OSTURDAM_UNIT], const uint8_t *block, uint64_t length, const uint8_t *records, uint64_t room,
                          uint8_t input, uint16_t word);

uint8_t osturdam_contact(uint8_t unit[OSTURDAM_UNIT], const uint8_t *block, uint64_t length, const uint8_t *records, uint64_t room,
                         uint8_t contact, uint8_t state);

uint8_t osturdam_pulses(uint8_t unit[OSTURDAM_UNIT], const uint8_t *block, uint64_t length, const uint8_t *records, uint64_t room,
                        uint8_t input, uint16_t count);

uint8_t osturdam_set_value(uint8_t unit[OSTURDAM_UNIT], const uint8_t *block, uint64_t length, const uint8_t *records, uint64_t room,
                           uint8_t calculation, uint32_t value);

uint8_t osturdam_store_record(uint8_t unit[OSTURDAM_UNIT], const uint8_t *block, uint64_t length, uint8_t *records, uint64_t room,
                              uint8_t file, uint8_t event, const uint16_t *values, uint64_t many);

/* `sampled` receives: low and high character of how many samples are missing, then the four characters of the mean's bits, low one first;
 * six zeros where the sample was not taken. */
uint8_t osturdam_sample(uint8_t unit[OSTURDAM_UNIT], const uint8_t *block, uint64_t length, uint8_t *records, uint64_t room,
                        uint8_t calculation, uint8_t sampled[6]);

/* ---- characters as words and values */

static inline uint16_t osturdam_word_at(const uint8_t *place)
{
    return (uint16_t)(place[0] | place[1] << 8);
}

static inline void osturdam_word_to(uint8_t *place, uint16_t word)
{
    place[0] = (uint8_t)(word & 0xFF);
    place[1] = (uint8_t)(word >> 8);
}

static inline uint32_t osturdam_value_at(const uint8_t *place)
{
    return osturdam_word_at(place) | (uint32_t)osturdam_word_at(place + 2) << 16;
}

static inline void osturdam_value_to(uint8_t *place, uint32_t value)
{
    osturdam_word_to(place, (uint16_t)(value & 0xFFFF));
    osturdam_word_to(place + 2, (uint16_t)(value >> 16));
}

/* ---- a configuration: nothing is equipped in one that is all 0 */

static inline uint16_t osturdam_number_of(const struct osturdam_config *c)
{
    return osturdam_word_at(c->number);
}

static inline void osturdam_put_number(struct osturdam_config *c, uint16_t number)
{
    osturdam_word_to(c->number, number);
}

/* Of the parameter block. */
static inline uint16_t osturdam_length_of(const struct osturdam_config *c)
{
    return osturdam_word_at(c->length);
}

static inline void osturdam_put_length(struct osturdam_config *c, uint16_t length)
{
    osturdam_word_to(c->length, length);
}

static inline int osturdam_has_input(const struct osturdam_config *c, uint8_t input)
{
    return c->inputs[input] != 0;
}

static inline void osturdam_equip_input(struct osturdam_config *c, uint8_t input)
{
    c->inputs[input] = 1;
}

static inline int osturdam_has_output(const struct osturdam_config *c, uint8_t output)
{
    return c->outputs[output] != 0;
}

static inline void osturdam_equip_output(struct osturdam_config *c, uint8_t output)
{
    c->outputs[output] = 1;
}

static inline int osturdam_has_calculation(const struct osturdam_config *c, uint8_t calculation)
{
    return c->calculations[calculation] != 0;
}

static inline void osturdam_equip_calculation(struct osturdam_config *c, uint8_t calculation)
{
    c->calculations[calculation] = 1;
}

/* No file from OSTURDAM_FILES on is equipped, and asking for one equips nothing. */
static inline int osturdam_has_file(const struct osturdam_config *c, uint8_t file)
{
    return file < OSTURDAM_FILES && c->files[file] != 0;
}

/* How many values the records of a file have. */
static inline uint8_t osturdam_values_of(const struct osturdam_config *c, uint8_t file)
{
    return file < OSTURDAM_FILES ? c->values[file] : (uint8_t)0;
}

/* It keeps the oldest, unless osturdam_keep_newest says otherwise. */
static inline void osturdam_equip_file(struct osturdam_config *c, uint8_t file, uint8_t values)
{
    if (file < OSTURDAM_FILES) {
        c->files[file] = 1;
        c->values[file] = values;
        c->oldest[file] = 1;
    }
}

/* A file that is full keeps the oldest records, and a new one is OSTURDAM_FILE_FULL; or it keeps the newest, and drops the oldest that is not
 * in the latest history reply. */
static inline int osturdam_keeps_oldest(const struct osturdam_config *c, uint8_t file)
{
    return file < OSTURDAM_FILES && c->oldest[file] != 0;
}

static inline void osturdam_keep_newest(struct osturdam_config *c, uint8_t file)
{
    if (file < OSTURDAM_FILES)
        c->oldest[file] = 0;
}

/* Over how many samples the mean of a place is; 0 of a place that is not used, and from OSTURDAM_MEANS on. */
static inline uint16_t osturdam_window_of(const struct osturdam_config *c, uint8_t place)
{
    return place < OSTURDAM_MEANS ? osturdam_word_at(c->windows + 2 * place) : (uint16_t)0;
}

/* The place of a calculation that is a mean, or OSTURDAM_MEANS. */
static inline uint8_t osturdam_mean_place(const struct osturdam_config *c, uint8_t calculation)
{
    uint8_t place = 0;
    while (place < OSTURDAM_MEANS && (osturdam_window_of(c, place) == 0 || c->means[place] != calculation))
        place++;
    return place;
}

/* A place, 0 to OSTURDAM_MEANS - 1, is for the mean of the last so many samples of an analog. Both numbers are equipped besides, and no other
 * place has the calculation; the same analog may be sampled for several. */
static inline void osturdam_equip_mean(struct osturdam_config *c, uint8_t place, uint8_t calculation, uint8_t analog, uint16_t samples)
{
    if (place < OSTURDAM_MEANS) {
        c->means[place] = calculation;
        c->sampled[place] = analog;
        osturdam_word_to(c->windows + 2 * place, samples);
    }
}

/* How long the records of a file are; 0 of a file that is not equipped. */
static inline uint16_t osturdam_record_length(const struct osturdam_config *c, uint8_t file)
{
    return osturdam_has_file(c, file) ? (uint16_t)(OSTURDAM_RECORD_HEAD + 2 * osturdam_values_of(c, file)) : (uint16_t)0;
}

/* Where a record's characters start in what is lent for records: record 0 of a file is its oldest. */
static inline uint64_t osturdam_record_place(const struct osturdam_config *c, uint8_t file, uint8_t record)
{
    uint64_t below = 0;
    for (uint8_t f = 0; f < file; f++)
        below += osturdam_record_length(c, f);
    return OSTURDAM_ROOM * below + (uint64_t)record * osturdam_record_length(c, file);
}

/* Where the samples of a place start behind the records: the oldest stands first, and as many as are in (osturdam_taken_of) are samples. */
static inline uint64_t osturdam_samples_place(const struct osturdam_config *c, uint8_t place)
{
    uint64_t below = 0;
    for (uint8_t p = 0; p < place; p++)
        below += osturdam_window_of(c, p);
    return osturdam_record_place(c, OSTURDAM_FILES, 0) + 2 * below;
}

/* How many characters of records and samples a unit of it asks for: OSTURDAM_LENT at most, if it is valid. A program that sets them aside
 * before it runs adds OSTURDAM_RECORDS_OF of each file and OSTURDAM_SAMPLES_OF of each mean. */
static inline uint64_t osturdam_room_of(const struct osturdam_config *c)
{
    return osturdam_room((const uint8_t *)c);
}

/* What a file asks for whose records have so many values. */
#define OSTURDAM_RECORDS_OF(values) (OSTURDAM_ROOM * (OSTURDAM_RECORD_HEAD + 2 * (values)))

/* What a mean asks for that is over so many samples. */
#define OSTURDAM_SAMPLES_OF(samples) (2 * (samples))

/* Whether a unit can have it: whether osturdam_begin makes a unit of it that takes events. Of all calls it alone needs much stack, as
 * much as a unit's memory has characters; where there is not so much, the first event tells as well. */
static inline int osturdam_is_valid(const struct osturdam_config *c)
{
    return osturdam_valid((const uint8_t *)c) != 0;
}

/* ---- what a unit holds. Events change it; a caller that writes by osturdam_put_... writes what no event did. */

static inline uint16_t osturdam_word_of(const struct osturdam_unit *u, uint8_t input)
{
    return osturdam_word_at(u->words + 2 * input);
}

static inline void osturdam_put_word(struct osturdam_unit *u, uint8_t input, uint16_t word)
{
    osturdam_word_to(u->words + 2 * input, word);
}

/* A number that no calculation has, has the value 0. */
static inline uint32_t osturdam_value_of(const struct osturdam_unit *u, uint8_t calculation)
{
    return calculation < OSTURDAM_CALCULATIONS ? osturdam_value_at(u->results + 4 * calculation) : 0;
}

static inline void osturdam_put_value(struct osturdam_unit *u, uint8_t calculation, uint32_t value)
{
    if (calculation < OSTURDAM_CALCULATIONS)
        osturdam_value_to(u->results + 4 * calculation, value);
}

/* How many records a file holds. */
static inline uint8_t osturdam_count_of(const struct osturdam_unit *u, uint8_t file)
{
    return file < OSTURDAM_FILES ? u->counts[file] : (uint8_t)0;
}

static inline void osturdam_put_count(struct osturdam_unit *u, uint8_t file, uint8_t count)
{
    if (file < OSTURDAM_FILES)
        u->counts[file] = count;
}

/* How many records of a file were dropped. */
static inline uint16_t osturdam_dropped_of(const struct osturdam_unit *u, uint8_t file)
{
    return osturdam_dropped((const uint8_t *)u, file);
}

/* How many samples of the mean of a place are in. */
static inline uint16_t osturdam_taken_of(const struct osturdam_unit *u, uint8_t place)
{
    return place < OSTURDAM_MEANS ? osturdam_word_at(u->taken + 2 * place) : (uint16_t)0;
}

/* How long the block of an ordinal of the fixed area is; 0 for any other. */
static inline uint16_t osturdam_fixed_length(uint8_t ordinal)
{
    switch (ordinal) {
    case OSTURDAM_ORDINAL_00: return OSTURDAM_LENGTH_00;
    case OSTURDAM_ORDINAL_03: return OSTURDAM_LENGTH_03;
    case OSTURDAM_ORDINAL_0B: return OSTURDAM_LENGTH_0B;
    default: return 0;
    }
}

/* Where that block starts in `fixed`. */
static inline uint16_t osturdam_fixed_place(uint8_t ordinal)
{
    switch (ordinal) {
    case OSTURDAM_ORDINAL_03: return OSTURDAM_AT_03 - OSTURDAM_AT_FIXED;
    case OSTURDAM_ORDINAL_0B: return OSTURDAM_AT_0B - OSTURDAM_AT_FIXED;
    default: return OSTURDAM_AT_00 - OSTURDAM_AT_FIXED;
    }
}

/* One of the kept numbers. */
static inline uint16_t osturdam_kept_of(const struct osturdam_unit *u, enum osturdam_kept which)
{
    return osturdam_word_at(u->numbers + 2 * which);
}

static inline void osturdam_put_kept(struct osturdam_unit *u, enum osturdam_kept which, uint16_t number)
{
    osturdam_word_to(u->numbers + 2 * which, number);
}

/* ---- lending */

/* A unit that lies together, with a parameter block as long as a configuration says: the one that osturdam_begin is given, or, of a unit that
 * was stored, its own (&t->unit.config). Of a length that does not fit none is lent, and the next event tells. */
static inline struct osturdam_lent osturdam_lend(struct osturdam_together *t, const struct osturdam_config *c)
{
    struct osturdam_lent lent;
    lent.unit = &t->unit;
    lent.block = t->block;
    lent.length = osturdam_length_of(c) <= OSTURDAM_BLOCK ? osturdam_length_of(c) : 0;
    lent.records = t->records;
    lent.room = sizeof t->records;
    return lent;
}

/* ---- events: each judges configuration and unit, and changes nothing where OSTURDAM_NOT_CONFIGURED is its answer */

/* The unit begins, whatever its memory held: the configuration, which must lie elsewhere, is laid into it, the clock is on day 1,
 * 00:00:00.000, status bit 7 is set, all else and the parameter block are 0, and no record or sample is counted. The characters of records and
 * samples are left as they are. This tells nothing: a configuration that no unit has is told by osturdam_is_valid, and by the first event. */
static inline void osturdam_begin(const struct osturdam_lent *l, const struct osturdam_config *c)
{
    osturdam_fresh((uint8_t *)l->unit, l->block, l->length, (const uint8_t *)c);
}

/* A unit that was stored goes on: its scan plans are made anew. Memory of another layout is left as it is, and told by the first event. */
static inline void osturdam_go_on(const struct osturdam_lent *l)
{
    if (osturdam_word_at(l->unit->layout) == OSTURDAM_LAYOUT)
        osturdam_replan((uint8_t *)l->unit);
}

/* A stretch was heard, which had its sync point `lag` milliseconds ago (struct osturdam_heard). Of the buffer the reply alone is written. */
static inline enum osturdam_outcome osturdam_hear(const struct osturdam_lent *l, const struct osturdam_heard *h, struct osturdam_turned *t)
{
    uint8_t told[4] = {0, 0, 0, 0};
    uint8_t outcome = osturdam_stretch((uint8_t *)l->unit, l->block, l->length, l->records, l->room, h->buffer, h->room, h->chars, h->count,
                                       h->lag, told);
    t->outcome = (enum osturdam_outcome)outcome;
    t->sent = osturdam_word_at(told);
    t->action = (enum osturdam_action)told[2];
    t->output = told[3];
    return t->outcome;
}

/* So many milliseconds have passed. */
static inline enum osturdam_outcome osturdam_wait(const struct osturdam_lent *l, uint32_t ms)
{
    uint8_t outcome = osturdam_elapsed((uint8_t *)l->unit, l->block, l->length, l->records, l->room, ms);
    return (enum osturdam_outcome)outcome;
}

/* A word of simple status or an analog is now this; two-bit status comes from its contacts alone. */
static inline enum osturdam_outcome osturdam_take_word(const struct osturdam_lent *l, uint8_t input, uint16_t word)
{
    uint8_t outcome = osturdam_set_word((uint8_t *)l->unit, l->block, l->length, l->records, l->room, input, word);
    return (enum osturdam_outcome)outcome;
}

/* A contact is now in this state, 0 or 1: contact 8g + i is at place i of group g, which is the input of that number. The word of a group has
 * the states in its low eight bits and in its high eight a mark for each contact that has changed more than once since the last reply that
 * carried the word. */
static inline enum osturdam_outcome osturdam_take_contact(const struct osturdam_lent *l, uint8_t contact, uint8_t state)
{
    uint8_t outcome = osturdam_contact((uint8_t *)l->unit, l->block, l->length, l->records, l->room, contact, state);
    return (enum osturdam_outcome)outcome;
}

/* So many pulses were counted on an accumulator. */
static inline enum osturdam_outcome osturdam_take_pulses(const struct osturdam_lent *l, uint8_t input, uint16_t count)
{
    uint8_t outcome = osturdam_pulses((uint8_t *)l->unit, l->block, l->length, l->records, l->room, input, count);
    return (enum osturdam_outcome)outcome;
}

/* A calculation's value is now this pattern of 32 bits; that of a mean comes from its samples alone. */
static inline enum osturdam_outcome osturdam_take_value(const struct osturdam_lent *l, uint8_t calculation, uint32_t value)
{
    uint8_t outcome = osturdam_set_value((uint8_t *)l->unit, l->block, l->length, l->records, l->room, calculation, value);
    return (enum osturdam_outcome)outcome;
}

/* A record of these values is to be stored under the unit's clock; where the file is full and keeps the newest, another is dropped. */
static inline enum osturdam_stored osturdam_take_record(const struct osturdam_lent *l, uint8_t file, uint8_t event, const uint16_t *values,
                                                        uint64_t many)
{
    uint8_t stored = osturdam_store_record((uint8_t *)l->unit, l->block, l->length, l->records, l->room, file, event, values, many);
    return (enum osturdam_stored)stored;
}

/* The analog of a mean is sampled: its word as it is now, signed, is in, and where there are more than the mean is over the oldest is out.
 * Once as many are in, each sample makes the mean of them the value of its calculation, which a master reads; before that the calculation is
 * one that is not equipped, for function 03. A calculation that is no mean is OSTURDAM_NOT_VALID. */
static inline enum osturdam_outcome osturdam_take_sample(const struct osturdam_lent *l, uint8_t calculation, struct osturdam_sampled *s)
{
    uint8_t told[6] = {0, 0, 0, 0, 0, 0};
    uint8_t outcome = osturdam_sample((uint8_t *)l->unit, l->block, l->length, l->records, l->room, calculation, told);
    s->outcome = (enum osturdam_outcome)outcome;
    s->missing = osturdam_word_at(told);
    s->mean = osturdam_value_at(told + 2);
    return s->outcome;
}

#ifdef __cplusplus
}
#endif

#endif
