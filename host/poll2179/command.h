/* What a caller asks for, in words. */
#ifndef POLL2179_COMMAND_H
#define POLL2179_COMMAND_H

#include <stdbool.h>
#include <stddef.h>

#include "osturdam.h"
#include "osturdam_poll.h"

/* The kinds of a scan, to be joined. */
enum inputs { STATUS = 0x01, TWO_BIT = 0x04, ANALOG = 0x08, PULSE = 0x40 };

/* Of a write the WRITE goes out first, and then its EXECUTE. */
enum kind { SCAN, TABLE, VALUES, HISTORY, SELECT, OPERATE, CANCEL, INITIALISE, RESET_COUNT, WRITE, EXECUTE, READ, TIME, SET_TIME };

/* clang-format off */
struct command {
    enum kind kind;
    uint8_t number;                           /* kinds of inputs, a table, file, output, accumulator or ordinal */
    uint16_t bias;                            /* where in a block */
    uint8_t count;                            /* of the characters, or of those that are read */
    uint8_t chars[OSTURDAM_POLL_FRAME - 8];   /* numbers of values, what is written, a time */
    bool close;                               /* what an output is selected to do */
    bool dump;                                /* as many records as fit a reply */
    bool all;                                 /* of all units, which do not answer */
    bool now;                                 /* the time set is that of the host at the sync point */
};
/* clang-format on */

/* Reads it from words. false: told on standard error. */
bool command_read(struct command *command, int many, char **words);

/* Whether it may be sent again where no answer came: it asks, and has nothing done. History is repeated by the master's own rule. */
bool command_repeats(const struct command *command);

/* How many characters of the frame are to be sent; 0: the figures make no request. */
size_t command_build(const struct command *command, struct osturdam_poll *poll, uint8_t frame[OSTURDAM_POLL_FRAME]);

void command_help(void);

#endif
