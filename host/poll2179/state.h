/* What a master must not lose: its memory and the records received, on the disk before any request goes out.
 *
 * FILE has the memory, whether an answer is waited for, how long FILE.records is, and a check; it is replaced whole. FILE.records has a
 * line for each record, in the order received. What stands there behind the length that FILE tells was not taken yet when the program
 * ended: the unit is asked for it again. */
#ifndef POLL2179_STATE_H
#define POLL2179_STATE_H

#include <stdbool.h>
#include <stdint.h>

#include "osturdam_poll.h"

enum { STATE_PATH = 4096, STATE_VERSION = 1 };

struct state {
    bool kept; /* else nothing is */
    char path[STATE_PATH];
    char records_path[STATE_PATH];
    int records;
    int64_t length; /* of the records that count */
    bool waits;     /* a request went out, and no answer was taken */
};

/* Goes on with what is there, or begins a master of this address. false: told on standard error. */
bool state_open(struct state *state, const char *path, struct osturdam_poll *poll, uint16_t address);

/* Puts a line behind the records; it counts from the next state_save on. */
bool state_add(struct state *state, const char *line);

/* Whatever was added and the memory are on the disk then. */
bool state_save(struct state *state, const struct osturdam_poll *poll, bool waits);

#endif
