// The master once more in plain C, as something to count beside: no code is shared with the library. Its memory is as a C program has it.
#ifndef PLAIN_MASTER_H
#define PLAIN_MASTER_H

#include "osturdam_poll.h"

#include <stdbool.h>
#include <stddef.h>

enum { ASKED = OSTURDAM_POLL_FRAME - 8 };

struct plain_master {
    uint16_t address;
    uint8_t retry, held;                            // held where the bit may not be set
    uint8_t file, dump, bit;                        // the latest history request
    uint8_t waiting, function, command, all, count; // what is outstanding: 0 nothing, 1 history, 2 another
    uint8_t body[ASKED];
    uint8_t kept, kept_file, kept_dump;
    uint16_t length;
    uint8_t data[OSTURDAM_POLL_ROOM];
};

// As the library's calls of these names.
void plain_begin(struct plain_master *m, uint16_t address);
size_t plain_ask(struct plain_master *m, size_t room, bool all, uint8_t function, uint8_t command, const uint8_t *body, size_t count,
                 uint8_t *buffer, size_t length);
uint8_t plain_read(struct plain_master *m, const uint8_t *reply, size_t count, uint8_t *room, size_t length, uint8_t kept[2]);

#endif
