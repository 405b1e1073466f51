/* The line to a unit: a serial device or pseudo-terminal, or a TCP connection. */
#ifndef POLL2179_WIRE_H
#define POLL2179_WIRE_H

#include <stdbool.h>
#include <stddef.h>
#include <stdint.h>

struct wire {
    int file;
    bool device;
    const char *place;
};

/* How long an answer is waited for: the first character of a reply, and the next one behind any. */
struct patience {
    uint32_t first; /* milliseconds */
    uint32_t gap;
};

/* Opens a device by its path, or ADDRESS:PORT. false: told on standard error. */
bool wire_open(struct wire *wire, const char *place, uint32_t baud, char parity);

/* Whether a device can have this speed. */

/* Reads away what nobody waits for any more, for so many milliseconds and until nothing is there. These three: false where the line has
 * ended or is stuck, told on standard error. */
bool wire_drain(const struct wire *wire, uint32_t ms);

bool wire_send(const struct wire *wire, const uint8_t *chars, size_t many);

/* Waits until a device has sent all that it was given. */
bool wire_sent(const struct wire *wire);

/* What comes before a moment, until an idle mark or until there is as much as its count says: how many characters, 0 for none; -1: the
 * line has ended. */
long wire_receive(const struct wire *wire, uint8_t *chars, size_t room, int64_t until, uint32_t gap);

#endif
