/* The line that the unit is served on: a serial device, a pseudo-terminal of its own, or a TCP port.
 *
 * A device or pseudo-terminal is one channel, on which all masters are heard as they come. On a TCP port each connection is a
 * channel: its characters make stretches of their own, and it gets the replies to them. */
#ifndef UNIT2179_LINE_H
#define UNIT2179_LINE_H

#include <stdbool.h>

#include "peers.h"
#include "stretch.h"

enum { CHANNELS = 8, LINE_NAME = 256 };

struct channel {
    int file;              /* -1: not in use */
    bool ended;            /* nothing more comes from it */
    struct stretch coming; /* since its latest idle mark */
    struct stretch marked; /* up to that mark, and not yet heard */
    int64_t mark;          /* when that was */
    struct pace pace;      /* of its characters */
    int64_t active;        /* when it was opened, or last brought something */
    uint8_t unsent[OSTURDAM_REPLY];
    size_t left;   /* characters at the end of a reply that could not be sent yet */
    int64_t until; /* when they must have been */
};

struct line {
    char name[LINE_NAME];
    int listener;              /* of a TCP port, else -1 */
    const struct peers *peers; /* who may connect */
    int held;                  /* the other side of a pseudo-terminal, held so that it stands between two masters, else -1 */
    struct channel channels[CHANNELS];
};

/* How a serial device is set. */
struct serial {
    uint32_t baud;
    char parity; /* n, e or o */
    bool rs485;  /* its driver keys the sender, by RTS */
};

/* Each opens a line and names it. false: told on standard error. */
bool line_open_serial(struct line *line, const char *device, const struct serial *serial);
bool line_open_pty(struct line *line);
bool line_open_tcp(struct line *line, const char *address, const char *port, const struct peers *peers);

/* Whether the line has this speed. */

/* A character has a start bit, eight bits, a parity bit where there is one, and a stop bit. */
struct pace line_pace(const struct serial *serial);

/* Whether all channels are in use. */
bool line_is_full(const struct line *line);

/* Takes a new connection, or turns it away if all channels are in use. false: there is none, or errno tells why it cannot be taken. */
bool line_accept(struct line *line, int64_t now);

/* Takes what a channel has brought, or that it has ended. */
void channel_read(struct channel *channel);

/* Ends the coming stretch by an idle mark, unless the one before it has not been heard. */
void channel_mark(struct channel *channel, int64_t mark);

/* Whether characters have come since the latest stretch that was heard. */
bool channel_waits(const struct channel *channel);

/* Begins to send a reply; what the line does not take at once goes by channel_flush. false: it cannot be sent. */
bool channel_send(struct channel *channel, const uint8_t *reply, size_t many);

/* Goes on sending. false: it cannot, or has not within its time. */
bool channel_flush(struct channel *channel);

void channel_close(struct channel *channel);

#endif
