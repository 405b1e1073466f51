/* One request and its answer. */
#ifndef POLL2179_EXCHANGE_H
#define POLL2179_EXCHANGE_H

#include "command.h"
#include "state.h"
#include "wire.h"

struct exchange {
    struct osturdam_poll poll;
    struct state state;
    struct wire wire;
    struct patience patience;
    const char *zone; /* of the time that is set, NULL: the host's */
    uint8_t frame[OSTURDAM_POLL_FRAME];
    size_t asked; /* 0: nothing went out */
    uint8_t reply[OSTURDAM_REPLY];
    size_t heard; /* 0: no answer */
    enum osturdam_read read;
    uint8_t records[OSTURDAM_POLL_ROOM];
    uint8_t kept[2]; /* how many records came, and how long each is: in the front of the room, oldest first */
};

enum ended {
    ANSWERED, /* a reply is believed, or none is owed */
    SILENT,   /* none came that is */
    NOT_KEPT, /* the state cannot be written: no request went out, or what came is asked for again */
    NO_LINE
};

/* Asks once. What goes out is on the disk before, where a state is kept, and so are the records before this returns. */
enum ended exchange_once(struct exchange *x, const struct command *command);

/* Waits until no reply can come any more to a request that went out before this program began. false: the line has ended. */
bool exchange_quiet(struct exchange *x);

/* Whether history was asked for without acknowledging: again what was asked for before. */
bool exchange_repeats(const struct exchange *x);

/* Of a history request or its repeat: which file, and whether all that fit. */
static inline uint8_t exchange_file(const struct exchange *x)
{
    return x->frame[3] & 0x1F;
}

static inline bool exchange_dumps(const struct exchange *x)
{
    return x->frame[3] & 0x20;
}

#endif
