/* Serving: the loop that looks at everything, and the turns in which the unit is told of one event after another. */
#ifndef UNIT2179_SERVE_H
#define UNIT2179_SERVE_H

#include "clock.h"
#include "events.h"
#include "keeper.h"
#include "line.h"
#include "osturdam.h"

enum { MASTERS = 32 };

/* What waits until the state is kept. */
enum waiting { NOTHING_WAITS, TIME_WAITS, A_REPLY_WAITS, AN_EVENT_WAITS };

/* A stretch that was heard. */
struct answer {
    struct channel *channel; /* NULL: it has gone */
    struct stretch heard;
    int64_t mark; /* the idle mark behind it */
    uint32_t lag; /* milliseconds from its sync point to when the unit heard it */
    struct osturdam_turned turned;
    uint8_t reply[OSTURDAM_REPLY];
};

struct server {
    struct osturdam_together *all;
    struct osturdam_lent lent; /* all of it */
    struct keeper *keeper;
    struct line *line;
    struct events *events;
    struct quiet quiet;
    int64_t within; /* nanoseconds from an idle mark to the first character of its reply */
    int64_t told;   /* up to when the unit has been told the time */
    int64_t kept;   /* when its state was last kept */
    enum waiting waits;
    struct answer answer;
    struct event event;
    unsigned outcome;                /* of the event */
    bool full;                       /* it stores into a file that was full: one that takes its record drops another */
    size_t next;                     /* the channel that is heard first */
    bool heard;                      /* the latest turn was a stretch's */
    struct channel *owners[MASTERS]; /* the connection that has each master's number, or NULL */
    int64_t idle;                    /* nanoseconds after which a quiet connection is closed; 0: never */
    int64_t deaf;                    /* no connection is taken before */
    bool deaf_told;
};

enum served { SERVE_GOES_ON, SERVE_STOPPED, SERVE_STATE_LOST, SERVE_LINE_LOST, SERVE_OUTPUT_LOST };

/* Makes ready a unit that is fresh or was read back, and sets its clock unless that is NULL. false: its state cannot be kept, which was
 * told. */
bool serve_begin(struct server *server, struct store *store, const struct day_time *clock);

/* Serves until a signal ends it, the state cannot be kept, the line is lost or an output action cannot be told. */
enum served serve(struct server *server);

#endif
