/* Local events, as lines of plain text that come through a FIFO or standard input. */
#ifndef UNIT2179_EVENTS_H
#define UNIT2179_EVENTS_H

#include <stdbool.h>

#include "osturdam.h"
#include "say.h"

enum { EVENT_FIGURES = 2 + OSTURDAM_VALUES, EVENT_LINE = 512 };

/* A line read: the number of the point or file, and what is said of it. */
struct event {
    size_t kind;
    uint32_t figures[EVENT_FIGURES];
    size_t many;
    struct osturdam_sampled sampled; /* what became of a sample */
};

/* Where lines come from. */
struct events {
    struct place at;
    int file;        /* -1: nothing more comes */
    int writer;      /* of a FIFO, held so that it does not end when a writer does */
    char come[1024]; /* what was read, */
    size_t from, to; /* and which of it is in no line yet */
    char line[EVENT_LINE];
    size_t length;
    bool ready; /* the line is whole */
};

/* Opens a FIFO, which is made if nothing is there, or standard input (`-`), or nothing (NULL). false: told on standard error. */
bool events_open(struct events *events, const char *path);

/* Reads what has come; only where no line is ready. */
void events_read(struct events *events);

/* Whether a line is ready. */
bool events_ready(const struct events *events);

/* Takes the line that is ready. false: it is no event; unless it is empty, that is told on standard error. */
bool events_next(struct events *events, struct event *event);

/* Has the unit hear of an event. Answers an outcome, or for a record how storing it ended. */
unsigned event_apply(struct event *event, const struct osturdam_lent *lent);

const char *event_kind(const struct event *event);

/* Whether it stores a record; its first figure is the file's number. */
bool event_stores(const struct event *event);

/* Whether it takes a sample; its first figure is the calculation's number. */
bool event_samples(const struct event *event);

/* What a refusal means, in words. */
const char *event_refusal(const struct event *event, unsigned outcome);

/* Prints the syntax of event lines. */
void events_help(void);

#endif
