/* Answers in words and numbers, as JSON, or as characters. */
#ifndef POLL2179_SHOW_H
#define POLL2179_SHOW_H

#include "exchange.h"

enum form { WORDS, JSON, HEX };

/* How an exchange is shown. */
struct view {
    enum form form;
    bool last;    /* nothing more is asked for the sake of this command */
    bool follows; /* replies without records are not worth a line */
};

/* Prints what came of a request. false: it cannot be printed, told on standard error. */
bool show(const struct view *view, const struct command *command, const struct exchange *x, enum ended ended);

/* The data of a reply that is believed. */
static inline const uint8_t *data_of(const struct exchange *x)
{
    return x->reply + 7;
}

static inline size_t many_of(const struct exchange *x)
{
    return x->heard - 9;
}

/* The value of a single-precision pattern. */
double value_at(const uint8_t *place);

void show_json(const struct command *command, const struct exchange *x, enum ended ended);

#endif
