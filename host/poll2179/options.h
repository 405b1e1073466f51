/* The command line. */
#ifndef POLL2179_OPTIONS_H
#define POLL2179_OPTIONS_H

#include <stdbool.h>
#include <stdint.h>

#include "show.h"

struct options {
    bool help, version, dump, follow, all, hex, json;
    const char *line, *state, *zone, *parity;
    uint32_t unit, master, baud, timeout, gap, retries, every, within;
    bool unit_given;
    enum form form;
    int words; /* where the command begins */
};

/* false: told on standard error. */
bool options_read(struct options *o, int many, char **words);

/* What of the options a command takes. false: told on standard error. */
bool options_fit(const struct options *o, struct command *command);

void options_help(void);

#endif
