/* The command line. */
#ifndef UNIT2179_OPTIONS_H
#define UNIT2179_OPTIONS_H

#include <stdbool.h>
#include <stdint.h>

#include "line.h"

struct options {
    const char *config, *serial, *tcp, *events, *state, *log, *capture, *clock, *zone; /* NULL: not given */
    bool pty, fresh, help, version;
    struct serial line;
    const char *parity;
    uint32_t gap; /* milliseconds */
    uint32_t suspension;
    uint32_t reply_within;
    uint32_t idle;     /* seconds */
    char address[256]; /* of the TCP port */
    const char *port;
    struct peers peers;
};

/* false: a word is wrong, which was told. */
bool options_read(struct options *options, int many, char **words);

void options_help(void);
void options_version(void);

#endif
