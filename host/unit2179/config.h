/* The configuration as plain text: what a unit is equipped with.
 *
 * config.c and text.c are a small library of their own, which other programs may share: text goes in, a configuration or what is wrong with
 * which line comes out. There is no input or output in it, no heap and no state; of the C library it uses strings and snprintf. */
#ifndef UNIT2179_CONFIG_H
#define UNIT2179_CONFIG_H

#include <stdbool.h>
#include <stddef.h>

#include "osturdam.h"

enum {
    CONFIG_UNIT_MOST = 0x7FE,
    CONFIG_NUMBER_MOST = OSTURDAM_INPUTS - 1,
    CONFIG_ANALOG_LEAST = 0x80,
    CONFIG_LINE = 1024, /* characters of a line, its end among them */
    CONFIG_WHAT = 160
};

/* What is to be said of a line. */
struct config_note {
    unsigned line; /* the first is 1; 0: the text as a whole */
    char what[CONFIG_WHAT];
};

/* As much of it as there is room for, and how much there is. */
struct config_notes {
    struct config_note *notes;
    size_t room, many;
};

/* Reads a text of some characters. Answers whether it has no fault: then the configuration is what it says, and what it leaves unsaid is
 * among the notices. */
bool config_read(const char *text, size_t length, struct osturdam_config *config, struct config_notes *faults,
                 struct config_notes *notices);

/* The unit of document 01's bench lines: 1234, inputs 30h and 40h. */
void config_bench(struct osturdam_config *config);

#endif
