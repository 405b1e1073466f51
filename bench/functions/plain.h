// The unit once more in plain C, as something to count beside: no code is shared with the library or the independent program. Its memory
// is as a C program has it: numbers as numbers, in the order that suits it.
#ifndef PLAIN_H
#define PLAIN_H

#include "osturdam.h"

#include <stddef.h>

struct plain_config {
    uint16_t number;
    size_t length; // of the parameter block
    uint8_t inputs[OSTURDAM_INPUTS], outputs[OSTURDAM_INPUTS], calculations[OSTURDAM_INPUTS];
    uint8_t files[OSTURDAM_FILES], values[OSTURDAM_FILES], oldest[OSTURDAM_FILES];
    uint8_t means[OSTURDAM_MEANS], sampled[OSTURDAM_MEANS];
    uint16_t windows[OSTURDAM_MEANS]; // 0: the place is not used
};

// As enum osturdam_kept has them.
struct plain_kept {
    uint16_t day, hour, minute, second, ms;
    uint16_t hold, hold_master, hold_output, hold_close, hold_age;
    uint16_t write, write_master, write_bias, write_ordinal, write_age;
    uint16_t configure, error, broadcast;
    uint16_t memory, memory_master, memory_file, memory_dump, memory_quantity, memory_more;
    uint16_t silence, mark;
};

struct plain_unit {
    struct plain_kept kept;
    uint16_t words[OSTURDAM_INPUTS];
    uint8_t changed[OSTURDAM_GROUPS]; // a bit for each contact
    uint32_t results[OSTURDAM_CALCULATIONS];
    uint8_t block_00[OSTURDAM_LENGTH_00], block_03[OSTURDAM_LENGTH_03], block_0b[OSTURDAM_LENGTH_0B];
    uint8_t block[OSTURDAM_BLOCK];
    uint8_t records[OSTURDAM_RECORDS];
    uint8_t counts[OSTURDAM_FILES];
    uint16_t dropped[OSTURDAM_FILES];
    uint16_t taken[OSTURDAM_MEANS];
    int16_t samples[OSTURDAM_MEANS * OSTURDAM_SAMPLES];
};

// How a stretch ended.
struct plain_turned {
    size_t sent;
    uint8_t outcome, action, output;
};

// What a sample came to: a mean, or how many are missing.
struct plain_sampled {
    uint8_t outcome;
    uint16_t missing;
    float mean;
};

void plain_fresh(struct plain_unit *u);
struct plain_turned plain_stretch(const struct plain_config *c, struct plain_unit *u, const uint8_t *stretch, size_t heard, uint8_t *buffer,
                                  size_t room, uint32_t lag);
uint8_t plain_elapsed(const struct plain_config *c, struct plain_unit *u, uint32_t ms);
uint8_t plain_set_word(const struct plain_config *c, struct plain_unit *u, uint8_t input, uint16_t word);
uint8_t plain_contact(const struct plain_config *c, struct plain_unit *u, uint8_t contact, uint8_t state);
uint8_t plain_pulses(const struct plain_config *c, struct plain_unit *u, uint8_t input, uint16_t count);
uint8_t plain_set_value(const struct plain_config *c, struct plain_unit *u, uint8_t calculation, uint32_t value);
uint8_t plain_store_record(const struct plain_config *c, struct plain_unit *u, uint8_t file, uint8_t event, const uint16_t *given,
                           size_t many);
struct plain_sampled plain_take_sample(const struct plain_config *c, struct plain_unit *u, uint8_t calculation);

#endif
