// Three units side by side: the library, plain C and the independent program. What happens to one happens to all, and a run stops where
// they answer differently. The counted functions stand apart, so that only the calls through them are counted.
#ifndef UNITS_H
#define UNITS_H

#include "functions/plain.h"

// Every stretch comes with the lag that a Set Time has at 9,600 baud: eleven characters and an idle mark.
enum { LAG = 15 };

struct rust_unit;
struct rust_unit *rust_fresh(const struct plain_config *c);
struct plain_turned rust_stretch(struct rust_unit *u, const uint8_t *stretch, size_t heard, uint8_t *buffer, size_t room, uint32_t lag);
uint8_t rust_elapsed(struct rust_unit *u, uint32_t ms);
uint8_t rust_set_word(struct rust_unit *u, uint8_t input, uint16_t word);
uint8_t rust_contact(struct rust_unit *u, uint8_t contact, uint8_t state);
uint8_t rust_pulses(struct rust_unit *u, uint8_t input, uint16_t count);
uint8_t rust_set_value(struct rust_unit *u, uint8_t calculation, uint32_t value);
struct plain_sampled rust_take_sample(struct rust_unit *u, uint8_t calculation);
uint8_t rust_store_record(struct rust_unit *u, uint8_t file, uint8_t event, const uint16_t *given, size_t many);
struct rust_unit *rust_copy(const struct rust_unit *u);
void rust_end(struct rust_unit *u);
size_t rust_bytes(const struct rust_unit *u, size_t *config);

struct units {
    struct osturdam_config config;
    struct osturdam_together library;
    struct osturdam_lent lent; // all of the library's
    struct plain_config plain_config;
    struct plain_unit plain;
    struct rust_unit *rust;
};

// Fresh units of the configuration that stands in u.
void fresh(struct units *u);

// Lays a frame out; its length.
size_t frame(uint8_t *to, unsigned master, unsigned unit, unsigned function, unsigned command, const void *data, size_t count);

// Events of all three; each answers the outcome that they agree on. Stretch, store and sample are counted where so asked; where cycles
// are asked for (cycles.h), those of a counted event are printed first.
uint8_t stretch(struct units *u, const uint8_t *stretch, size_t heard, int counted);
uint8_t store_record(struct units *u, uint8_t file, uint8_t event, const uint16_t *given, size_t many, int counted);
uint8_t elapsed(struct units *u, uint32_t ms);
uint8_t set_word(struct units *u, uint8_t input, uint16_t word);
uint8_t contact(struct units *u, uint8_t contact, uint8_t state);
uint8_t pulses(struct units *u, uint8_t input, uint16_t count);
uint8_t set_value(struct units *u, uint8_t calculation, uint32_t value);
uint8_t take_sample(struct units *u, uint8_t calculation, int counted);

#endif
