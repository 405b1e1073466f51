// Three units side by side, and the functions whose calls are counted.
#include "units.h"

#include "cycles.h"

#include <stdio.h>
#include <stdlib.h>
#include <string.h>

#define COUNTED __attribute__((noinline))

static struct osturdam_turned hear(struct units *u, const uint8_t *s, size_t n, uint8_t *buffer)
{
    struct osturdam_heard heard = {.chars = s, .count = n, .buffer = buffer, .room = OSTURDAM_REPLY, .lag = LAG};
    struct osturdam_turned turned;
    osturdam_hear(&u->lent, &heard, &turned);
    return turned;
}

COUNTED struct osturdam_turned library_counted(struct units *u, const uint8_t *s, size_t n, uint8_t *buffer)
{
    return hear(u, s, n, buffer);
}

COUNTED struct plain_turned plain_counted(struct units *u, const uint8_t *s, size_t n, uint8_t *buffer)
{
    return plain_stretch(&u->plain_config, &u->plain, s, n, buffer, OSTURDAM_REPLY, LAG);
}

COUNTED struct plain_turned rust_counted(struct units *u, const uint8_t *s, size_t n, uint8_t *buffer)
{
    return rust_stretch(u->rust, s, n, buffer, OSTURDAM_REPLY, LAG);
}

COUNTED uint8_t library_store(struct units *u, uint8_t file, uint8_t event, const uint16_t *given, size_t many)
{
    return osturdam_take_record(&u->lent, file, event, given, many);
}

COUNTED uint8_t plain_store(struct units *u, uint8_t file, uint8_t event, const uint16_t *given, size_t many)
{
    return plain_store_record(&u->plain_config, &u->plain, file, event, given, many);
}

COUNTED uint8_t rust_store(struct units *u, uint8_t file, uint8_t event, const uint16_t *given, size_t many)
{
    return rust_store_record(u->rust, file, event, given, many);
}

static struct osturdam_sampled sample_here(struct units *u, uint8_t calculation)
{
    struct osturdam_sampled sampled;
    osturdam_take_sample(&u->lent, calculation, &sampled);
    return sampled;
}

COUNTED struct osturdam_sampled library_sample(struct units *u, uint8_t calculation)
{
    return sample_here(u, calculation);
}

COUNTED struct plain_sampled plain_sample(struct units *u, uint8_t calculation)
{
    return plain_take_sample(&u->plain_config, &u->plain, calculation);
}

COUNTED struct plain_sampled rust_sample(struct units *u, uint8_t calculation)
{
    return rust_take_sample(u->rust, calculation);
}

static uint8_t agreed(const char *what, int library, int plain, int rust)
{
    if (library != plain || library != rust) {
        fprintf(stderr, "%s: the library answers %d, plain C %d, the independent program %d\n", what, library, plain, rust);
        exit(1);
    }
    return library;
}

// ---- cycles of an event that is repeated

// What an event changes in a unit. Only that is put back between repetitions: a copy of the whole would push what the event reads out of
// the nearest cache.
static struct {
    uint32_t at;
    uint8_t was;
} changes[sizeof(struct units)];
static size_t many_changes;

static void learn(const void *before, const void *after, size_t many)
{
    const uint8_t *a = before, *b = after;
    many_changes = 0;
    for (size_t i = 0; i < many; i++)
        if (a[i] != b[i]) {
            changes[many_changes].at = i;
            changes[many_changes++].was = a[i];
        }
}

static void put_back(void *unit)
{
    for (size_t i = 0; i < many_changes; i++)
        ((uint8_t *)unit)[changes[i].at] = changes[i].was;
}

static void take_again(struct units *u, const struct rust_unit *found)
{
    rust_end(u->rust);
    u->rust = rust_copy(found);
}

#define TELL_IN_C(unit, counted, ...)                                   \
    do {                                                                \
        static uint8_t before[sizeof *(unit)];                          \
        memcpy(before, unit, sizeof before);                            \
        counted(u, __VA_ARGS__);                                        \
        learn(before, unit, sizeof before);                             \
        TELL_CYCLES(#counted, put_back(unit), counted(u, __VA_ARGS__)); \
        put_back(unit);                                                 \
    } while (0)

// The cycles of one event of each unit; the units are left as they were found.
#define TELL_UNITS(kind, ...)                                                          \
    do {                                                                               \
        TELL_IN_C(&u->library, library_##kind, __VA_ARGS__);                           \
        TELL_IN_C(&u->plain, plain_##kind, __VA_ARGS__);                               \
        struct rust_unit *found = u->rust;                                             \
        u->rust = rust_copy(found);                                                    \
        TELL_CYCLES("rust_" #kind, take_again(u, found), rust_##kind(u, __VA_ARGS__)); \
        rust_end(u->rust);                                                             \
        u->rust = found;                                                               \
    } while (0)

// ---- events of all three

void fresh(struct units *u)
{
    const struct osturdam_config *c = &u->config;
    struct plain_config *p = &u->plain_config;
    u->lent = osturdam_lend(&u->library, c);
    osturdam_begin(&u->lent, c);
    p->number = osturdam_number_of(c);
    p->length = osturdam_length_of(c);
    memcpy(p->inputs, c->inputs, sizeof p->inputs);
    memcpy(p->outputs, c->outputs, sizeof p->outputs);
    memcpy(p->calculations, c->calculations, sizeof p->calculations);
    memcpy(p->files, c->files, sizeof p->files);
    memcpy(p->values, c->values, sizeof p->values);
    memcpy(p->oldest, c->oldest, sizeof p->oldest);
    memcpy(p->means, c->means, sizeof p->means);
    memcpy(p->sampled, c->sampled, sizeof p->sampled);
    for (int i = 0; i < OSTURDAM_MEANS; i++)
        p->windows[i] = osturdam_window_of(c, i);
    plain_fresh(&u->plain);
    u->rust = rust_fresh(p);
}

size_t frame(uint8_t *to, unsigned master, unsigned unit, unsigned function, unsigned command, const void *data, size_t count)
{
    const uint8_t head[6] = {unit, unit >> 8 | master << 3, function, command, count, count >> 8};
    memcpy(to, head, 6);
    memcpy(to + 6, data, count);
    uint16_t check = 0;
    for (size_t i = 0; i < 6 + count; i++) {
        check ^= to[i];
        for (int bit = 0; bit < 8; bit++)
            check = (check >> 1) ^ ((check & 1) * 0xA001);
    }
    to[6 + count] = check;
    to[7 + count] = check >> 8;
    return 8 + count;
}

uint8_t stretch(struct units *u, const uint8_t *s, size_t n, int counted)
{
    uint8_t a[OSTURDAM_REPLY], b[OSTURDAM_REPLY], c[OSTURDAM_REPLY];
    struct osturdam_turned library;
    struct plain_turned plain, rust;
    if (counted && cycles_asked())
        TELL_UNITS(counted, s, n, a);
    memset(a, 0xA5, sizeof a);
    memset(b, 0xA5, sizeof b);
    memset(c, 0xA5, sizeof c);
    if (counted) {
        library = library_counted(u, s, n, a);
        plain = plain_counted(u, s, n, b);
        rust = rust_counted(u, s, n, c);
    } else {
        library = hear(u, s, n, a);
        plain = plain_stretch(&u->plain_config, &u->plain, s, n, b, sizeof b, LAG);
        rust = rust_stretch(u->rust, s, n, c, sizeof c, LAG);
    }
    agreed("sent", library.sent, plain.sent, rust.sent);
    agreed("action", library.action, plain.action, rust.action);
    agreed("output", library.output, plain.output, rust.output);
    agreed("reply, the buffer past it too", 0, memcmp(a, b, sizeof a) != 0, memcmp(a, c, sizeof a) != 0);
    return agreed("outcome", library.outcome, plain.outcome, rust.outcome);
}

uint8_t store_record(struct units *u, uint8_t file, uint8_t event, const uint16_t *given, size_t many, int counted)
{
    if (counted && cycles_asked())
        TELL_UNITS(store, file, event, given, many);
    if (counted)
        return agreed("store", library_store(u, file, event, given, many), plain_store(u, file, event, given, many),
                      rust_store(u, file, event, given, many));
    return agreed("store", osturdam_take_record(&u->lent, file, event, given, many),
                  plain_store_record(&u->plain_config, &u->plain, file, event, given, many),
                  rust_store_record(u->rust, file, event, given, many));
}

uint8_t elapsed(struct units *u, uint32_t ms)
{
    return agreed("elapsed", osturdam_wait(&u->lent, ms), plain_elapsed(&u->plain_config, &u->plain, ms), rust_elapsed(u->rust, ms));
}

uint8_t set_word(struct units *u, uint8_t input, uint16_t word)
{
    return agreed("word", osturdam_take_word(&u->lent, input, word), plain_set_word(&u->plain_config, &u->plain, input, word),
                  rust_set_word(u->rust, input, word));
}

uint8_t contact(struct units *u, uint8_t contact, uint8_t state)
{
    return agreed("contact", osturdam_take_contact(&u->lent, contact, state), plain_contact(&u->plain_config, &u->plain, contact, state),
                  rust_contact(u->rust, contact, state));
}

uint8_t pulses(struct units *u, uint8_t input, uint16_t count)
{
    return agreed("pulses", osturdam_take_pulses(&u->lent, input, count), plain_pulses(&u->plain_config, &u->plain, input, count),
                  rust_pulses(u->rust, input, count));
}

uint8_t set_value(struct units *u, uint8_t calculation, uint32_t value)
{
    return agreed("value", osturdam_take_value(&u->lent, calculation, value),
                  plain_set_value(&u->plain_config, &u->plain, calculation, value), rust_set_value(u->rust, calculation, value));
}

static int bits_of(float mean)
{
    int bits;
    memcpy(&bits, &mean, sizeof bits);
    return bits;
}

uint8_t take_sample(struct units *u, uint8_t calculation, int counted)
{
    if (counted && cycles_asked())
        TELL_UNITS(sample, calculation);
    struct osturdam_sampled library = counted ? library_sample(u, calculation) : sample_here(u, calculation);
    struct plain_sampled plain = counted ? plain_sample(u, calculation) : plain_take_sample(&u->plain_config, &u->plain, calculation);
    struct plain_sampled rust = counted ? rust_sample(u, calculation) : rust_take_sample(u->rust, calculation);
    agreed("missing", library.missing, plain.missing, rust.missing);
    agreed("mean", (int)library.mean, bits_of(plain.mean), bits_of(rust.mean));
    return agreed("sample", library.outcome, plain.outcome, rust.outcome);
}
