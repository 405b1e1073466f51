// The library's unit alone, on a board with no operating system: what bench/setting.c and bench/functions/rows.c ask of bench/units.h.
#include "machine.h"
#include "units.h"

#include <stdio.h>
#include <stdlib.h>
#include <string.h>

int main(int argc, char **argv);

#define COUNTED __attribute__((noinline))

COUNTED uint8_t library_counted(struct units *u, const struct osturdam_heard *heard, struct osturdam_turned *turned)
{
    return (uint8_t)osturdam_hear(&u->lent, heard, turned);
}

COUNTED uint8_t library_store(struct units *u, uint8_t file, uint8_t event, const uint16_t *given, size_t many)
{
    return (uint8_t)osturdam_take_record(&u->lent, file, event, given, many);
}

COUNTED uint8_t library_sample(struct units *u, uint8_t calculation)
{
    struct osturdam_sampled sampled;
    return (uint8_t)osturdam_take_sample(&u->lent, calculation, &sampled);
}

void fresh(struct units *u)
{
    u->lent = osturdam_lend(&u->library, &u->config);
    osturdam_begin(&u->lent, &u->config);
}

size_t frame(uint8_t *to, unsigned master, unsigned unit, unsigned function, unsigned command, const void *data, size_t count)
{
    const uint8_t head[6] = {(uint8_t)unit, (uint8_t)(unit >> 8 | master << 3), (uint8_t)function, (uint8_t)command, (uint8_t)count, 0};
    uint16_t check = 0;
    memcpy(to, head, 6);
    memcpy(to + 6, data, count);
    for (size_t i = 0; i < 8 * (6 + count); i++) {
        uint16_t bit = (to[i / 8] >> i % 8 ^ check) & 1;
        check = (uint16_t)(check >> 1 ^ bit * 0xA001);
    }
    osturdam_word_to(to + 6 + count, check);
    return 8 + count;
}

uint8_t stretch(struct units *u, const uint8_t *s, size_t n, int counted)
{
    static uint8_t buffer[OSTURDAM_REPLY];
    struct osturdam_heard heard = {.chars = s, .count = n, .buffer = buffer, .room = sizeof buffer, .lag = LAG};
    struct osturdam_turned turned;
    return counted ? library_counted(u, &heard, &turned) : (uint8_t)osturdam_hear(&u->lent, &heard, &turned);
}

uint8_t store_record(struct units *u, uint8_t file, uint8_t event, const uint16_t *given, size_t many, int counted)
{
    return counted ? library_store(u, file, event, given, many) : (uint8_t)osturdam_take_record(&u->lent, file, event, given, many);
}

uint8_t set_word(struct units *u, uint8_t input, uint16_t word)
{
    return (uint8_t)osturdam_take_word(&u->lent, input, word);
}

uint8_t contact(struct units *u, uint8_t contact, uint8_t state)
{
    return (uint8_t)osturdam_take_contact(&u->lent, contact, state);
}

uint8_t pulses(struct units *u, uint8_t input, uint16_t count)
{
    return (uint8_t)osturdam_take_pulses(&u->lent, input, count);
}

uint8_t set_value(struct units *u, uint8_t calculation, uint32_t value)
{
    return (uint8_t)osturdam_take_value(&u->lent, calculation, value);
}

uint8_t take_sample(struct units *u, uint8_t calculation, int counted)
{
    struct osturdam_sampled sampled;
    return counted ? library_sample(u, calculation) : (uint8_t)osturdam_take_sample(&u->lent, calculation, &sampled);
}

// ---- what a C library has

static int ended;

int fprintf(int to, const char *text, ...)
{
    uint32_t many = 0;
    while (text[many] != 0)
        many++;
    machine_tell(text, many);
    return to;
}

// A board goes on; that something went wrong is told at the end.
void exit(int how)
{
    ended |= how;
}

int strcmp(const char *one, const char *other)
{
    for (; *one == *other && *one != 0; one++, other++)
        ;
    return *one - *other;
}

// The row's name is what the recording has.
int replay(void)
{
    static char name[32];
    char *words[2] = {name, name};
    machine_read((uint8_t *)name, sizeof name - 1);
    return main(2, words) | ended;
}
