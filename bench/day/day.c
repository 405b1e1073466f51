// A fixed day of traffic: polls, histories, writes, controls, other units' frames and damage, with local events between. Every stretch
// is counted. With the argument `stack` it tells instead the most stack of each unit's stretch below its caller, for each kind of stretch.
#include "units.h"

#include <stdio.h>
#include <stdlib.h>
#include <string.h>

enum { STRETCHES = 1000, UNIT = 1234, BROADCAST = 0x7FF, DEPTH = 16384 };

static struct units u;
static uint32_t seed = 2179;

static unsigned below(unsigned n)
{
    seed = seed * 1664525 + 1013904223;
    return (uint64_t)(seed >> 8) * n >> 24;
}

enum kind { SCAN, TABLE, ALL_VALUES, SOME_VALUES, HISTORY, CONTROL, WRITE, EXECUTE, READ, CLOCK, OTHERS, ALL_UNITS, DAMAGED, KINDS };

static const char *const names[KINDS] = {"00",      "0Ah",     "03/80h", "03/00",          "04",        "10h",    "20h/30h",
                                         "20h/31h", "28h/30h", "time",   "another unit's", "broadcast", "damaged"};
static size_t most[KINDS][3];

static void range(void (*equip_one)(struct osturdam_config *, uint8_t), int from, int many)
{
    for (int i = from; i < from + many; i++)
        equip_one(&u.config, i);
}

// A pole-top control: 8 two-bit and 16 simple status, 8 accumulators, 40 analogs, 30 calculations, 8 files.
static void equip(void)
{
    osturdam_put_number(&u.config, UNIT);
    osturdam_put_length(&u.config, 200);
    range(osturdam_equip_input, 0x00, 8);
    range(osturdam_equip_input, 0x30, 16);
    range(osturdam_equip_input, 0x40, 8);
    range(osturdam_equip_input, 0x80, 40);
    range(osturdam_equip_output, 0, 16);
    range(osturdam_equip_calculation, 0, 30);
    for (int f = 0; f < 8; f++)
        osturdam_equip_file(&u.config, f, 2 * f + 2);
    fresh(&u);
}

static void store_one(void)
{
    uint16_t given[OSTURDAM_VALUES];
    unsigned file = below(8);
    for (int i = 0; i < OSTURDAM_VALUES; i++)
        given[i] = below(65536);
    store_record(&u, file, below(256), given, osturdam_values_of(&u.config, file), 0);
}

static void local(void)
{
    elapsed(&u, below(20) ? below(400) : below(100000));
    set_word(&u, 0x80 + below(40), below(65536));
    pulses(&u, 0x40 + below(8), below(10));
    set_value(&u, below(30), below(1 << 24));
    for (unsigned n = below(3); n > 0; n--)
        store_one();
}

static size_t ask(uint8_t *s, unsigned function, unsigned command, const void *data, size_t count)
{
    return frame(s, below(8) ? 1 : 2, UNIT, function, command, data, count);
}

static size_t scan(uint8_t *s, enum kind k)
{
    static const uint8_t kinds[] = {0x4D, 0x01, 0x0D, 0x08, 0x41, 0x02};
    uint8_t some[8];
    for (int i = 0; i < 8; i++)
        some[i] = below(31);
    switch (k) {
    case SCAN: return ask(s, 0x00, kinds[below(6)], "", 0);
    case TABLE: return ask(s, 0x0A, 0x41 + below(4), "", 0);
    case ALL_VALUES: return ask(s, 0x03, 0x80, "", 0);
    default: return ask(s, 0x03, 0x00, some, 1 + below(8));
    }
}

// A table area of three tables, in parts; other blocks too.
static size_t execute(uint8_t *s)
{
    uint8_t data[128] = {0x00, 16, [18] = 0x10, [19] = 8, [28] = 0x12, [29] = 20};
    for (int i = 0; i < 16; i++)
        data[2 + i] = 0x30 + i;
    for (int i = 0; i < 8; i++)
        data[20 + i] = 0x40 + i;
    for (int i = 0; i < 20; i++)
        data[30 + i] = 0x80 + i;
    return ask(s, 0x20, 0x31, data, below(4) ? 128 : 1 + below(128));
}

static size_t control(uint8_t *s)
{
    uint8_t output = below(18);
    unsigned command = below(3) ? 0x10 + below(2) : 0x20 + below(2);
    return ask(s, 0x10, command, &output, command < 0x20);
}

static size_t clock_or_start(uint8_t *s)
{
    const uint8_t time[7] = {below(4), 0x10 * below(10), 0x10 * below(3), 0x10 * below(7), 0x59, below(4), below(256)};
    switch (below(8)) {
    case 0: return ask(s, 0x20, 0x38, time, 7);
    case 1: return ask(s, 0x20, 0x00, "", 0);
    default: return ask(s, 0x28, 0x31, "", 0);
    }
}

static size_t damaged(uint8_t *s)
{
    size_t n = below(2) ? ask(s, 0x00, 0x4D, "", 0) : execute(s);
    if (below(3) == 0)
        return below(n);
    s[below(n)] ^= 1 << below(8);
    return n;
}

static size_t make(uint8_t *s, enum kind k)
{
    const uint8_t write[3] = {0, 0, below(4) ? 3 : below(12)}, read[4] = {below(100), 0, 6, below(120)};
    uint8_t accumulator = 0x40 + below(9);
    switch (k) {
    case HISTORY: return ask(s, 0x04, (below(4) ? 0x40 : 0) + (below(3) ? 0x20 : 0) + below(9), "", 0);
    case CONTROL: return control(s);
    case WRITE: return ask(s, 0x20, 0x30, write, 3);
    case EXECUTE: return execute(s);
    case READ: return ask(s, 0x28, 0x30, read, 4);
    case CLOCK: return clock_or_start(s);
    case OTHERS: return frame(s, 1, 1 + below(1000), 0x00, 0x4D, "", 0);
    case ALL_UNITS: return frame(s, 1, BROADCAST, 0x20, below(5) ? 0x11 : 0x10, &accumulator, 1);
    case DAMAGED: return damaged(s);
    default: return scan(s, k);
    }
}

// Of a hundred stretches; a WRITE is mostly followed by its EXECUTE.
static enum kind next(enum kind before)
{
    static const uint8_t of_hundred[KINDS] = {25, 10, 6, 6, 14, 6, 4, 1, 5, 4, 8, 3, 8};
    if (before == WRITE && below(8))
        return EXECUTE;
    int at = below(100), k = 0;
    while (at >= of_hundred[k])
        at -= of_hundred[k++];
    return k;
}

// How far below the caller the stack was written, by a pattern laid there before the call. No call but the one stands between.
#define STACK(to, call)                                     \
    do {                                                    \
        volatile uint8_t *top;                              \
        __asm__ volatile("mov %%rsp, %0" : "=r"(top));      \
        for (size_t i = 1; i <= DEPTH; i++)                 \
            top[-(ptrdiff_t)i] = 0xA5;                      \
        call;                                               \
        size_t depth = DEPTH;                               \
        while (depth > 0 && top[-(ptrdiff_t)depth] == 0xA5) \
            depth--;                                        \
        if (depth > (to))                                   \
            (to) = depth;                                   \
    } while (0)

static __attribute__((noinline)) void measure(const uint8_t *s, size_t n, size_t deepest[3])
{
    static uint8_t buffer[OSTURDAM_REPLY];
    struct osturdam_heard heard = {.chars = s, .count = n, .buffer = buffer, .room = sizeof buffer, .lag = LAG};
    struct osturdam_turned turned;
    STACK(deepest[0], osturdam_hear(&u.lent, &heard, &turned));
    STACK(deepest[1], plain_stretch(&u.plain_config, &u.plain, s, n, buffer, sizeof buffer, LAG));
    STACK(deepest[2], rust_stretch(u.rust, s, n, buffer, sizeof buffer, LAG));
}

static void tell_stack(void)
{
    for (int k = 0; k < KINDS; k++)
        printf("%s\t%zu\t%zu\t%zu\n", names[k], most[k][0], most[k][1], most[k][2]);
}

// The outcomes are told, so that a day which nothing answers is seen.
static void tell_outcomes(const unsigned outcomes[19])
{
    for (int o = 0; o < 19; o++)
        if (outcomes[o])
            printf("%d\t%u\n", o, outcomes[o]);
}

int main(int argc, char **argv)
{
    int stack = argc == 2 && strcmp(argv[1], "stack") == 0;
    unsigned outcomes[19] = {0};
    uint8_t s[OSTURDAM_FRAME];
    enum kind k = SCAN;
    equip();
    for (int i = 0; i < STRETCHES; i++) {
        local();
        k = next(k);
        size_t n = make(s, k);
        if (stack)
            measure(s, n, most[k]);
        else
            outcomes[stretch(&u, s, n, 1)]++;
    }
    if (stack)
        tell_stack();
    else
        tell_outcomes(outcomes);
    return 0;
}
