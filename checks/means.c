/* Means of the library beside plain C with doubles, bit for bit: one mean for each number of samples that there is, all of one analog, whose
 * words are random, at their limits all through, in turn, or such that they cancel each other. Told by function 03 too.
 *
 * usage: means MEANS SEED */
#include "line.h"
#include "osturdam.h"

#include <stdio.h>
#include <stdlib.h>
#include <string.h>

#ifndef PLANTED
#define PLANTED 0
#endif

enum { UNIT = 1234, LOAD = 0x80, KINDS = 9, PATTERNS = 8, LONG = 3 * OSTURDAM_SAMPLES };

static struct osturdam_config config;
static struct osturdam_together all;
static struct osturdam_lent lent;
static int16_t given[LONG]; /* the samples since the unit was fresh */
static unsigned long means[KINDS], zeros, missing;
static uint64_t chance;

static unsigned next(void)
{
    chance ^= chance << 13;
    chance ^= chance >> 7;
    chance ^= chance << 17;
    return (unsigned)(chance >> 33);
}

static void fail(const char *what, int kind, int n)
{
    printf("means: %s of a mean of %d, sample %d behind a fresh unit\n", what, 1 << kind, n + 1);
    exit(1);
}

static void begin(void)
{
    memset(&config, 0, sizeof config);
    osturdam_put_number(&config, UNIT);
    osturdam_equip_input(&config, LOAD);
    for (uint8_t kind = 0; kind < KINDS; kind++) {
        osturdam_equip_calculation(&config, kind);
        osturdam_equip_mean(&config, kind, kind, LOAD, (uint16_t)(1u << kind));
    }
    lent = osturdam_lend(&all, &config);
    osturdam_begin(&lent, &config);
}

/* The word n of a pattern. */
static int16_t word_of(unsigned pattern, int n)
{
    static const int16_t limits[] = {INT16_MIN, INT16_MAX, -1, 1, 0};
    switch (pattern) {
    case 0: return INT16_MIN;
    case 1: return INT16_MAX;
    case 2: return n % 2 ? INT16_MAX : INT16_MIN;
    case 3: return n % 2 ? (int16_t)-given[n - 1] : (int16_t)(next() % 65535 - 32767);
    case 4: return limits[next() % 5];
    case 5: return (int16_t)(next() % 7 - 3);
    default: return (int16_t)(next() % 65536 - 32768);
    }
}

/* The mean of the last 2^kind samples: a sum of doubles, divided, and as a float no other number. */
static uint32_t wanted(int kind, int n)
{
    int many = 1 << kind, from = n + 1 - many + (PLANTED == 3 && many > 1);
    double sum = 0;
    for (int i = from; i <= n; i++)
        sum += PLANTED == 1 ? (double)(uint16_t)given[i] : (double)given[i];
    double exact = sum / (PLANTED == 4 ? n + 1 : many);
    float mean = (float)exact;
    uint32_t bits;
    if (PLANTED == 0 && ((double)mean != exact || (double)mean * many != sum))
        fail("the float is not exact", kind, n);
    memcpy(&bits, &mean, sizeof bits);
    return PLANTED == 2 && bits == 0 ? 0x80000000 : bits;
}

static void sample(int kind, int n)
{
    struct osturdam_sampled sampled;
    int lacks = (1 << kind) - (n + 1);
    if (osturdam_take_sample(&lent, (uint8_t)kind, &sampled) != OSTURDAM_DONE)
        fail("no sample", kind, n);
    if (sampled.missing != (lacks > 0 ? lacks : 0))
        fail("another number missing", kind, n);
    missing += lacks > 0;
    if (lacks > 0)
        return;
    uint32_t bits = wanted(kind, n);
    if (sampled.mean != bits || osturdam_value_of(&all.unit, (uint8_t)kind) != bits)
        fail("other bits", kind, n);
    means[kind]++;
    zeros += bits == 0;
}

/* All that are ready are told by function 03, low character first. */
static void read_all(int n)
{
    static uint8_t reply[OSTURDAM_REPLY];
    uint8_t chars[OSTURDAM_FRAME];
    struct osturdam_heard heard = {.chars = chars, .buffer = reply, .room = sizeof reply};
    struct osturdam_turned turned;
    heard.count = line_frame(chars, UNIT, 1, 0x03, 0x80, NULL, 0);
    if (osturdam_hear(&lent, &heard, &turned) != OSTURDAM_DONE)
        fail("no reply", 0, n);
    int ready = 0;
    while (ready < KINDS && (1 << ready) <= n + 1)
        ready++;
    if (turned.sent != 9 + 4 * ready)
        fail("another number of values", 0, n);
    for (int kind = 0; kind < ready; kind++)
        if (osturdam_value_at(reply + 7 + 4 * kind) != wanted(kind, n))
            fail("other characters", kind, n);
}

static unsigned long count(void)
{
    unsigned long sum = 0;
    for (int kind = 0; kind < KINDS; kind++)
        sum += means[kind];
    return sum;
}

static void run(unsigned pattern)
{
    begin();
    for (int n = 0; n < LONG; n++) {
        given[n] = word_of(pattern, n);
        if (osturdam_take_word(&lent, LOAD, (uint16_t)given[n]) != OSTURDAM_DONE)
            fail("no word", 0, n);
        for (int kind = 0; kind < KINDS; kind++)
            sample(kind, n);
        if (n % 97 == 0)
            read_all(n);
    }
}

int main(int argc, char **argv)
{
    unsigned long asked = argc == 3 ? strtoul(argv[1], NULL, 10) : 0;
    if (asked == 0)
        return 2;
    chance = strtoul(argv[2], NULL, 10) + 1;
    for (unsigned pattern = 0; count() < asked || pattern < PATTERNS; pattern++)
        run(pattern % PATTERNS);
    printf("means: %lu means of 1 to %d samples (%lu to %lu of each) equal those of doubles bit for bit; %lu sums of 0, %lu samples before "
           "them\n",
           count(), OSTURDAM_SAMPLES, means[KINDS - 1], means[0], zeros, missing);
    return 0;
}
