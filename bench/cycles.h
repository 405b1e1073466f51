// Cycles of a call by the processor's time-stamp counter, least of many. CYCLES in the environment asks for them, so that one program with
// one set of arguments is counted both ways.
#ifndef CYCLES_H
#define CYCLES_H

#include <inttypes.h>
#include <stdio.h>
#include <stdlib.h>
#include <x86intrin.h>

enum { REPETITIONS = 2000 };

static inline int cycles_asked(void)
{
    return getenv("CYCLES") != NULL;
}

// All that went before is done, its stores too, and nothing that follows has begun.
static inline uint64_t cycles_from(void)
{
    _mm_mfence();
    _mm_lfence();
    uint64_t now = __rdtsc();
    _mm_lfence();
    return now;
}

// rdtscp waits for the call; the fence holds back what follows.
static inline uint64_t cycles_to(void)
{
    unsigned processor;
    uint64_t now = __rdtscp(&processor);
    _mm_lfence();
    return now;
}

static inline void least_of(uint64_t *least, uint64_t cycles)
{
    if (cycles < *least)
        *least = cycles;
}

// A line with a call's name and its cycles, less those of measuring nothing. `prepare` comes before each call and is not counted; the
// first repetitions warm up what the least of them finds warm.
#define TELL_CYCLES(name, prepare, call)                                         \
    do {                                                                         \
        uint64_t least = UINT64_MAX, nothing = UINT64_MAX, from;                 \
        for (int repetition = 0; repetition < REPETITIONS; repetition++) {       \
            prepare;                                                             \
            from = cycles_from();                                                \
            least_of(&nothing, cycles_to() - from);                              \
            from = cycles_from();                                                \
            call;                                                                \
            least_of(&least, cycles_to() - from);                                \
        }                                                                        \
        printf("%s %" PRIu64 "\n", name, least > nothing ? least - nothing : 0); \
    } while (0)

#endif
