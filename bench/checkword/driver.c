// Calls each of the three functions once on n fixed characters, from the start given or from 0; its answers must be those of the bitwise
// division. Where cycles are asked for, they are told.
#include "cycles.h"
#include "osturdam.h"

#include <stddef.h>
#include <stdint.h>
#include <stdio.h>
#include <stdlib.h>

uint16_t c_check_word(uint16_t start, const uint8_t *s, size_t n);
uint16_t rust_check_word(uint16_t start, const uint8_t *s, size_t n);

static uint16_t bitwise(uint16_t start, const uint8_t *s, size_t n)
{
    uint16_t v = start;
    for (size_t i = 0; i < n; i++) {
        v ^= s[i];
        for (int bit = 0; bit < 8; bit++)
            v = (v >> 1) ^ ((v & 1) * 0xA001);
    }
    return v;
}

static int wrong(const char *name, uint16_t got, uint16_t right)
{
    if (got == right)
        return 0;
    fprintf(stderr, "%s answers %04x, not %04x\n", name, got, right);
    return 1;
}

int main(int argc, char **argv)
{
    static uint8_t s[1024];
    size_t n = argc == 2 || argc == 3 ? strtoul(argv[1], NULL, 10) : sizeof s + 1;
    uint16_t start = argc == 3 ? strtoul(argv[2], NULL, 16) : 0;
    if (n > sizeof s)
        return 2;
    uint32_t seed = 2179;
    for (size_t i = 0; i < n; i++) {
        seed = seed * 1103515245 + 12345;
        s[i] = seed >> 16;
    }
    if (cycles_asked()) {
        TELL_CYCLES("osturdam_check", , osturdam_check(start, s, n));
        TELL_CYCLES("c_check_word", , c_check_word(start, s, n));
        TELL_CYCLES("rust_check_word", , rust_check_word(start, s, n));
    }
    uint16_t right = bitwise(start, s, n);
    return wrong("osturdam_check", osturdam_check(start, s, n), right) || wrong("C", c_check_word(start, s, n), right) ||
           wrong("Rust", rust_check_word(start, s, n), right);
}
