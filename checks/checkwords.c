/* Prints the check word of each line on standard input, by the proved library: a start in four digits of hex, then the characters' parts, each
 * behind a colon and checked from the check of what stands before it. */
#include "osturdam.h"

#include <stdint.h>
#include <stdio.h>

static int digit(int c)
{
    return c >= '0' && c <= '9' ? c - '0' : c >= 'A' && c <= 'F' ? c - 'A' + 10 : -1;
}

int main(void)
{
    static uint8_t s[4096];
    size_t digits = 0;
    uint16_t check = 0;
    int started = 0;
    for (int c = getchar(); c != EOF; c = getchar()) {
        int d = digit(c);
        if (d >= 0 && digits < 2 * sizeof s) {
            s[digits / 2] = (uint8_t)(digits % 2 ? s[digits / 2] + d : 16 * d);
            digits++;
        } else if ((c == ':' || (c == '\n' && started)) && (started ? digits % 2 == 0 : digits == 4)) {
            check = started ? osturdam_check(check, s, digits / 2) : (uint16_t)(256 * s[0] + s[1]);
            started = c == ':';
            digits = 0;
            if (!started)
                printf("%04X\n", check);
        } else {
            fputs("checkwords: no line of hex\n", stderr);
            return 1;
        }
    }
    return 0;
}
