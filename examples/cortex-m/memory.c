/* What a compiler may call for any program, and the library calls: for images that have no C library. */
#include "memory.h"

#include <stdint.h>

void *memset(void *to, int with, size_t many)
{
    uint8_t *p = (uint8_t *)to;
    while (many-- > 0)
        *p++ = (uint8_t)with;
    return to;
}

void *memmove(void *to, const void *from, size_t many)
{
    uint8_t *p = (uint8_t *)to;
    const uint8_t *q = (const uint8_t *)from;
    if (p < q)
        while (many-- > 0)
            *p++ = *q++;
    else
        while (many-- > 0)
            p[many] = q[many];
    return to;
}

void *memcpy(void *to, const void *from, size_t many)
{
    return memmove(to, from, many);
}

int memcmp(const void *one, const void *other, size_t many)
{
    const uint8_t *p = (const uint8_t *)one, *q = (const uint8_t *)other;
    for (; many > 0; many--, p++, q++)
        if (*p != *q)
            return *p - *q;
    return 0;
}

#ifdef __ARM_EABI__
#define MOVES(name)                                    \
    void name(void *to, const void *from, size_t many) \
    {                                                  \
        memmove(to, from, many);                       \
    }
#define CLEARS(name)                 \
    void name(void *to, size_t many) \
    {                                \
        memset(to, 0, many);         \
    }
MOVES(__aeabi_memcpy)
MOVES(__aeabi_memcpy4)
MOVES(__aeabi_memcpy8)
MOVES(__aeabi_memmove)
MOVES(__aeabi_memmove4)
CLEARS(__aeabi_memclr)
CLEARS(__aeabi_memclr4)
CLEARS(__aeabi_memclr8)
#endif
