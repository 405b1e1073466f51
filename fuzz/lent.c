#define _GNU_SOURCE
#include "lent.h"

#include "call.h"
#include "osturdam.h"

#include <stdio.h>
#include <stdlib.h>
#include <string.h>
#include <sys/mman.h>
#include <unistd.h>

enum {
    PAINT = 0xA5,
    PAINTED = 64,
    MOST_BLOCK = 600,
    MOST_RECORDS = OSTURDAM_LENT + 100,
    MOST_BUFFER = 1100,
    MOST_STRETCH = 700,
    MOST_GIVEN = 80
};

static const struct {
    const char *name;
    size_t most;
} known[PARTS] = {
    [CONFIG] = {"configuration", OSTURDAM_CONFIG},
    [UNIT] = {"unit", OSTURDAM_UNIT},
    [BLOCK] = {"block", MOST_BLOCK},
    [RECORDS] = {"records", MOST_RECORDS},
    [BUFFER] = {"buffer", MOST_BUFFER},
    [STRETCH] = {"stretch", MOST_STRETCH},
    [GIVEN] = {"given", MOST_GIVEN},
    [TURNED] = {"turned", CALL_SAMPLED},
};

struct part_lent lent[PARTS];
static uint8_t *ends[PARTS];

struct picture {
    uint8_t chars[PARTS][MOST_RECORDS];
};

static void fence(enum part part)
{
    size_t page = (size_t)sysconf(_SC_PAGESIZE);
    size_t open = (known[part].most + PAINTED + page - 1) / page * page;
    uint8_t *low = mmap(NULL, open + 2 * page, PROT_NONE, MAP_PRIVATE | MAP_ANONYMOUS, -1, 0);
    if (low == MAP_FAILED || mprotect(low + page, open, PROT_READ | PROT_WRITE) != 0) {
        perror("fuzz: pages");
        exit(2);
    }
    ends[part] = low + page + open;
}

void lent_begin(void)
{
    for (enum part part = 0; part < PARTS; part++) {
        fence(part);
        lent_place(part, known[part].most);
    }
}

void lent_place(enum part part, size_t length)
{
    lent[part].at = ends[part] - length;
    lent[part].length = length;
    memset(lent[part].at - PAINTED, PAINT, PAINTED);
}

size_t lent_most(enum part part)
{
    return known[part].most;
}

const char *lent_name(enum part part)
{
    return known[part].name;
}

struct picture *picture_new(void)
{
    return calloc(1, sizeof(struct picture));
}

void picture_take(struct picture *p)
{
    for (enum part part = 0; part < PARTS; part++)
        memcpy(p->chars[part], lent[part].at, lent[part].length);
}

void picture_restore(const struct picture *p)
{
    for (enum part part = 0; part < PARTS; part++)
        memcpy(lent[part].at, p->chars[part], lent[part].length);
}

const uint8_t *picture_part(const struct picture *p, enum part part)
{
    return p->chars[part];
}

enum part picture_differs(const struct picture *p)
{
    enum part part = 0;
    while (part < PARTS && memcmp(p->chars[part], lent[part].at, lent[part].length) == 0)
        part++;
    return part;
}

enum part lent_overwritten(void)
{
    uint8_t paint[PAINTED];
    enum part part = 0;
    memset(paint, PAINT, PAINTED);
    while (part < PARTS && memcmp(paint, lent[part].at - PAINTED, PAINTED) == 0)
        part++;
    return part;
}
