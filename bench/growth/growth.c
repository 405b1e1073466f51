// One event of a kind with n words or records: growth KIND N.
#include "setting.h"

#include <stdio.h>
#include <stdlib.h>
#include <string.h>

static void points(int n)
{
    equip(n);
    ask(0x00, 0x4D, "", 0, 1, OSTURDAM_DONE);
}

static void analogs(int n)
{
    equip(n);
    ask(0x00, 0x08, "", 0, 1, OSTURDAM_DONE);
}

static void table(int n)
{
    uint8_t area[256] = {0x00, n};
    for (int i = 0; i < n; i++)
        area[2 + i] = 0x80 + i % 128;
    equip(POINTS);
    write_tables(area);
    ask(0x0A, 0x41, "", 0, 1, OSTURDAM_DONE);
}

static void dump(int n)
{
    equip(POINTS);
    store(0, n);
    ask(0x04, 0x60, "", 0, 1, OSTURDAM_DONE);
}

static void one_more(int n)
{
    uint16_t given[OSTURDAM_VALUES] = {1, 2, 3, 4, 5, 6, 7, 8, 9, 10, 11, 12, 13, 14, 15, 65535};
    equip(POINTS);
    store(0, n);
    expect("a record", store_record(&u, 0, 7, given, OSTURDAM_VALUES, 1), OSTURDAM_STORED);
}

// In each of the 32 files.
static void refused(int n)
{
    equip(POINTS);
    for (int file = 0; file < OSTURDAM_FILES; file++)
        store(file, n);
    ask(0x10, 0x10, "\x63", 1, 1, OSTURDAM_NOT_VALID);
}

// Where less is lent than the most that any unit asks for, every event sums what this one does.
static void packed(int n)
{
    equip_files(n);
    ask(0x10, 0x10, "\x63", 1, 1, OSTURDAM_NOT_VALID);
}

// In the last of so many files.
static void last(int n)
{
    uint16_t given[OSTURDAM_VALUES] = {1, 2, 3, 4, 5, 6, 7, 8, 9, 10, 11, 12, 13, 14, 15, 65535};
    equip_files(n);
    expect("a record", store_record(&u, n - 1, 7, given, OSTURDAM_VALUES, 1), OSTURDAM_STORED);
}

int main(int argc, char **argv)
{
    static const struct {
        const char *name;
        void (*run)(int n);
        int most;
    } kinds[] = {{"points", points, POINTS},
                 {"analogs", analogs, 128},
                 {"table", table, 254},
                 {"dump", dump, OSTURDAM_ROOM},
                 {"store", one_more, OSTURDAM_ROOM - 1},
                 {"refused", refused, OSTURDAM_ROOM},
                 {"packed", packed, OSTURDAM_FILES},
                 {"last", last, OSTURDAM_FILES}};
    int n = argc == 3 ? atoi(argv[2]) : -1;
    for (size_t i = 0; n >= 0 && i < sizeof kinds / sizeof kinds[0]; i++)
        if (strcmp(argv[1], kinds[i].name) == 0 && n <= kinds[i].most) {
            kinds[i].run(n);
            return 0;
        }
    fprintf(stderr, "usage: growth points | analogs | table | dump | store | refused | packed | last N\n");
    return 2;
}
