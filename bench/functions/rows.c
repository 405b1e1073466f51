// One row of the table: units are brought to where it stands by events, then one event is counted.
#include "setting.h"

#include <stdio.h>
#include <string.h>

// Table 2 names table 1 twice: 120, 120 and 15 words.
static void three_parts(void)
{
    uint8_t area[256] = {0x00, 120, [122] = 0x11, [123] = 15};
    for (int i = 0; i < 120; i++)
        area[2 + i] = 0x80 + i;
    for (int i = 0; i < 15; i++)
        area[124 + i] = i;
    write_tables(area);
}

// Tables 1 to 15 of a word each. Only the last has nibbles, 14 and 1.
static void fifteen(void)
{
    uint8_t area[256] = {[42] = 0xE1};
    for (int i = 0; i < 15; i++) {
        area[3 * i + 1] = 1;
        area[3 * i + 2] = 0x80 + i;
    }
    write_tables(area);
}

static void points(void)
{
    ask(0x00, 0x4D, "", 0, 1, OSTURDAM_DONE);
}

// All contacts have bounced: each word has eight marks.
static void bounce(void)
{
    for (int g = 0; g < OSTURDAM_GROUPS; g++) {
        contacts(g, 0xFF);
        contacts(g, 0x00);
        contacts(g, 0xFF);
    }
}

static void marked_points(void)
{
    bounce();
    ask(0x00, 0x4D, "", 0, 1, OSTURDAM_DONE);
}

static void marked_table(void)
{
    three_parts();
    bounce();
    ask(0x0A, 0x42, "", 0, 1, OSTURDAM_DONE);
}

static void marked_one(void)
{
    fifteen();
    contacts(0, 1);
    contacts(0, 0);
    ask(0x0A, 0x41, "", 0, 1, OSTURDAM_DONE);
}

static void table(void)
{
    three_parts();
    ask(0x0A, 0x42, "", 0, 1, OSTURDAM_DONE);
}

static void last_table(void)
{
    fifteen();
    ask(0x0A, 0x4F, "", 0, 1, OSTURDAM_DONE);
}

static void first_table(void)
{
    fifteen();
    ask(0x0A, 0x41, "", 0, 1, OSTURDAM_DONE);
}

// Table 1 of 16 words.
static void sixteen(void)
{
    uint8_t area[256] = {[1] = 16};
    for (int i = 0; i < 16; i++)
        area[2 + i] = 0x80 + i;
    write_tables(area);
    ask(0x0A, 0x41, "", 0, 1, OSTURDAM_DONE);
}

// The last of an area of 15 tables of 15 numbers, each of which names two others.
static void execute(void)
{
    uint8_t area[256] = {0};
    for (int t = 0; t < 15; t++) {
        area[17 * t] = (uint8_t)(0x10 * ((t + 1) % 15 + 1) + (t + 7) % 15 + 1);
        area[17 * t + 1] = 15;
        for (int i = 0; i < 15; i++)
            area[17 * t + 2 + i] = (uint8_t)(0x80 + 8 * t + i % 8);
    }
    write_tables(area);
    ask(0x20, 0x30, "\x80\0\x03", 3, 0, OSTURDAM_WRITE_TAKEN);
    ask(0x20, 0x31, area + 128, 128, 1, OSTURDAM_DONE);
}

static void values(void)
{
    ask(0x03, 0x80, "", 0, 1, OSTURDAM_DONE);
}

static void dump(void)
{
    store(0, 32);
    ask(0x04, 0x60, "", 0, 1, OSTURDAM_DONE);
}

static void one_more(void)
{
    uint16_t given[OSTURDAM_VALUES] = {1, 2, 3, 4, 5, 6, 7, 8, 9, 10, 11, 12, 13, 14, 15, 65535};
    store(0, 12);
    expect("a record", store_record(&u, 0, 7, given, OSTURDAM_VALUES, 1), OSTURDAM_STORED);
}

// A full file that keeps the newest, with a record of it in the latest reply: the next goes, and 30 move down.
static void swapped(void)
{
    uint16_t given[OSTURDAM_VALUES] = {1, 2, 3, 4, 5, 6, 7, 8, 9, 10, 11, 12, 13, 14, 15, 65535};
    store(0, 32);
    ask(0x04, 0x40, "", 0, 0, OSTURDAM_DONE);
    expect("a record", store_record(&u, 0, 7, given, OSTURDAM_VALUES, 1), OSTURDAM_STORED);
}

// Means that are ready: a sample takes the place of the oldest.
static void sample_of(int calculation)
{
    equip_means();
    expect("a sample", take_sample(&u, calculation, 1), OSTURDAM_DONE);
}

static void sample_1(void)
{
    sample_of(0);
}

static void sample_16(void)
{
    sample_of(1);
}

static void sample_256(void)
{
    sample_of(2);
}

// The acknowledging request names an empty file, so that nothing but the release is long.
static void release(void)
{
    store(0, 32);
    ask(0x04, 0x60, "", 0, 0, OSTURDAM_DONE);
    ask(0x04, 0x41, "", 0, 1, OSTURDAM_DONE);
}

// The acknowledging request names the same file, the last: what was sent leaves, and as much again is sent.
static void follow(void)
{
    store(31, 32);
    ask(0x04, 0x7F, "", 0, 0, OSTURDAM_DONE);
    ask(0x04, 0x7F, "", 0, 1, OSTURDAM_DONE);
}

static void refused(void)
{
    ask(0x10, 0x10, "\x63", 1, 1, OSTURDAM_NOT_VALID);
}

// Day 366, 23:59:59.999: the lag carries through every field.
static void set_time(void)
{
    ask(0x20, 0x38, "\x03\x66\x23\x59\x59\x03\xE7", 7, 1, OSTURDAM_DONE);
}

// The longest pair: 128 characters of ordinal 06.
static void both(void)
{
    static const uint8_t data[128] = {1, 2, 3};
    ask_both("\x80\x01\x06", data, sizeof data, 1, OSTURDAM_DONE);
}

int main(int argc, char **argv)
{
    static const struct {
        const char *name;
        void (*run)(void);
    } rows[] = {{"points", points},         {"table", table},         {"last", last_table},       {"first", first_table},
                {"values", values},         {"dump", dump},           {"marked", marked_points},  {"marked-table", marked_table},
                {"marked-one", marked_one}, {"store", one_more},      {"swap", swapped},          {"release", release},
                {"follow", follow},         {"refused", refused},     {"set", set_time},          {"pair", both},
                {"sample-1", sample_1},     {"sample-16", sample_16}, {"sample-256", sample_256}, {"sixteen", sixteen},
                {"execute", execute}};
    equip(POINTS);
    for (size_t i = 0; argc == 2 && i < sizeof rows / sizeof rows[0]; i++)
        if (strcmp(argv[1], rows[i].name) == 0) {
            rows[i].run();
            return 0;
        }
    fprintf(stderr, "usage: rows points | marked | marked-table | marked-one | table | last | first | values | dump | store | swap | "
                    "release | follow | refused | set | pair | sample-1 | sample-16 | sample-256 | sixteen | "
                    "execute\n");
    return 2;
}
