// Units brought by events to where a row stands.
#include "setting.h"

#include <stdio.h>
#include <stdlib.h>
#include <string.h>

enum { MASTER = 1, UNIT = 1234 };

struct units u;

void expect(const char *what, unsigned got, unsigned wanted)
{
    if (got != wanted) {
        fprintf(stderr, "%s ends with %u, not %u\n", what, got, wanted);
        exit(1);
    }
}

void ask(unsigned function, unsigned command, const void *data, size_t count, int counted, unsigned wanted)
{
    uint8_t s[OSTURDAM_FRAME];
    size_t n = frame(s, MASTER, UNIT, function, command, data, count);
    expect("a request", stretch(&u, s, n, counted), wanted);
}

void ask_both(const void *place, const void *data, size_t count, int counted, unsigned wanted)
{
    uint8_t s[OSTURDAM_STRETCH];
    size_t n = frame(s, MASTER, UNIT, 0x20, 0x30, place, 3);
    n += frame(s + n, MASTER, UNIT, 0x20, 0x31, data, count);
    expect("a pair", stretch(&u, s, n, counted), wanted);
}

// The analogs first, then status, then accumulators; what is no point comes after all of them.
static int place(int input)
{
    if (input >= 0x80)
        return input - 0x80;
    if (input < 0x20)
        return 128 + input;
    return input >= 0x30 && input < 0x60 ? 160 + input - 0x30 : POINTS;
}

// A contact for each bit of a two-bit word.
void contacts(int group, unsigned states)
{
    for (int i = 0; i < 8; i++)
        expect("a contact", contact(&u, 8 * group + i, states >> i & 1), OSTURDAM_DONE);
}

// No contact has changed since the last reply.
static void fill(void)
{
    for (int i = 0; i < OSTURDAM_INPUTS; i++)
        if (osturdam_has_input(&u.config, i) && i >= 0x40 && i < 0x60)
            expect("pulses", pulses(&u, i, 1000 + i), OSTURDAM_DONE);
        else if (osturdam_has_input(&u.config, i) && i < OSTURDAM_GROUPS)
            contacts(i, i + 3);
        else if (osturdam_has_input(&u.config, i))
            expect("a word", set_word(&u, i, 257 * i + 3), OSTURDAM_DONE);
    for (int i = 0; i < 127; i++)
        if (osturdam_mean_place(&u.config, i) == OSTURDAM_MEANS)
            expect("a value", set_value(&u, i, 0x01030507u * i), OSTURDAM_DONE);
    ask(0x00, 0x04, "", 0, 0, OSTURDAM_DONE);
}

static void equip_all(int points, int files)
{
    struct osturdam_config *c = &u.config;
    osturdam_put_number(c, UNIT);
    osturdam_put_length(c, OSTURDAM_BLOCK);
    for (int i = 0; i < OSTURDAM_INPUTS; i++)
        if (place(i) < points)
            osturdam_equip_input(c, i);
    for (int i = 0; i < 16; i++)
        osturdam_equip_output(c, i);
    for (int i = 0; i < 127; i++)
        osturdam_equip_calculation(c, i);
    for (int i = 0; i < files; i++) {
        osturdam_equip_file(c, i, OSTURDAM_VALUES);
        osturdam_keep_newest(c, i);
    }
    fresh(&u);
    fill();
}

void equip(int points)
{
    memset(&u.config, 0, sizeof u.config);
    equip_all(points, OSTURDAM_FILES);
}

void equip_files(int files)
{
    memset(&u.config, 0, sizeof u.config);
    equip_all(POINTS, files);
    u.lent.room = osturdam_room_of(&u.config);
}

void equip_means(void)
{
    static const uint16_t windows[] = {1, 16, OSTURDAM_SAMPLES};
    memset(&u.config, 0, sizeof u.config);
    for (int i = 0; i < 3; i++)
        osturdam_equip_mean(&u.config, i, i, 0x80, windows[i]);
    equip_all(POINTS, OSTURDAM_FILES);
    for (int i = 0; i < 3; i++)
        for (int n = 0; n < windows[i]; n++) {
            expect("a word", set_word(&u, 0x80, 7919 * n - 32768), OSTURDAM_DONE);
            expect("a sample", take_sample(&u, i, 0), OSTURDAM_DONE);
        }
}

void store(int file, int n)
{
    uint16_t given[OSTURDAM_VALUES];
    for (int k = 0; k < n; k++) {
        for (int i = 0; i < OSTURDAM_VALUES; i++)
            given[i] = 1000 * k + i;
        expect("a record", store_record(&u, file, k, given, OSTURDAM_VALUES, 0), OSTURDAM_STORED);
    }
}

void write_tables(const uint8_t area[256])
{
    ask(0x20, 0x30, "\x00\x00\x03", 3, 0, OSTURDAM_WRITE_TAKEN);
    ask(0x20, 0x31, area, 128, 0, OSTURDAM_DONE);
    ask(0x20, 0x30, "\x80\x00\x03", 3, 0, OSTURDAM_WRITE_TAKEN);
    ask(0x20, 0x31, area + 128, 128, 0, OSTURDAM_DONE);
}
