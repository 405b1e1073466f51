/* A run of events over the C interface from any bytes: a configuration, a kept state that may be any, then events of any lengths.
 * fuzz/seeds.py writes such bytes and has their layout. */
#include "call.h"
#include "judge.h"
#include "lent.h"
#include "line.h"
#include "osturdam.h"

#include <stdlib.h>

enum { MOST_EVENTS = 48, AGAIN = 509, ABOUT = 2, HALF = 127 };
enum flags { ANY_CONFIG = 1, ANY_STATE = 2, NULLS = 4, MOST_ROOM = 8, MEANS = 16 };
enum to { OWN, ALL, ANOTHER, BEHIND };

/* Functions with the commands that they have; below the high nibble of a file's or table's command any file or table. */
static const uint8_t commands[][2] = {
    {0x00, 0x41}, {0x00, 0x4D}, {0x03, 0x00}, {0x03, 0x80}, {0x04, 0x00}, {0x04, 0x20}, {0x04, 0x40},
    {0x04, 0x60}, {0x0A, 0x40}, {0x10, 0x10}, {0x10, 0x11}, {0x10, 0x20}, {0x10, 0x21}, {0x20, 0x00},
    {0x20, 0x11}, {0x20, 0x30}, {0x20, 0x31}, {0x20, 0x38}, {0x28, 0x30}, {0x28, 0x31},
};
enum { COMMANDS = sizeof commands / sizeof commands[0] };

static const uint8_t *input;
static size_t left;
static uint32_t lag;  /* of the stretches to come */
static size_t latest; /* the characters of the frames read last, in one stretch */

int LLVMFuzzerTestOneInput(const uint8_t *data, size_t size);

/* The next number of the input; 0 behind its end. */
static unsigned next(int chars)
{
    unsigned number = 0;
    for (int i = 0; i < chars && left > 0; i++, left--)
        number |= (unsigned)*input++ << 8 * i;
    return number;
}

static unsigned mixed(unsigned seed, unsigned n)
{
    unsigned x = (seed ^ n * 2654435761u) * 2246822519u;
    return (x ^ x >> 15) * 3266489917u >> 24;
}

/* Characters that look like chance, the same again after a while: long areas are filled quickly. */
static void fill(enum part part, unsigned seed)
{
    size_t length = lent[part].length, own = length < AGAIN ? length : AGAIN;
    for (size_t i = 0; i < own; i++)
        lent[part].at[i] = (uint8_t)mixed(seed + (unsigned)part, (unsigned)i);
    for (size_t i = own; i < length; i += own)
        memcpy(lent[part].at + i, lent[part].at, length - i < own ? length - i : own);
}

/* A table of the configuration in which as many of the numbers from `low` to `high` are equipped as the density says. */
static void equip(size_t table, unsigned seed, unsigned density, unsigned low, unsigned high)
{
    for (unsigned n = low; n < high; n++)
        lent[CONFIG].at[table - OSTURDAM_AT_NUMBER + n] = mixed(seed + (unsigned)table, n) <= density ? 1 : 0;
}

static void configure(unsigned seed, unsigned density)
{
    memset(lent[CONFIG].at, 0, lent[CONFIG].length);
    equip(OSTURDAM_AT_INPUTS, seed, density, 0x00, 0x20);
    equip(OSTURDAM_AT_INPUTS, seed, density, 0x30, 0x60);
    equip(OSTURDAM_AT_INPUTS, seed, density, 0x80, 0x100);
    equip(OSTURDAM_AT_OUTPUTS, seed, density, 0, OSTURDAM_INPUTS);
    equip(OSTURDAM_AT_CALCULATIONS, seed, density, 0, OSTURDAM_CALCULATIONS);
    equip(OSTURDAM_AT_FILES, seed, density, 0, OSTURDAM_FILES);
    equip(OSTURDAM_AT_OLDEST, seed, HALF, 0, OSTURDAM_FILES);
    for (unsigned f = 0; f < OSTURDAM_FILES; f++)
        lent[CONFIG].at[OSTURDAM_AT_VALUES - OSTURDAM_AT_NUMBER + f] = (uint8_t)(1 + mixed(seed, f) % OSTURDAM_VALUES);
}

/* Means wherever their calculation and analog are equipped: over 2 samples in the second half of the places, over any number in the first. */
static void configure_means(unsigned seed)
{
    struct osturdam_config c;
    memcpy(&c, lent[CONFIG].at, sizeof c);
    for (uint8_t place = 0; place < OSTURDAM_MEANS; place++) {
        uint8_t calculation = (uint8_t)(8 * place), analog = (uint8_t)(0x80 + mixed(seed, place) % 4);
        uint16_t samples = place < OSTURDAM_MEANS / 2 ? (uint16_t)(1u << mixed(seed, place + 1u) % 9) : 2;
        if (osturdam_has_calculation(&c, calculation) && osturdam_has_input(&c, analog))
            osturdam_equip_mean(&c, place, calculation, analog, samples);
    }
    memcpy(lent[CONFIG].at, &c, sizeof c);
}

/* What the configuration asks for. */
static size_t asked_here(void)
{
    struct osturdam_config c;
    memcpy(&c, lent[CONFIG].at, sizeof c);
    return (size_t)asked(&c);
}

/* The unit is fresh, or its memory is any with the layout's number and the configuration in it. */
static void begin(struct call *c)
{
    unsigned flags = next(1), density = next(1), unit = next(2), length = next(2), room = next(2), seed = next(4);
    bool any = (flags & ANY_CONFIG) != 0;
    c->nulls = (flags & NULLS) != 0;
    length = any ? length : length % (OSTURDAM_BLOCK + 1);
    configure(seed, density);
    if ((flags & MEANS) != 0)
        configure_means(seed);
    if (any)
        fill(CONFIG, seed);
    osturdam_word_to(lent[CONFIG].at, (uint16_t)(any ? unit : unit % LINE_BROADCAST));
    osturdam_word_to(lent[CONFIG].at + OSTURDAM_AT_LENGTH - OSTURDAM_AT_NUMBER, (uint16_t)length);
    lent_place(BLOCK, length <= lent_most(BLOCK) ? length : 0);
    lent_place(RECORDS, (flags & MOST_ROOM) != 0 || asked_here() > OSTURDAM_LENT ? OSTURDAM_LENT : asked_here());
    lent_place(BUFFER, room % (lent_most(BUFFER) + 1));
    lent_place(STRETCH, 0);
    lent_place(GIVEN, 0);
    for (enum part part = UNIT; part < PARTS; part++)
        fill(part, seed);
    c->kind = BEGIN;
    if ((flags & ANY_STATE) == 0) {
        call_checked(c);
    } else {
        osturdam_word_to(lent[UNIT].at + OSTURDAM_AT_LAYOUT, OSTURDAM_LAYOUT);
        memcpy(lent[UNIT].at + OSTURDAM_AT_NUMBER, lent[CONFIG].at, OSTURDAM_CONFIG);
    }
}

static void read_chars(uint8_t *place, size_t many)
{
    for (size_t i = 0; i < many; i++)
        place[i] = (uint8_t)next(1);
}

/* A frame with the right check, mostly of a known command and mostly to this unit; some come in one stretch behind those before them. */
static void read_frame(struct call *c)
{
    static uint8_t data[0xFF], frames[3 * (sizeof data + 8)];
    unsigned whom = next(1), chosen = next(1), low = next(1), many = next(1);
    unsigned function = chosen < 0xF0 ? commands[chosen % COMMANDS][0] : low;
    unsigned command = chosen < 0xF0 ? commands[chosen % COMMANDS][1] : next(1);
    if (chosen < 0xF0 && (function == 0x04 || function == 0x0A))
        command |= low & 0x1F;
    unsigned own = osturdam_word_at(lent[UNIT].at + OSTURDAM_AT_NUMBER);
    unsigned unit = whom >> 5 == ALL ? LINE_BROADCAST : whom >> 5 == ANOTHER ? own ^ 1u : own;
    read_chars(data, many);
    size_t from = whom >> 5 == BEHIND && latest + sizeof data + 8 <= sizeof frames ? latest : 0;
    latest = from + line_frame(frames + from, unit & 0x7FF, whom & 0x1F, function, command, data, many);
    lent_place(STRETCH, latest);
    memcpy(lent[STRETCH].at, frames, latest);
    c->kind = HEAR;
    c->value = lag;
}

static void read_stretch(struct call *c)
{
    lent_place(STRETCH, next(2) % (lent_most(STRETCH) + 1));
    read_chars(lent[STRETCH].at, lent[STRETCH].length);
    c->kind = HEAR;
    c->value = lag;
}

/* A contact, mostly in one of its two states. */
static void read_contact(struct call *c)
{
    c->number = (uint8_t)next(1);
    unsigned state = next(1);
    c->value = state < 0xF0 ? state % 2 : state;
    c->kind = CONTACT;
}

/* A record, mostly with as many values as its file has. */
static void read_record(struct call *c)
{
    c->number = (uint8_t)next(1);
    c->event = (uint8_t)next(1);
    unsigned chosen = next(1), own = c->number < OSTURDAM_FILES ? lent[UNIT].at[OSTURDAM_AT_VALUES + c->number] : 0;
    size_t many = chosen < 0xC0 && own <= OSTURDAM_VALUES ? own : chosen % (lent_most(GIVEN) / sizeof(uint16_t) + 1);
    lent_place(GIVEN, many * sizeof(uint16_t));
    fill(GIVEN, chosen);
    c->kind = STORE;
}

static void read_local(struct call *c, enum kind kind)
{
    c->kind = kind;
    c->number = kind == ELAPSE ? 0 : (uint8_t)next(1);
    c->value = next(kind == ELAPSE || kind == SET_VALUE ? 4 : 2);
}

/* One character becomes any. */
static void read_change(void)
{
    static const struct {
        enum part part;
        size_t from, length; /* a length of 0: the whole part */
    } of[] = {
        {UNIT, OSTURDAM_AT_INPUTS, OSTURDAM_INPUTS},
        {UNIT, OSTURDAM_AT_CALCULATIONS, OSTURDAM_INPUTS},
        {UNIT, OSTURDAM_AT_FILES, OSTURDAM_FILES},
        {UNIT, OSTURDAM_AT_VALUES, OSTURDAM_FILES},
        {UNIT, OSTURDAM_AT_COUNTS, OSTURDAM_FILES},
        {UNIT, OSTURDAM_AT_FIXED, OSTURDAM_FIXED},
        {RECORDS, 0, 0},
        {BLOCK, 0, 0},
        {UNIT, 0, 0},
        {UNIT, OSTURDAM_AT_LAYOUT, OSTURDAM_AT_NUMBER - OSTURDAM_AT_LAYOUT},
        {UNIT, OSTURDAM_AT_OLDEST, OSTURDAM_FILES},
        {UNIT, OSTURDAM_AT_DROPPED, OSTURDAM_UNIT - OSTURDAM_AT_DROPPED},
        {UNIT, OSTURDAM_AT_MEANS, OSTURDAM_MEANS},
        {UNIT, OSTURDAM_AT_SAMPLED, OSTURDAM_MEANS},
        {UNIT, OSTURDAM_AT_WINDOWS, 2 * OSTURDAM_MEANS},
        {UNIT, OSTURDAM_AT_TAKEN, 2 * OSTURDAM_MEANS},
    };
    size_t which = next(1) % (sizeof of / sizeof of[0]);
    enum part part = of[which].part;
    size_t length = of[which].length == 0 ? lent[part].length : of[which].length;
    unsigned place = next(2), number = next(1);
    if (length > 0)
        lent[part].at[of[which].from + place % length] = (uint8_t)number;
}

/* One kept number becomes any. */
static void read_number(void)
{
    unsigned which = next(2) % OSTURDAM_KEPT;
    osturdam_word_to(lent[UNIT].at + OSTURDAM_AT_NUMBERS + 2 * which, (uint16_t)next(2));
}

/* Another room, or another length of what is lent as the parameter block or for records; the last of the four is just about what a fresh
 * unit asks for. */
static void read_lengths(void)
{
    static const enum part of[] = {BLOCK, BUFFER, RECORDS, RECORDS};
    unsigned which = next(1) % (sizeof of / sizeof of[0]), length = next(2);
    enum part part = of[which];
    size_t about = asked_here() + length % (2 * ABOUT + 1), most = lent_most(part);
    if (which < sizeof of / sizeof of[0] - 1)
        lent_place(part, length % (most + 1));
    else if (about >= ABOUT && about - ABOUT <= most)
        lent_place(part, about - ABOUT);
    fill(part, 0);
}

/* Answers whether the event is one for the library. */
static bool read_event(struct call *c)
{
    unsigned kind = next(1) % 16;
    switch (kind) {
    case 4: c->kind = SAMPLE, c->number = (uint8_t)next(1); return true;
    case 5: lag = next(4); return false;
    case 6: read_stretch(c); return true;
    case 7: read_local(c, ELAPSE); return true;
    case 8: read_local(c, SET_WORD); return true;
    case 9: read_local(c, PULSE); return true;
    case 10: read_local(c, SET_VALUE); return true;
    case 11: read_record(c); return true;
    case 12: read_contact(c); return true;
    case 13: read_number(); return false;
    case 14: read_change(); return false;
    case 15: read_lengths(); return false;
    default: read_frame(c); return true;
    }
}

int LLVMFuzzerTestOneInput(const uint8_t *data, size_t size)
{
    struct call c = {BEGIN, false, 0, 0, 0};
    if (lent[UNIT].at == NULL)
        lent_begin();
    input = data;
    left = size;
    lag = 0;
    latest = 0;
    begin(&c);
    for (int i = 0; i < MOST_EVENTS && left > 0; i++)
        if (read_event(&c))
            call_checked(&c);
    return 0;
}
