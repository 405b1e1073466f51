/* Holds the header's numbers to what the library does: each limit from both sides, each outcome in a situation made for it. */
#include "osturdam.h"

#include "line.h"

#include <stdio.h>
#include <stdlib.h>

enum { UNIT = 1234, ONE = 1, OTHER = 2 };

static struct osturdam_config config;
static struct osturdam_together all;
static struct osturdam_lent lent;
static uint8_t buffer[OSTURDAM_REPLY];
static uint32_t lag; /* of the stretches to come */
static int failed;

static void expect(const char *what, int wanted, int got)
{
    if (wanted != got) {
        printf("header: %s is %d, the library answers %d\n", what, wanted, got);
        failed = 1;
    }
}

/* A limit or outcome of the header, and what the library answers. */
#define EXPECT(constant, got) expect(#constant, constant, got)

/* A configuration with something of each kind; records of file 0 are the longest. */
static void configure(void)
{
    memset(&config, 0, sizeof config);
    osturdam_put_number(&config, UNIT);
    osturdam_put_length(&config, OSTURDAM_BLOCK);
    osturdam_equip_input(&config, 0x30);
    osturdam_equip_input(&config, 0x40);
    osturdam_equip_output(&config, 0x40);
    for (int n = 0; n < OSTURDAM_CALCULATIONS; n++)
        osturdam_equip_calculation(&config, (uint8_t)n);
    osturdam_equip_file(&config, 0, OSTURDAM_VALUES);
    osturdam_equip_file(&config, OSTURDAM_FILES - 1, OSTURDAM_VALUES);
}

static void start(void)
{
    lent = osturdam_lend(&all, &config);
    osturdam_begin(&lent, &config);
}

static void begin(void)
{
    configure();
    start();
}

static struct osturdam_turned heard(const uint8_t *chars, size_t count, size_t room)
{
    struct osturdam_heard stretch = {.chars = chars, .count = count, .buffer = buffer, .room = room, .lag = lag};
    struct osturdam_turned turned;
    enum osturdam_outcome outcome = osturdam_hear(&lent, &stretch, &turned);
    expect("the outcome told", outcome, turned.outcome);
    return turned;
}

static struct osturdam_turned to(unsigned number, unsigned master, unsigned function, unsigned command, const char *data, size_t many)
{
    uint8_t frame[OSTURDAM_FRAME + 1];
    size_t length = line_frame(frame, number, master, function, command, (const uint8_t *)data, many);
    return heard(frame, length, sizeof buffer);
}

static int ask(unsigned master, unsigned function, unsigned command, const char *data, size_t many)
{
    return to(UNIT, master, function, command, data, many).outcome;
}

static int kept(enum osturdam_kept which)
{
    return osturdam_kept_of(&all.unit, which);
}

static void stretches(void)
{
    static const char zeros[OSTURDAM_FRAME];
    uint8_t frame[OSTURDAM_FRAME];
    begin();
    EXPECT(OSTURDAM_WRONG_COUNT, ask(ONE, 0x00, 0x41, zeros, OSTURDAM_FRAME - 8));
    EXPECT(OSTURDAM_NOT_WHOLE, ask(ONE, 0x00, 0x41, zeros, OSTURDAM_FRAME - 7));
    size_t length = line_frame(frame, UNIT, ONE, 0x00, 0x41, NULL, 0);
    EXPECT(OSTURDAM_BUFFER_SHORT, heard(frame, length, OSTURDAM_REPLY - 1).outcome);
    EXPECT(OSTURDAM_DONE, heard(frame, length, OSTURDAM_REPLY).outcome);
    frame[3] ^= 1;
    EXPECT(OSTURDAM_CHECK_WRONG, heard(frame, length, OSTURDAM_REPLY).outcome);
    EXPECT(OSTURDAM_OTHER_UNIT, to(UNIT + 1, ONE, 0x00, 0x41, NULL, 0).outcome);
    EXPECT(OSTURDAM_BROADCAST_DONE, to(LINE_BROADCAST, ONE, 0x20, 0x11, "\x40", 1).outcome);
    EXPECT(OSTURDAM_BROADCAST_REFUSED, to(LINE_BROADCAST, ONE, 0x00, 0x41, NULL, 0).outcome);
    EXPECT(OSTURDAM_UNKNOWN, ask(ONE, 0x01, 0x41, NULL, 0));
    EXPECT(OSTURDAM_NOT_VALID, ask(ONE, 0x20, 0x11, "\x41", 1));
    EXPECT(OSTURDAM_TOO_LONG, ask(ONE, 0x03, 0x80, NULL, 0));
    EXPECT(OSTURDAM_NOTHING_AGAIN, ask(ONE, 0x04, 0x00, NULL, 0));
}

/* The outcome of a WRITE and an EXECUTE of so many characters in one stretch. */
static int both(unsigned master, unsigned other, size_t many)
{
    static const uint8_t zeros[OSTURDAM_FRAME];
    uint8_t chars[OSTURDAM_STRETCH + 1];
    size_t write = line_frame(chars, UNIT, master, 0x20, 0x30, (const uint8_t *)"\0\0\3", 3);
    size_t length = write + line_frame(chars + write, UNIT, other, 0x20, 0x31, zeros, many);
    return heard(chars, length, sizeof buffer).outcome;
}

static void pairs(void)
{
    begin();
    EXPECT(OSTURDAM_DONE, both(ONE, ONE, OSTURDAM_FRAME - 8));
    EXPECT(OSTURDAM_NO_WRITE, kept(OSTURDAM_WRITE));
    EXPECT(OSTURDAM_NOT_WHOLE, both(ONE, ONE, OSTURDAM_FRAME - 7));
    EXPECT(OSTURDAM_NOT_WHOLE, both(ONE, OTHER, 1));
    EXPECT(OSTURDAM_WRONG_COUNT, both(ONE, ONE, 0));
    EXPECT(OSTURDAM_WRITE_TAKEN, ask(OTHER, 0x20, 0x30, "\0\0\3", 3));
    EXPECT(OSTURDAM_WRITE_HELD, both(ONE, ONE, 1));
    EXPECT(OSTURDAM_WAITS, kept(OSTURDAM_WRITE));
}

static void selects_and_writes(void)
{
    begin();
    EXPECT(OSTURDAM_FREE, kept(OSTURDAM_SELECT));
    EXPECT(OSTURDAM_NOTHING_WAITS, ask(ONE, 0x10, 0x20, NULL, 0));
    EXPECT(OSTURDAM_REST, to(UNIT, ONE, 0x10, 0x11, "\x40", 1).action);
    EXPECT(OSTURDAM_HELD, kept(OSTURDAM_SELECT));
    expect("the select's master", ONE, kept(OSTURDAM_SELECT_MASTER));
    expect("the select's output", 0x40, kept(OSTURDAM_SELECT_OUTPUT));
    expect("the select's close", 1, kept(OSTURDAM_SELECT_CLOSE));
    EXPECT(OSTURDAM_SELECT_HELD, ask(OTHER, 0x10, 0x20, NULL, 0));
    EXPECT(OSTURDAM_CLOSE, to(UNIT, ONE, 0x10, 0x20, NULL, 0).action);
    EXPECT(OSTURDAM_DONE, ask(ONE, 0x10, 0x10, "\x40", 1));
    struct osturdam_turned turned = to(UNIT, ONE, 0x10, 0x20, NULL, 0);
    EXPECT(OSTURDAM_OPEN, turned.action);
    expect("the output", 0x40, turned.output);
    EXPECT(OSTURDAM_DONE, ask(ONE, 0x10, 0x10, "\x40", 1));
    EXPECT(OSTURDAM_BROKEN_OFF, ask(ONE, 0x00, 0x41, NULL, 0));
    EXPECT(OSTURDAM_DONE, ask(ONE, 0x10, 0x10, "\x40", 1));
    EXPECT(OSTURDAM_DONE, osturdam_wait(&lent, OSTURDAM_HOLD_MS));
    EXPECT(OSTURDAM_HOLD_MS, kept(OSTURDAM_SELECT_AGE));
    EXPECT(OSTURDAM_DONE, osturdam_wait(&lent, 1));
    EXPECT(OSTURDAM_TIMED_OUT, kept(OSTURDAM_SELECT));
    EXPECT(OSTURDAM_SELECT_TIMED_OUT, ask(ONE, 0x10, 0x20, NULL, 0));
    EXPECT(OSTURDAM_NO_WRITE, kept(OSTURDAM_WRITE));
    EXPECT(OSTURDAM_WRITE_TAKEN, ask(ONE, 0x20, 0x30, "\x34\x12\6", 3));
    EXPECT(OSTURDAM_WAITS, kept(OSTURDAM_WRITE));
    expect("the write's master", ONE, kept(OSTURDAM_WRITE_MASTER));
    expect("the write's bias", 0x1234, kept(OSTURDAM_WRITE_BIAS));
    EXPECT(OSTURDAM_ORDINAL_06, kept(OSTURDAM_WRITE_ORDINAL));
    EXPECT(OSTURDAM_WRITE_HELD, ask(OTHER, 0x20, 0x30, "\0\0\6", 3));
    EXPECT(OSTURDAM_DONE, osturdam_wait(&lent, OSTURDAM_HOLD_MS));
    EXPECT(OSTURDAM_HOLD_MS, kept(OSTURDAM_WRITE_AGE));
}

/* A character written through the line into the last place of each ordinal's block is found there. */
static void blocks(void)
{
    static const uint8_t ordinals[] = {OSTURDAM_ORDINAL_00, OSTURDAM_ORDINAL_03, OSTURDAM_ORDINAL_0B, OSTURDAM_ORDINAL_06};
    begin();
    for (size_t i = 0; i < sizeof ordinals; i++) {
        uint8_t ordinal = ordinals[i];
        uint16_t length = ordinal == OSTURDAM_ORDINAL_06 ? (uint16_t)OSTURDAM_BLOCK : osturdam_fixed_length(ordinal);
        const uint8_t *block = ordinal == OSTURDAM_ORDINAL_06 ? all.block : all.unit.fixed + osturdam_fixed_place(ordinal);
        char where[3] = {(char)((length - 1) & 0xFF), (char)((length - 1) >> 8), (char)ordinal};
        EXPECT(OSTURDAM_WRITE_TAKEN, ask(ONE, 0x20, 0x30, where, 3));
        EXPECT(OSTURDAM_DONE, ask(ONE, 0x20, 0x31, "x", 1));
        expect("the last character of a block", 'x', block[length - 1]);
        EXPECT(OSTURDAM_WRITE_TAKEN, ask(ONE, 0x20, 0x30, where, 3));
        EXPECT(OSTURDAM_NOT_VALID, ask(ONE, 0x20, 0x31, "xy", 2));
    }
    expect("the configure bit", 0, kept(OSTURDAM_STATUS_CONFIGURE));
}

static int stored(uint8_t file, size_t many)
{
    static const uint16_t values[OSTURDAM_VALUES + 1] = {0x1234};
    return osturdam_take_record(&lent, file, 7, values, many);
}

static void records(void)
{
    const uint8_t last = OSTURDAM_FILES - 1;
    begin();
    for (int i = 0; i < OSTURDAM_ROOM; i++) {
        uint64_t place = osturdam_record_place(&config, last, (uint8_t)i);
        EXPECT(OSTURDAM_STORED, stored(last, OSTURDAM_VALUES));
        expect("a record's event", 7, all.records[place]);
        expect("a record's first value", 0x1234, osturdam_word_at(all.records + place + OSTURDAM_RECORD_HEAD));
    }
    EXPECT(OSTURDAM_ROOM, osturdam_count_of(&all.unit, last));
    expect("the error bit", 0, kept(OSTURDAM_STATUS_ERROR));
    EXPECT(OSTURDAM_FILE_FULL, stored(last, OSTURDAM_VALUES));
    expect("the error bit", 1, kept(OSTURDAM_STATUS_ERROR));
    EXPECT(OSTURDAM_NO_FILE, stored(OSTURDAM_FILES, OSTURDAM_VALUES));
    EXPECT(OSTURDAM_WRONG_VALUES, stored(0, OSTURDAM_VALUES + 1));
    EXPECT(OSTURDAM_WRONG_VALUES, stored(0, OSTURDAM_VALUES - 1));
    EXPECT(OSTURDAM_NOTHING, kept(OSTURDAM_MEMORY));
    EXPECT(OSTURDAM_DONE, ask(OTHER, 0x04, 0x60 + last, NULL, 0));
    EXPECT(OSTURDAM_REMEMBERED, kept(OSTURDAM_MEMORY));
    expect("the reply's master", OTHER, kept(OSTURDAM_MEMORY_MASTER));
    expect("the reply's file", last, kept(OSTURDAM_MEMORY_FILE));
    expect("the reply's dump", 1, kept(OSTURDAM_MEMORY_DUMP));
    expect("the reply's quantity", (OSTURDAM_REPLY - 10) / osturdam_record_length(&config, last), kept(OSTURDAM_MEMORY_QUANTITY));
    expect("the reply's more", 1, kept(OSTURDAM_MEMORY_MORE));
}

/* Plans are made by an EXECUTE into ordinal 03 and by the call; an outcome that no plan has is told, and so is none afterwards. */
static void plans(void)
{
    static struct osturdam_unit was;
    configure();
    osturdam_equip_input(&config, 0x80);
    start();
    was = all.unit;
    osturdam_go_on(&lent);
    expect("plans of empty tables made anew", 0, memcmp(&was, &all.unit, sizeof was));
    EXPECT(OSTURDAM_NOT_VALID, ask(ONE, 0x0A, 0x41, "", 0));
    EXPECT(OSTURDAM_WRITE_TAKEN, ask(ONE, 0x20, 0x30, "\0\0\3", 3));
    EXPECT(OSTURDAM_DONE, ask(ONE, 0x20, 0x31, "\0\1\x80", 3));
    EXPECT(OSTURDAM_DONE, ask(ONE, 0x0A, 0x41, "", 0));
    was = all.unit;
    all.unit.plans[1] = OSTURDAM_UNKNOWN;
    EXPECT(OSTURDAM_NOT_CONFIGURED, ask(ONE, 0x0A, 0x41, "", 0));
    osturdam_go_on(&lent);
    expect("the plans as they were", 0, memcmp(&was, &all.unit, sizeof was));
}

/* A full file that keeps the newest drops the oldest record behind those of the latest reply; one whose records are all in it drops none. */
static void dropped(void)
{
    static const uint16_t given[1] = {5};
    configure();
    osturdam_equip_file(&config, 1, 1);
    expect("a file equipped keeps the oldest", 1, osturdam_keeps_oldest(&config, 1));
    osturdam_keep_newest(&config, 1);
    expect("one told otherwise", 0, osturdam_keeps_oldest(&config, 1));
    expect("no file", 0, osturdam_keeps_oldest(&config, OSTURDAM_FILES));
    start();
    for (int i = 0; i < OSTURDAM_ROOM; i++)
        EXPECT(OSTURDAM_STORED, osturdam_take_record(&lent, 1, (uint8_t)i, given, 1));
    expect("the error before a drop", 0, kept(OSTURDAM_STATUS_ERROR));
    EXPECT(OSTURDAM_DONE, ask(ONE, 0x04, 0x41, "", 0));
    EXPECT(OSTURDAM_STORED, osturdam_take_record(&lent, 1, OSTURDAM_ROOM, given, 1));
    expect("the error after it", 1, kept(OSTURDAM_STATUS_ERROR));
    EXPECT(OSTURDAM_ROOM, osturdam_count_of(&all.unit, 1));
    expect("the record that was sent", 0, all.records[osturdam_record_place(&config, 1, 0)]);
    expect("the one behind it", 2, all.records[osturdam_record_place(&config, 1, 1)]);
    expect("the newest", OSTURDAM_ROOM, all.records[osturdam_record_place(&config, 1, OSTURDAM_ROOM - 1)]);
    expect("the number dropped", 1, osturdam_dropped_of(&all.unit, 1));
    expect("that of another file", 0, osturdam_dropped_of(&all.unit, 0));
    expect("that of no file", 0, osturdam_dropped_of(&all.unit, OSTURDAM_FILES));
    osturdam_word_to(all.unit.dropped + 2, OSTURDAM_DROPPED - 1);
    for (int i = 0; i < 2; i++) {
        EXPECT(OSTURDAM_STORED, osturdam_take_record(&lent, 1, 7, given, 1));
        EXPECT(OSTURDAM_DROPPED, osturdam_dropped_of(&all.unit, 1));
    }
    EXPECT(OSTURDAM_DONE, ask(ONE, 0x04, 0x61, "", 0));
    EXPECT(OSTURDAM_STORED, osturdam_take_record(&lent, 1, 7, given, 1));
    EXPECT(OSTURDAM_DONE, ask(OTHER, 0x04, 0x61, "", 0));
    EXPECT(OSTURDAM_ROOM, kept(OSTURDAM_MEMORY_QUANTITY));
    EXPECT(OSTURDAM_FILE_FULL, osturdam_take_record(&lent, 1, 7, given, 1));
}

/* Files of three lengths with others between them that are not equipped, lent just what they ask for: each record is found at its place, and
 * one character less is too few. */
static void packed(void)
{
    static const uint8_t files[] = {2, 3, 30}, values[] = {1, OSTURDAM_VALUES, 5};
    static const uint16_t given[OSTURDAM_VALUES] = {0x1234};
    enum { ASKED = OSTURDAM_RECORDS_OF(1) + OSTURDAM_RECORDS_OF(OSTURDAM_VALUES) + OSTURDAM_RECORDS_OF(5) };
    memset(&config, 0, sizeof config);
    for (int i = 0; i < 3; i++)
        osturdam_equip_file(&config, files[i], values[i]);
    start();
    lent.room = ASKED;
    memset(all.records, 0, sizeof all.records);
    EXPECT(ASKED, (int)osturdam_room_of(&config));
    EXPECT(ASKED, (int)osturdam_record_place(&config, OSTURDAM_FILES, 0));
    for (int i = 0; i < 3 * OSTURDAM_ROOM; i++)
        EXPECT(OSTURDAM_STORED, osturdam_take_record(&lent, files[i % 3], (uint8_t)(1 + i / 3), given, values[i % 3]));
    for (int i = 0; i < 3 * OSTURDAM_ROOM; i++) {
        const uint8_t *record = all.records + osturdam_record_place(&config, files[i % 3], (uint8_t)(i / 3));
        expect("a record's event at its place", 1 + i / 3, record[0]);
        expect("a record's first value at its place", 0x1234, osturdam_word_at(record + OSTURDAM_RECORD_HEAD));
    }
    for (int i = ASKED; i < OSTURDAM_LENT; i++)
        expect("a character behind the records", 0, all.records[i]);
    lent.room = ASKED - 1;
    EXPECT(OSTURDAM_NOT_CONFIGURED, osturdam_wait(&lent, 0));
    EXPECT(OSTURDAM_STORE_NOT_CONFIGURED, osturdam_take_record(&lent, 2, 7, given, 1));
}

/* The longest records in every file ask for the most, and nothing equipped for nothing. */
static void most_records(void)
{
    memset(&config, 0, sizeof config);
    start();
    lent.records = NULL;
    lent.room = 0;
    expect("the room of no files", 0, (int)osturdam_room_of(&config));
    EXPECT(OSTURDAM_DONE, osturdam_wait(&lent, 0));
    for (uint8_t file = 0; file < OSTURDAM_FILES; file++)
        osturdam_equip_file(&config, file, OSTURDAM_VALUES);
    EXPECT(OSTURDAM_RECORDS, (int)osturdam_room_of(&config));
    start();
    EXPECT(OSTURDAM_DONE, osturdam_wait(&lent, 0));
    lent.room = OSTURDAM_RECORDS - 1;
    EXPECT(OSTURDAM_NOT_CONFIGURED, osturdam_wait(&lent, 0));
}

static void points(void)
{
    begin();
    osturdam_equip_input(&config, 0x00);
    start();
    EXPECT(OSTURDAM_DONE, osturdam_take_word(&lent, 0x30, 0x8001));
    expect("a word", 0x8001, osturdam_word_of(&all.unit, 0x30));
    EXPECT(OSTURDAM_DONE, osturdam_take_contact(&lent, 5, 1));
    EXPECT(OSTURDAM_DONE, osturdam_take_contact(&lent, 5, 0));
    expect("a marked contact", 0x2000, osturdam_word_of(&all.unit, 0x00));
    expect("a changed contact", 0x20, all.unit.changed[0]);
    EXPECT(OSTURDAM_NOT_VALID, osturdam_take_contact(&lent, 5, 2));
    EXPECT(OSTURDAM_NOT_VALID, osturdam_take_word(&lent, 0x00, 1));
    EXPECT(OSTURDAM_DONE, osturdam_take_pulses(&lent, 0x40, 0x1234));
    expect("a count", 0x1234, osturdam_word_of(&all.unit, 0x40));
    EXPECT(OSTURDAM_DONE, osturdam_take_value(&lent, OSTURDAM_CALCULATIONS - 1, 0x12345678));
    expect("a value", 0x12345678, (int)osturdam_value_of(&all.unit, OSTURDAM_CALCULATIONS - 1));
    EXPECT(OSTURDAM_NOT_VALID, osturdam_take_value(&lent, OSTURDAM_CALCULATIONS, 1));
}

static void clock_and_port(void)
{
    static const uint8_t damaged[] = {1, 2, 3};
    begin();
    expect("the configure bit", 1, kept(OSTURDAM_STATUS_CONFIGURE));
    EXPECT(OSTURDAM_DONE, osturdam_wait(&lent, 2 * 86400000 + 3 * 3600000 + 4 * 60000 + 5 * 1000 + 6));
    expect("the day", 3, kept(OSTURDAM_DAY));
    expect("the hour", 3, kept(OSTURDAM_HOUR));
    expect("the minute", 4, kept(OSTURDAM_MINUTE));
    expect("the second", 5, kept(OSTURDAM_SECOND));
    expect("the millisecond", 6, kept(OSTURDAM_MS));
    EXPECT(OSTURDAM_SILENT_MS, kept(OSTURDAM_SILENCE));
    EXPECT(OSTURDAM_SILENT, kept(OSTURDAM_MARK));
    EXPECT(OSTURDAM_NOT_WHOLE, heard(damaged, sizeof damaged, sizeof buffer).outcome);
    EXPECT(OSTURDAM_DAMAGED, kept(OSTURDAM_MARK));
    EXPECT(OSTURDAM_DONE, ask(ONE, 0x00, 0x41, NULL, 0));
    EXPECT(OSTURDAM_FINE, kept(OSTURDAM_MARK));
    EXPECT(OSTURDAM_BROADCAST_DONE, to(LINE_BROADCAST, ONE, 0x20, 0x11, "\x40", 1).outcome);
    expect("the broadcast bit", 1, kept(OSTURDAM_STATUS_BROADCAST));
}

/* A Set Time is taken with every lag to the limit, which carries the clock over the year's end; no other stretch looks at it. */
static void lags(void)
{
    static const char late[] = "\x03\x66\x23\x59\x59\x03\xE7"; /* day 366, 23:59:59.999 */
    begin();
    lag = OSTURDAM_LAG_MS + 1;
    EXPECT(OSTURDAM_NOT_VALID, ask(ONE, 0x20, 0x38, late, 7));
    EXPECT(OSTURDAM_BROADCAST_REFUSED, to(LINE_BROADCAST, ONE, 0x20, 0x38, late, 7).outcome);
    EXPECT(OSTURDAM_WRONG_COUNT, ask(ONE, 0x20, 0x38, late, 6));
    expect("the day", 1, kept(OSTURDAM_DAY));
    lag = UINT32_MAX;
    EXPECT(OSTURDAM_NOT_VALID, ask(ONE, 0x20, 0x38, late, 7));
    EXPECT(OSTURDAM_DONE, ask(ONE, 0x28, 0x31, NULL, 0));
    lag = OSTURDAM_LAG_MS;
    EXPECT(OSTURDAM_DONE, ask(ONE, 0x20, 0x38, late, 7));
    expect("the day", 1, kept(OSTURDAM_DAY));
    expect("the second", 9, kept(OSTURDAM_SECOND));
    expect("the millisecond", 999, kept(OSTURDAM_MS));
    lag = 0;
    EXPECT(OSTURDAM_BROADCAST_DONE, to(LINE_BROADCAST, ONE, 0x20, 0x38, late, 7).outcome);
    expect("the day", 366, kept(OSTURDAM_DAY));
    expect("the millisecond", 999, kept(OSTURDAM_MS));
}

/* Every limit of a configuration is taken by `begin`; one more is not. */
static void configurations(void)
{
    static uint8_t block[OSTURDAM_BLOCK + 1], records[OSTURDAM_LENT + 1];
    begin();
    EXPECT(OSTURDAM_DONE, osturdam_wait(&lent, 0));
    expect("a valid configuration", 1, osturdam_is_valid(&config));
    EXPECT(UNIT, osturdam_number_of(&all.unit.config));
    EXPECT(OSTURDAM_BLOCK, osturdam_length_of(&all.unit.config));
    EXPECT(OSTURDAM_VALUES, osturdam_values_of(&all.unit.config, 0));
    lent.room = osturdam_room_of(&config) - 1;
    EXPECT(OSTURDAM_NOT_CONFIGURED, osturdam_wait(&lent, 0));
    EXPECT(OSTURDAM_STORE_NOT_CONFIGURED, stored(0, OSTURDAM_VALUES));
    lent.records = records;
    lent.room = sizeof records;
    EXPECT(OSTURDAM_DONE, osturdam_wait(&lent, 0));
    lent.length = OSTURDAM_BLOCK - 1;
    EXPECT(OSTURDAM_NOT_CONFIGURED, osturdam_wait(&lent, 0));
    osturdam_put_length(&config, sizeof block);
    start();
    lent.block = block;
    lent.length = sizeof block;
    osturdam_begin(&lent, &config);
    EXPECT(OSTURDAM_NOT_CONFIGURED, osturdam_wait(&lent, 0));
    expect("a block too long", 0, osturdam_is_valid(&config));
    configure();
    config.calculations[OSTURDAM_CALCULATIONS] = 1;
    start();
    EXPECT(OSTURDAM_NOT_CONFIGURED, osturdam_wait(&lent, 0));
    expect("a calculation too many", 0, osturdam_is_valid(&config));
    configure();
    osturdam_equip_file(&config, 0, OSTURDAM_VALUES + 1);
    start();
    EXPECT(OSTURDAM_NOT_CONFIGURED, osturdam_wait(&lent, 0));
    EXPECT(OSTURDAM_STORE_NOT_CONFIGURED, stored(0, OSTURDAM_VALUES + 1));
    expect("a value too many", 0, osturdam_is_valid(&config));
    begin();
    osturdam_put_count(&all.unit, 0, OSTURDAM_ROOM + 1);
    EXPECT(OSTURDAM_NOT_CONFIGURED, ask(ONE, 0x00, 0x41, NULL, 0));
}

/* A unit's memory begins with the number of its layout, and one with another is turned away. */
static void layouts(void)
{
    begin();
    EXPECT(OSTURDAM_LAYOUT, osturdam_layout());
    EXPECT(OSTURDAM_LAYOUT, osturdam_word_at(all.unit.layout));
    osturdam_word_to(all.unit.layout, OSTURDAM_LAYOUT + 1);
    EXPECT(OSTURDAM_NOT_CONFIGURED, osturdam_wait(&lent, 0));
    EXPECT(OSTURDAM_STORE_NOT_CONFIGURED, stored(0, OSTURDAM_VALUES));
    osturdam_word_to(all.unit.layout, OSTURDAM_LAYOUT);
    EXPECT(OSTURDAM_DONE, osturdam_wait(&lent, 0));
}

static void checks(void)
{
    static const uint8_t poll[] = {0xD2, 0x0C, 0x00, 0x41, 0x00, 0x00, 0x52, 0x67};
    expect("the check of a poll", 0x6752, osturdam_check(0, poll, 6));
    for (int n = 0; n <= 6; n++)
        expect("the check of its parts in turn", 0x6752, osturdam_check(osturdam_check(0, poll, n), poll + n, 6 - n));
    expect("the check of the whole of it", 0, osturdam_check(0, poll, sizeof poll));
    expect("the check of nothing", 0xA5C3, osturdam_check(0xA5C3, NULL, 0));
}

int main(void)
{
    checks();
    stretches();
    pairs();
    selects_and_writes();
    blocks();
    records();
    plans();
    dropped();
    packed();
    most_records();
    points();
    clock_and_port();
    lags();
    configurations();
    layouts();
    return failed;
}
