/* Holds osturdam_poll.h to what the library does: each request by its name, each limit from both sides, each way to read a reply in a
 * situation made for it. */
#include "osturdam_poll.h"

#include "line.h"

#include <stdio.h>

enum { MASTER = 31, UNIT = 1234, REPLY = 520, HEAD = 7 };

static struct osturdam_poll poll;
static uint8_t frame[OSTURDAM_POLL_FRAME], room[OSTURDAM_POLL_ROOM], kept[2];
static int failed;

static void expect(const char *what, unsigned long wanted, unsigned long got)
{
    if (wanted != got) {
        printf("header: %s is %lu, the library answers %lu\n", what, wanted, got);
        failed = 1;
    }
}

#define EXPECT(constant, got) expect(#constant, (unsigned long)(constant), (unsigned long)(got))

static void begin(void)
{
    osturdam_poll_begin(poll.chars, osturdam_poll_address(MASTER, UNIT));
}

/* What was built is the frame of this function, command and data, to one unit or to all. */
static void built(const char *what, uint64_t many, unsigned unit, unsigned function, unsigned command, const uint8_t *data, size_t count)
{
    uint8_t wanted[OSTURDAM_POLL_FRAME];
    size_t length = line_frame(wanted, unit, MASTER, function, command, data, count);
    expect(what, length, (unsigned long)many);
    expect(what, 0, (unsigned long)(many == length ? memcmp(wanted, frame, length) != 0 : 1));
}

static void scans_and_history(void)
{
    const uint8_t numbers[3] = {1, 2, 7};
    built("scan", osturdam_poll_scan(&poll, 0x4D, frame), UNIT, 0x00, 0x4D, NULL, 0);
    built("table", osturdam_poll_table(&poll, 15, frame), UNIT, 0x0A, 0x4F, NULL, 0);
    built("values", osturdam_poll_values(&poll, numbers, 3, frame), UNIT, 0x03, 0x00, numbers, 3);
    built("all values", osturdam_poll_values(&poll, NULL, 0, frame), UNIT, 0x03, 0x80, NULL, 0);
    built("history", osturdam_poll_history(&poll, OSTURDAM_POLL_ROOM, 31, 1, frame), UNIT, 0x04, 0x7F, NULL, 0);
    built("its repeat", osturdam_poll_history(&poll, OSTURDAM_POLL_ROOM, 3, 0, frame), UNIT, 0x04, 0x3F, NULL, 0);
    begin();
    built("one record", osturdam_poll_history(&poll, OSTURDAM_POLL_ROOM, 3, 0, frame), UNIT, 0x04, 0x43, NULL, 0);
}

static void orders(void)
{
    const uint8_t number = 0x41, time[7] = {3, 0x66, 0x23, 0x59, 0x58, 0x03, 0xE7}, write[3] = {0x34, 0x12, 6},
                  read[4] = {0x34, 0x12, 6, 255};
    built("select to close", osturdam_poll_select(&poll, number, 1, frame), UNIT, 0x10, 0x11, &number, 1);
    built("select to open", osturdam_poll_select(&poll, number, 0, frame), UNIT, 0x10, 0x10, &number, 1);
    built("operate", osturdam_poll_operate(&poll, frame), UNIT, 0x10, 0x20, NULL, 0);
    built("cancel", osturdam_poll_cancel(&poll, frame), UNIT, 0x10, 0x21, NULL, 0);
    built("initialise", osturdam_poll_initialise(&poll, frame), UNIT, 0x20, 0x00, NULL, 0);
    built("reset count", osturdam_poll_reset_count(&poll, number, 0, frame), UNIT, 0x20, 0x11, &number, 1);
    built("reset counts", osturdam_poll_reset_count(&poll, number, 1, frame), LINE_BROADCAST, 0x20, 0x11, &number, 1);
    built("write", osturdam_poll_write(&poll, 0x1234, 6, frame), UNIT, 0x20, 0x30, write, 3);
    built("execute", osturdam_poll_execute(&poll, time, 7, frame), UNIT, 0x20, 0x31, time, 7);
    built("set time", osturdam_poll_set_time(&poll, time, 0, frame), UNIT, 0x20, 0x38, time, 7);
    built("set times", osturdam_poll_set_time(&poll, time, 1, frame), LINE_BROADCAST, 0x20, 0x38, time, 7);
    built("block", osturdam_poll_block(&poll, 0x1234, 6, 255, frame), UNIT, 0x28, 0x30, read, 4);
    built("time", osturdam_poll_time(&poll, frame), UNIT, 0x28, 0x31, NULL, 0);
}

static void limits(void)
{
    const uint8_t chars[129] = {0};
    EXPECT(OSTURDAM_POLL_FRAME, osturdam_poll_execute(&poll, chars, 128, frame));
    expect("129 characters", 0, osturdam_poll_execute(&poll, chars, 129, frame));
    expect("no characters", 0, osturdam_poll_execute(&poll, chars, 0, frame));
    expect("table 0", 0, osturdam_poll_table(&poll, 0, frame));
    expect("table 16", 0, osturdam_poll_table(&poll, 16, frame));
    expect("a reserved kind", 0, osturdam_poll_scan(&poll, 2, frame));
    expect("file 32", 0, osturdam_poll_history(&poll, OSTURDAM_POLL_ROOM, 32, 0, frame));
    expect("room for less than a reply", 0, osturdam_poll_history(&poll, OSTURDAM_POLL_ROOM - 1, 3, 0, frame));
    expect("day 367", 0, osturdam_poll_set_time(&poll, (const uint8_t[7]){3, 0x67, 0, 0, 0, 0, 0}, 0, frame));
    expect("a scan of all units", 0, osturdam_poll_ask(poll.chars, 0, 1, 0x00, 0x4D, NULL, 0, frame, sizeof frame));
    expect("a short buffer", 0, osturdam_poll_ask(poll.chars, 0, 0, 0x00, 0x4D, NULL, 0, frame, sizeof frame - 1));
}

/* How a reply is read: of this unit, function and data, without its last characters, with changed bits of its check. */
static uint8_t answered(unsigned unit, unsigned function, const uint8_t *data, size_t count, size_t cut, unsigned damage)
{
    uint8_t reply[REPLY] = {0};
    line_word(reply, unit | MASTER << 11);
    reply[2] = (uint8_t)function;
    line_word(reply + 5, (unsigned)count);
    if (count > 0)
        memcpy(reply + HEAD, data, count);
    line_word(reply + HEAD + count, line_check(reply, HEAD + count) ^ damage);
    return osturdam_poll_read(poll.chars, reply, HEAD + 2 + count - cut, room, sizeof room, kept);
}

static void readings(void)
{
    const uint8_t records[17] = {0x02, 17, 0, 1, 0x23, 0x59, 0x58, 1, 0, 18, 0, 1, 0x23, 0x59, 0x59, 2, 0};
    begin();
    EXPECT(OSTURDAM_READ_OTHER_FUNCTION, answered(UNIT, 0x04, records, 17, 0, 0));
    osturdam_poll_history(&poll, OSTURDAM_POLL_ROOM, 3, 1, frame);
    EXPECT(OSTURDAM_READ_NOT_WHOLE, answered(UNIT, 0x04, records, 17, 1, 0));
    EXPECT(OSTURDAM_READ_CHECK_WRONG, answered(UNIT, 0x04, records, 17, 0, 1));
    EXPECT(OSTURDAM_READ_OTHER_ADDRESS, answered(UNIT + 1, 0x04, records, 17, 0, 0));
    EXPECT(OSTURDAM_READ_OTHER_FUNCTION, answered(UNIT, 0xC4, records, 17, 0, 0));
    EXPECT(OSTURDAM_READ_NO_SUCH_DATA, answered(UNIT, 0x04, records, 16, 0, 0));
    expect("the retry mark", 1, osturdam_poll_retry(poll.chars));
    EXPECT(OSTURDAM_READ_NORMAL, answered(UNIT, 0x04, records, 17, 0, 0));
    expect("the retry mark", 0, osturdam_poll_retry(poll.chars));
    expect("records", 2, kept[0]);
    expect("characters of each", 8, kept[1]);
    expect("they stand in the room", 0, (unsigned long)(memcmp(room, records + 1, 16) != 0));
    osturdam_poll_table(&poll, 1, frame);
    EXPECT(OSTURDAM_READ_NOP, answered(UNIT, 0x4A, NULL, 0, 0, 0));
    osturdam_poll_table(&poll, 1, frame);
    EXPECT(OSTURDAM_READ_RST, answered(UNIT, 0x8A, NULL, 0, 0, 0));
    EXPECT(OSTURDAM_READ_ROOM_SHORT, osturdam_poll_read(poll.chars, NULL, 0, room, OSTURDAM_POLL_ROOM - 1, kept));
    memset(&poll, 0xFF, sizeof poll);
    EXPECT(OSTURDAM_READ_NOT_CONFIGURED, answered(UNIT, 0x04, records, 17, 0, 0));
    expect("memory that no master writes", 0, osturdam_poll_time(&poll, frame));
}

int main(void)
{
    expect("master 31 and unit 1234", 0xFCD2, osturdam_poll_address(MASTER, UNIT));
    begin();
    scans_and_history();
    orders();
    limits();
    readings();
    return failed;
}
