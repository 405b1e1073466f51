/* A master's calls on the machine that it is compiled for: requests of every kind and none, replies good, damaged and impossible, memory of
 * masters and other characters. It tells how much was met, and a sum over every answer and every character of what was lent: checks/targets
 * holds it to that of x86-64. */
#include "machine.h"
#include "osturdam_poll.h"

enum { RUNS = 200, STEPS = 60, REPLY = 520, HEAD = 7, ROOM = OSTURDAM_POLL_ROOM + 9, MEMORY = OSTURDAM_POLL_MEMORY };

static uint8_t memory[MEMORY + 4], frame[OSTURDAM_POLL_FRAME], reply[REPLY + 9], room[ROOM + 4], kept[2], body[140];
static uint8_t *master; /* as far behind a word as the run says */
static uint32_t seed = 2179, sum = 2166136261u, calls, built, believed, records;

/* ---- telling */

static void tell(const char *text, uint32_t number)
{
    char digits[10];
    uint32_t first = sizeof digits, many = 0;
    do
        digits[--first] = (char)('0' + number % 10);
    while ((number /= 10) > 0);
    while (text[many] != 0)
        many++;
    machine_tell(digits + first, (uint32_t)sizeof digits - first);
    machine_tell(text, many);
}

static void note(const uint8_t *chars, uint32_t many)
{
    while (many-- > 0)
        sum = (sum ^ *chars++) * 16777619u;
}

/* ---- chance */

static uint32_t chance(uint32_t below)
{
    seed ^= seed << 13;
    seed ^= seed >> 17;
    seed ^= seed << 5;
    return (seed >> 4) % below;
}

static void any(uint8_t *to, uint32_t many)
{
    while (many-- > 0)
        *to++ = (uint8_t)chance(256);
}

/* ---- requests */

struct wish {
    uint8_t function, command, count;
};

static const struct wish wishes[] = {{0x00, 0x01, 0}, {0x00, 0x4D, 0}, {0x0A, 0x41, 0}, {0x03, 0x80, 0}, {0x03, 0x00, 3}, {0x04, 0x03, 0},
                                     {0x04, 0x23, 0}, {0x04, 0x3F, 0}, {0x10, 0x10, 1}, {0x10, 0x20, 0}, {0x10, 0x21, 0}, {0x20, 0x00, 0},
                                     {0x20, 0x11, 1}, {0x20, 0x30, 3}, {0x20, 0x31, 9}, {0x28, 0x30, 4}, {0x28, 0x31, 0}, {0x20, 0x38, 7}};

static struct wish ask(void)
{
    struct wish w = wishes[chance(sizeof wishes / sizeof wishes[0])];
    uint8_t all = (uint8_t)(chance(8) == 0);
    any(body, sizeof body);
    if (chance(10) == 0) {
        any(&w.command, 1);
        any(&w.count, 1);
    }
    if (w.command == 0x38)
        body[0] = 0, body[1] = 0x12, body[2] = 0x23, body[3] = 0x59, body[4] = 0x58, body[5] = 0;
    uint64_t left = chance(20) == 0 ? OSTURDAM_POLL_ROOM - 1 : ROOM, length = sizeof frame - (chance(20) == 0);
    uint64_t many =
        osturdam_poll_ask(master, left, all, w.function, w.command, body, w.count < sizeof body ? w.count : sizeof body, frame, length);
    built += many > 0;
    note(frame, (uint32_t)many);
    return w;
}

/* ---- replies */

static uint32_t told_records(uint8_t *to)
{
    uint32_t many = chance(4), size = 6 + 2 * (1 + chance(16)), at = 1;
    to[0] = (uint8_t)many;
    for (uint32_t i = 0; i < many; i++, at += size) {
        any(to + at, size);
        to[at + 1] = 1, to[at + 2] = 0x23, to[at + 3] = 0x09, to[at + 4] = 0x59, to[at + 5] = 0x30;
    }
    return at;
}

/* As many characters as the request may be answered by, of some that a unit could send. */
static uint32_t told(const struct wish *w, uint8_t *to)
{
    static const uint8_t time[7] = {3, 0x66, 0x23, 0x59, 0x58, 0x03, 0xE7};
    uint32_t many = 0;
    if (w->function == 0x04)
        return told_records(to);
    if (w->function == 0x28 && w->command == 0x31)
        for (many = 0; many < sizeof time; many++)
            to[many] = time[many];
    else if (w->function == 0x03 && w->command == 0x80)
        any(to, many = 4 * chance(128));
    else if (w->function == 0x00 || w->function == 0x0A)
        any(to, many = 2 * chance(17));
    else if (w->command == 0x10 || w->command == 0x11)
        to[many++] = body[0];
    else if (w->function == 0x28)
        any(to, many = body[3]);
    return many;
}

static uint16_t check_of(const uint8_t *chars, uint32_t many)
{
    uint32_t word = 0;
    while (many-- > 0) {
        word ^= *chars++;
        for (int bit = 0; bit < 8; bit++)
            word = word >> 1 ^ (word & 1 ? 0xA001u : 0u);
    }
    return (uint16_t)word;
}

static void answer(const struct wish *w)
{
    uint32_t flags = chance(6), many = told(w, reply + HEAD);
    reply[0] = frame[0], reply[1] = frame[1];
    reply[2] = (uint8_t)(w->function + (flags == 0 ? 0x40 : flags == 1 ? 0x80 : 0));
    many = flags > 1 ? many : 0;
    any(reply + 3, 2);
    reply[5] = (uint8_t)(many % 256), reply[6] = (uint8_t)(many / 256);
    uint16_t check = check_of(reply, HEAD + many);
    reply[HEAD + many] = (uint8_t)(check % 256), reply[HEAD + many + 1] = (uint8_t)(check / 256);
    if (chance(5) == 0)
        reply[chance(HEAD + 2 + many)] ^= 0x10;
    uint8_t read = osturdam_poll_read(master, reply, HEAD + 2 + many - (chance(8) == 0), room, ROOM, kept);
    believed += read == OSTURDAM_READ_NORMAL || read == OSTURDAM_READ_NOP || read == OSTURDAM_READ_RST;
    records += kept[0];
    note(&read, 1);
}

int replay(void)
{
    for (uint32_t run = 0; run < RUNS; run++) {
        master = memory + run % 4;
        osturdam_poll_begin(master, (uint16_t)chance(65536));
        for (uint32_t step = 0; step < STEPS; step++, calls += 3) {
            if (chance(50) == 0)
                any(master + chance(MEMORY), 1);
            struct wish w = ask();
            note(master, MEMORY);
            answer(&w);
            uint8_t retry = osturdam_poll_retry(master);
            note(&retry, 1);
            note(kept, sizeof kept);
            note(master, MEMORY);
            note(room, ROOM);
        }
    }
    tell(" calls, ", calls);
    tell(" frames, ", built);
    tell(" replies believed, ", believed);
    tell(" records, sum ", records);
    tell("\n", sum);
    return 0;
}
