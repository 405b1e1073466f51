// One row of the table: both masters are brought to where it stands, then one call is counted.
#include "cycles.h"
#include "plain.h"

#include <string.h>

enum { LENT = OSTURDAM_POLL_ROOM + 32, ADDRESS = 31 * 2048 + 1234 };

// A call: a request, or a reply where there is one.
struct call {
    uint8_t function, command;
    const uint8_t *body;
    size_t count;
    const uint8_t *reply;
    size_t heard;
};

// A master of either kind: its memory, what is lent to it, and what the latest call told.
struct side {
    struct osturdam_poll library;
    struct plain_master plain;
    uint8_t lent[LENT], kept[2];
    size_t told;
};

static struct side library, plain;

static inline void library_call(struct side *s, const struct call *c)
{
    if (c->reply)
        s->told = osturdam_poll_read(s->library.chars, c->reply, c->heard, s->lent, LENT, s->kept);
    else
        s->told = osturdam_poll_ask(s->library.chars, LENT, 0, c->function, c->command, c->body, c->count, s->lent, LENT);
}

static inline void plain_call(struct side *s, const struct call *c)
{
    if (c->reply)
        s->told = plain_read(&s->plain, c->reply, c->heard, s->lent, LENT, s->kept);
    else
        s->told = plain_ask(&s->plain, LENT, false, c->function, c->command, c->body, c->count, s->lent, LENT);
}

// Only the calls through these are counted.
void library_counted(const struct call *c);
void plain_counted(const struct call *c);

__attribute__((noinline)) void library_counted(const struct call *c)
{
    library_call(&library, c);
}

__attribute__((noinline)) void plain_counted(const struct call *c)
{
    plain_call(&plain, c);
}

// What both keep, in the same words.
static bool same_kept(void)
{
    const uint8_t *l = library.library.chars;
    const struct plain_master *p = &plain.plain;
    const uint8_t numbers[] = {p->address & 255, p->address >> 8, p->retry, p->held, p->bit << 6 | p->dump << 5 | p->file, p->waiting};
    return memcmp(l, numbers, sizeof numbers) == 0 && osturdam_poll_retry(l) == p->retry &&
           (p->waiting != 2 || (l[6] == p->function && l[7] == p->command && l[9] == p->count && memcmp(l + 10, p->body, p->count) == 0)) &&
           l[138] == p->kept &&
           (!p->kept || (l[139] == (p->kept_dump << 5 | p->kept_file) && l[140] + 256 * l[141] == p->length &&
                         memcmp(l + 142, p->data, p->length) == 0));
}

// A call of both; the run stops where they differ. Where it is counted and cycles are asked for, those are printed first.
static void both(const struct call *c, int counted, size_t wanted)
{
    const struct side l = library, p = plain;
    if (counted && cycles_asked()) {
        TELL_CYCLES("library_counted", library = l, library_counted(c));
        TELL_CYCLES("plain_counted", plain = p, plain_counted(c));
    }
    library = l;
    plain = p;
    if (counted) {
        library_counted(c);
        plain_counted(c);
    } else {
        library_call(&library, c);
        plain_call(&plain, c);
    }
    if (library.told != plain.told || plain.told != wanted || memcmp(library.kept, plain.kept, 2) != 0 ||
        memcmp(library.lent, plain.lent, LENT) != 0 || !same_kept()) {
        fprintf(stderr, "%02Xh/%02Xh: library %zu, plain %zu, wanted %zu\n", c->function, c->command, library.told, plain.told, wanted);
        exit(1);
    }
}

static void ask(int counted, uint8_t function, uint8_t command, const uint8_t *body, size_t count)
{
    const struct call c = {.function = function, .command = command, .body = body, .count = count};
    both(&c, counted, 8 + count);
}

// A reply with these data, and the check that the library finds right.
static void hear(int counted, uint8_t function, const uint8_t *data, size_t count, uint8_t wanted)
{
    uint8_t reply[LENT] = {ADDRESS % 256, ADDRESS / 256, function, 0x80, 0x54, count % 256, count / 256};
    unsigned word = 0;
    memcpy(reply + 7, data, count);
    for (size_t i = 0; i < 7 + count; i++)
        for (int bit = 0; bit < 8; bit++)
            word = word >> 1 ^ ((word ^ reply[i] >> bit) & 1 ? 0xA001 : 0);
    reply[7 + count] = word & 255;
    reply[8 + count] = word >> 8;
    const struct call c = {.function = function, .reply = reply, .heard = 9 + count};
    both(&c, counted, wanted);
}

static const uint8_t nothing[1];

static void table(void)
{
    ask(1, 0x0A, 0x45, nothing, 0);
}

static void repeat(void)
{
    ask(0, 0x04, 0x23, nothing, 0);
    ask(1, 0x04, 0x01, nothing, 0);
}

// The longest frame.
static void execute(void)
{
    static const uint8_t chars[ASKED] = {1, 2, 3};
    ask(1, 0x20, 0x31, chars, sizeof chars);
}

static void values(void)
{
    static const uint8_t data[508] = {1, 2, 3};
    ask(0, 0x03, 0x80, nothing, 0);
    hear(1, 0x03, data, sizeof data, OSTURDAM_READ_NORMAL);
}

// 102 numbers, of which the last 51 are the first 51 again.
static void numbers(void)
{
    uint8_t asked[102], data[510];
    for (int i = 0; i < 102; i++) {
        asked[i] = i % 51;
        memcpy(data + 5 * i, (uint8_t[]){asked[i], 1, 2, 3, asked[i]}, 5);
    }
    ask(0, 0x03, 0x00, asked, sizeof asked);
    hear(1, 0x03, data, sizeof data, OSTURDAM_READ_NORMAL);
}

// 128 numbers, of which every second is missing.
static void missing(void)
{
    uint8_t asked[128], data[64];
    for (int i = 0; i < 128; i++)
        asked[i] = data[i / 2] = i;
    ask(0, 0x03, 0x00, asked, sizeof asked);
    hear(1, 0x43, data, sizeof data, OSTURDAM_READ_NOP);
}

static void records(uint8_t data[495])
{
    data[0] = 13;
    for (int i = 0; i < 13; i++) {
        uint8_t *record = data + 1 + 38 * i;
        memcpy(record, (uint8_t[]){7, 3, 0x66, 0x23, 0x59, 0x58}, 6);
        for (int k = 6; k < 38; k++)
            record[k] = 16 * i + k;
    }
}

static void dump(void)
{
    uint8_t data[495];
    records(data);
    ask(0, 0x04, 0x23, nothing, 0);
    hear(1, 0x04, data, sizeof data, OSTURDAM_READ_NORMAL);
}

// The same again without the bit: known, and not kept.
static void again(void)
{
    uint8_t data[495];
    records(data);
    ask(0, 0x04, 0x23, nothing, 0);
    hear(0, 0x04, data, sizeof data, OSTURDAM_READ_NORMAL);
    ask(0, 0x04, 0x23, nothing, 0);
    ask(0, 0x04, 0x23, nothing, 0);
    hear(1, 0x04, data, sizeof data, OSTURDAM_READ_NORMAL);
}

static void nop(void)
{
    ask(0, 0x0A, 0x45, nothing, 0);
    hear(1, 0x4A, nothing, 0, OSTURDAM_READ_NOP);
}

static void refused(void)
{
    ask(0, 0x28, 0x31, nothing, 0);
    hear(1, 0x28, (const uint8_t *)"\x03\x66\x24\x59\x58\x03\xE7", 7, OSTURDAM_READ_NO_SUCH_DATA);
}

int main(int argc, char **argv)
{
    static const struct {
        const char *name;
        void (*run)(void);
    } rows[] = {{"table", table}, {"repeat", repeat},   {"execute", execute}, {"values", values}, {"numbers", numbers},
                {"dump", dump},   {"missing", missing}, {"again", again},     {"nop", nop},       {"refused", refused}};
    osturdam_poll_begin(library.library.chars, ADDRESS);
    plain_begin(&plain.plain, ADDRESS);
    for (size_t i = 0; argc == 2 && i < sizeof rows / sizeof rows[0]; i++)
        if (strcmp(argv[1], rows[i].name) == 0) {
            rows[i].run();
            return 0;
        }
    fprintf(stderr, "usage: rows table | repeat | execute | values | numbers | missing | dump | again | nop | refused\n");
    return 2;
}
