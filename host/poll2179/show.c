#include "show.h"

#include <errno.h>
#include <stdio.h>
#include <string.h>

#include "daytime.h"
#include "record.h"

static void print_hex(const uint8_t *chars, size_t many)
{
    for (size_t i = 0; i < many; i++)
        printf("%02X", chars[i]);
}

static void print_bits(uint16_t word, int many)
{
    while (many-- > 0)
        putchar('0' + (word >> many & 1));
}

/* Without the unit's configuration the words have no numbers but their order, and of several kinds none is told from another. */
static void print_word(uint8_t inputs, size_t number, uint16_t word)
{
    if (inputs == ANALOG)
        printf("analog %zu: %d", number, (int16_t)word);
    else if (inputs == PULSE)
        printf("pulse %zu: %u", number, word);
    else if (inputs == STATUS) {
        printf("status %zu: ", number);
        print_bits(word, 16);
    } else if (inputs == TWO_BIT) {
        printf("two-bit %zu: states ", number);
        print_bits(word, 8);
        printf(", changed ");
        print_bits(word >> 8, 8);
    } else
        printf("word %zu: %u, signed %d", number, word, (int16_t)word);
    printf(" (%04Xh)\n", word);
}

static void print_words(const struct command *c, const uint8_t *data, size_t many)
{
    for (size_t i = 0; i + 1 < many; i += 2)
        print_word(c->kind == SCAN ? c->number : 0, i / 2 + 1, osturdam_word_at(data + i));
}

double value_at(const uint8_t *place)
{
    uint32_t bits = osturdam_value_at(place);
    float value;
    memcpy(&value, &bits, sizeof value);
    return (double)value;
}

/* Values asked for by number come with it, those of all without. */
static void print_values(const struct command *c, const uint8_t *data, size_t many)
{
    size_t step = c->count > 0 ? 5 : 4;
    for (size_t i = 0; i + step <= many; i += step) {
        const uint8_t *at = data + i + step - 4;
        printf(c->count > 0 ? "value %02zXh" : "value %zu", c->count > 0 ? (size_t)data[i] : i / step + 1);
        printf(": %.9g (%08Xh)\n", value_at(at), (unsigned)osturdam_value_at(at));
    }
}

static void print_records(const struct exchange *x)
{
    static const struct record_form form = {"file %u: event %u, day %u, %02u:%02u:%02u, values ", " ", "\n"};
    char text[RECORD_TEXT];
    for (size_t i = 0; i < x->kept[0]; i++) {
        record_text(text, &form, exchange_file(x), x->records + i * x->kept[1], x->kept[1]);
        fputs(text, stdout);
    }
}

static void print_history(const struct view *v, const struct exchange *x)
{
    print_records(x);
    if (!v->follows && v->last && data_of(x)[0] == 0)
        printf("file %u: no record is left\n", exchange_file(x));
    if (!v->follows && v->last && data_of(x)[0] & 0x80)
        printf("file %u: more are held\n", exchange_file(x));
}

static void print_done(const struct command *c)
{
    if (c->kind == SELECT)
        printf("output %02Xh is selected to %s: operate within 5 s\n", c->number, c->close ? "close" : "open");
    else if (c->kind == RESET_COUNT)
        printf("the count of %02Xh is 0\n", c->number);
    else if (c->kind == EXECUTE)
        printf("%u characters are written to ordinal %02Xh from %u on\n", c->count, c->number, c->bias);
    else
        puts(c->kind == OPERATE ? "the selected output acts" : c->kind == SET_TIME ? "the time is set" : "the unit starts anew");
}

static void print_normal(const struct view *v, const struct command *c, const struct exchange *x)
{
    struct day_time t;
    switch (c->kind) {
    case SCAN:
    case TABLE: print_words(c, data_of(x), many_of(x)); break;
    case VALUES: print_values(c, data_of(x), many_of(x)); break;
    case HISTORY: print_history(v, x); break;
    case TIME:
        t = time_at(data_of(x), false);
        printf("day %u, %02u:%02u:%02u.%03u\n", t.day, t.hour, t.minute, t.second, t.ms);
        break;
    case READ:
        print_hex(data_of(x), many_of(x));
        putchar('\n');
        break;
    default: print_done(c);
    }
}

/* Why a unit of document 01 answers so to this request. */
static void print_nop(const struct command *c, const struct exchange *x)
{
    static const char *const why[] = {[TABLE] = "no such table, an input in it that is not equipped, or more than a reply holds",
                                      [VALUES] = "more values than a reply holds",
                                      [HISTORY] = "no such file",
                                      [SELECT] = "no such output",
                                      [OPERATE] = "the select has timed out",
                                      [RESET_COUNT] = "no such accumulator",
                                      [EXECUTE] = "no such part of a block",
                                      [READ] = "no such part of a block",
                                      [SET_TIME] = "no such time, or it came too late"};
    bool missing = c->kind == VALUES && many_of(x) > 0, told = c->kind < sizeof why / sizeof *why && why[c->kind];
    printf("NOP: %s", missing ? "no such values:" : told ? why[c->kind] : "it cannot be done");
    for (size_t i = 0; missing && i < many_of(x); i++)
        printf(" %02Xh", data_of(x)[i]);
    putchar('\n');
}

static void print_rst(const struct command *c)
{
    puts(c->kind == CANCEL    ? "RST: no select of this master is held any more"
         : c->kind == EXECUTE ? "RST: no write waits, or this master's select was broken off"
         : c->kind == WRITE   ? "RST: another master's write waits, or this master's select was broken off"
         : c->kind == SELECT  ? "RST: another master holds a select, or this master's own was broken off"
         : c->kind == OPERATE ? "RST: no select of this master waits"
                              : "RST: this master's select was broken off, and nothing else was done");
}

/* The status and the port status, where they tell something that the reply before did not. */
static void print_status(const struct exchange *x)
{
    static uint8_t told[2];
    uint8_t status = x->reply[3], port = x->reply[4] & 3, fresh = (uint8_t)(status & ~told[0]);
    if (fresh & 0x80)
        puts("the unit asks for set-up");
    if (fresh & 0x08)
        puts("the unit has an error: a history file was full");
    if (fresh & 0x04)
        puts("the unit has heard a broadcast");
    if (port != told[1] && (port == 1 || port == 2))
        puts(port == 1 ? "the unit heard nothing for a minute" : "the unit heard damage");
    told[0] = status;
    told[1] = port;
}

static const char *doubt_of(enum osturdam_read read)
{
    static const char *const doubts[] = {"",
                                         "is not whole",
                                         "has wrong check characters",
                                         "has another address",
                                         "is to another function",
                                         "has data that no unit could send"};
    return read <= OSTURDAM_READ_NO_SUCH_DATA ? doubts[read] : "cannot be read";
}

static void show_words(const struct view *v, const struct command *c, const struct exchange *x, enum ended ended)
{
    if (ended == SILENT && x->heard == 0)
        puts("no answer");
    else if (ended == SILENT)
        printf("no answer that can be believed: what came %s\n", doubt_of(x->read));
    else if (x->heard == 0)
        puts("sent to all units, which do not answer");
    else if (x->read == OSTURDAM_READ_NOP && v->last)
        print_nop(c, x);
    else if (x->read == OSTURDAM_READ_RST)
        print_rst(c);
    else if (x->read == OSTURDAM_READ_NORMAL)
        print_normal(v, c, x);
    if (ended == ANSWERED && x->heard > 0)
        print_status(x);
}

static void show_hex(const struct exchange *x)
{
    print_hex(x->frame, x->asked);
    putchar('\t');
    if (x->heard == 0)
        putchar('-');
    print_hex(x->reply, x->heard);
    putchar('\n');
}

bool show(const struct view *v, const struct command *c, const struct exchange *x, enum ended ended)
{
    bool empty = ended == ANSWERED && x->heard > 0 && x->read == OSTURDAM_READ_NORMAL && x->kept[0] == 0;
    if (v->form == HEX)
        show_hex(x);
    else if ((ended == SILENT && !v->last) || (v->follows && empty))
        return true;
    else if (v->form == JSON)
        show_json(c, x, ended);
    else
        show_words(v, c, x, ended);
    if (fflush(stdout) == 0)
        return true;
    fprintf(stderr, "poll2179: standard output: %s\n", strerror(errno));
    return false;
}
