#include "command.h"

#include <stdio.h>
#include <string.h>

#include "text.h"
#include "daytime.h"

static bool wrong(const char *word, const char *what)
{
    fprintf(stderr, "poll2179: %s %s; --help tells more\n", word, what);
    return false;
}

/* A number up to `most` from a word that may be missing. */
static bool figure(const char *command, int many, char **words, int at, uint32_t most, uint32_t *number)
{
    if (at >= many)
        return wrong(command, "lacks a number");
    return number_of(words[at], most, number) || wrong(words[at], "is no number that fits");
}

static bool ended(const char *command, int many, int at)
{
    return many == at || wrong(command, "has a word too many");
}

static bool read_scan(struct command *c, int many, char **words)
{
    static const struct {
        const char *word;
        uint8_t inputs;
    } kinds[] = {
        {"status", STATUS}, {"two-bit", TWO_BIT}, {"analog", ANALOG}, {"pulse", PULSE}, {"all", STATUS | TWO_BIT | ANALOG | PULSE}};
    for (int at = 1; at < many; at++) {
        size_t i = 0;
        while (i < sizeof kinds / sizeof *kinds && strcmp(words[at], kinds[i].word) != 0)
            i++;
        if (i == sizeof kinds / sizeof *kinds)
            return wrong(words[at], "is no kind of input: status, two-bit, analog, pulse or all");
        c->number |= kinds[i].inputs;
    }
    return c->number != 0 || wrong("scan", "lacks a kind of input: status, two-bit, analog, pulse or all");
}

/* NUMBER and no more. */
static bool read_number(struct command *c, int many, char **words)
{
    uint32_t most = c->kind == TABLE ? 15 : c->kind == HISTORY ? OSTURDAM_FILES - 1 : 255, number;
    if (!figure(words[0], many, words, 1, most, &number) || !ended(words[0], many, 2))
        return false;
    c->number = (uint8_t)number;
    return true;
}

/* Characters from some word on to the last. */
static bool read_chars(struct command *c, int many, char **words, int from)
{
    uint32_t one = 0;
    if (many - from > (int)sizeof c->chars)
        return wrong(words[0], "takes at most 128 numbers");
    for (int at = from; at < many; at++) {
        if (!figure(words[0], many, words, at, 255, &one))
            return false;
        c->chars[c->count++] = (uint8_t)one;
    }
    return true;
}

static bool read_values(struct command *c, int many, char **words)
{
    return read_chars(c, many, words, 1);
}

static bool read_select(struct command *c, int many, char **words)
{
    uint32_t output;
    if (!figure("select", many, words, 1, 255, &output))
        return false;
    if (many < 3 || (strcmp(words[2], "open") != 0 && strcmp(words[2], "close") != 0))
        return wrong("select", "takes an output and then open or close");
    c->number = (uint8_t)output;
    c->close = strcmp(words[2], "close") == 0;
    return ended("select", many, 3);
}

/* ORDINAL BIAS. */
static bool read_place(struct command *c, int many, char **words)
{
    uint32_t ordinal, bias;
    if (!figure(words[0], many, words, 1, 255, &ordinal) || !figure(words[0], many, words, 2, 65535, &bias))
        return false;
    c->number = (uint8_t)ordinal;
    c->bias = (uint16_t)bias;
    return true;
}

static bool read_write(struct command *c, int many, char **words)
{
    if (!read_place(c, many, words))
        return false;
    return many > 3 ? read_chars(c, many, words, 3) : wrong("write", "lacks the characters, as numbers");
}

static bool read_read(struct command *c, int many, char **words)
{
    uint32_t quantity;
    if (!read_place(c, many, words) || !figure("read", many, words, 3, 255, &quantity))
        return false;
    c->count = (uint8_t)quantity;
    return ended("read", many, 4);
}

/* now, or DAY HH:MM:SS[.MMM]. */
static bool read_set_time(struct command *c, int many, char **words)
{
    struct day_time t = {1, 0, 0, 0, 0};
    c->now = many == 2 && strcmp(words[1], "now") == 0;
    if (!c->now && (many != 3 || !time_read(&t, words[1], words[2])))
        return wrong("set-time", "takes now, or a day 1 to 366 and a time HH:MM:SS or HH:MM:SS.MMM");
    time_to(c->chars, &t);
    return true;
}

/* A command of one word. */
static bool read_plain(struct command *c, int many, char **words)
{
    (void)c;
    return ended(words[0], many, 1);
}

static const struct {
    const char *word;
    enum kind kind;
    bool (*read)(struct command *c, int many, char **words);
} commands[] = {{"scan", SCAN, read_scan},
                {"table", TABLE, read_number},
                {"values", VALUES, read_values},
                {"history", HISTORY, read_number},
                {"select", SELECT, read_select},
                {"operate", OPERATE, read_plain},
                {"cancel", CANCEL, read_plain},
                {"init", INITIALISE, read_plain},
                {"reset-count", RESET_COUNT, read_number},
                {"write", WRITE, read_write},
                {"read", READ, read_read},
                {"time", TIME, read_plain},
                {"set-time", SET_TIME, read_set_time}};

/* Any master builds it, or none. */
static bool makes_request(const struct command *c)
{
    struct osturdam_poll fresh;
    uint8_t frame[OSTURDAM_POLL_FRAME];
    osturdam_poll_begin(fresh.chars, osturdam_poll_address(0, 0));
    return command_build(c, &fresh, frame) > 0;
}

bool command_read(struct command *command, int many, char **words)
{
    for (size_t i = 0; many > 0 && i < sizeof commands / sizeof *commands; i++) {
        if (strcmp(words[0], commands[i].word) == 0) {
            *command = (struct command){.kind = commands[i].kind};
            return commands[i].read(command, many, words) &&
                   (makes_request(command) || wrong(words[0], "has figures that make no request"));
        }
    }
    return many > 0 ? wrong(words[0], "is no command") : wrong("the command line", "lacks a command");
}

bool command_repeats(const struct command *c)
{
    return c->kind == SCAN || c->kind == TABLE || c->kind == VALUES || c->kind == HISTORY || c->kind == READ || c->kind == TIME;
}

size_t command_build(const struct command *c, struct osturdam_poll *p, uint8_t frame[OSTURDAM_POLL_FRAME])
{
    switch (c->kind) {
    case SCAN: return osturdam_poll_scan(p, c->number, frame);
    case TABLE: return osturdam_poll_table(p, c->number, frame);
    case VALUES: return osturdam_poll_values(p, c->chars, c->count, frame);
    case HISTORY: return osturdam_poll_history(p, OSTURDAM_POLL_ROOM, c->number, c->dump, frame);
    case SELECT: return osturdam_poll_select(p, c->number, c->close, frame);
    case OPERATE: return osturdam_poll_operate(p, frame);
    case CANCEL: return osturdam_poll_cancel(p, frame);
    case INITIALISE: return osturdam_poll_initialise(p, frame);
    case RESET_COUNT: return osturdam_poll_reset_count(p, c->number, c->all, frame);
    case WRITE: return osturdam_poll_write(p, c->bias, c->number, frame);
    case EXECUTE: return osturdam_poll_execute(p, c->chars, c->count, frame);
    case READ: return osturdam_poll_block(p, c->bias, c->number, c->count, frame);
    case TIME: return osturdam_poll_time(p, frame);
    case SET_TIME: return osturdam_poll_set_time(p, c->chars, c->all, frame);
    }
    return 0;
}

void command_help(void)
{
    fputs("Commands (numbers as 30h, 30H or 0x30 are hexadecimal, any other decimal):\n"
          "  scan KIND...           the words of status, two-bit, analog or pulse inputs, or of all\n"
          "  table NUMBER           the words that table 1 to 15 names\n"
          "  values [NUMBER...]     the values of special calculations; of all, where none is named\n"
          "  history FILE           a record of a history file, with --dump as many as fit a reply, with --follow until none is\n"
          "                         left and then on. Each is told once, in the order received. A request of before that was\n"
          "                         not answered is repeated first, of whatever file it was\n"
          "  select NUMBER open     a control output, or close; then operate within 5 s, from the same master\n"
          "  operate                the selected output acts\n"
          "  cancel                 give up a select, which a unit answers by RST\n"
          "  write ORDINAL BIAS CHARACTER...    1 to 128 characters into a block\n"
          "  read ORDINAL BIAS QUANTITY         characters of a block\n"
          "  time                   the unit's clock\n"
          "  set-time now           the host's time at the sync point; or DAY HH:MM:SS[.MMM]; with --all of all units\n"
          "  reset-count NUMBER     an accumulator's count to 0; with --all of all units\n"
          "  init                   forget select, write and latest history reply, and ask for set-up\n",
          stdout);
}
