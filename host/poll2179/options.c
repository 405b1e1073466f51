#include "options.h"

#include <stdio.h>
#include <string.h>

#include "clock.h"
#include "serial.h"
#include "text.h"
#include "wire.h"

enum { MOST_MS = 600000, LEAST_GAP = 50 };

static const struct options defaults = {.master = 1, .baud = 9600, .retries = 3, .every = 1000, .within = 100};

static bool wrong(const char *option, const char *what)
{
    fprintf(stderr, "poll2179: %s %s; --help tells more\n", option, what);
    return false;
}

static bool *flag_of(struct options *o, const char *option)
{
    return strcmp(option, "--help") == 0      ? &o->help
           : strcmp(option, "--version") == 0 ? &o->version
           : strcmp(option, "--dump") == 0    ? &o->dump
           : strcmp(option, "--follow") == 0  ? &o->follow
           : strcmp(option, "--all") == 0     ? &o->all
           : strcmp(option, "--hex") == 0     ? &o->hex
           : strcmp(option, "--json") == 0    ? &o->json
                                              : NULL;
}

static const char **text_of(struct options *o, const char *option)
{
    return strcmp(option, "--line") == 0     ? &o->line
           : strcmp(option, "--state") == 0  ? &o->state
           : strcmp(option, "--zone") == 0   ? &o->zone
           : strcmp(option, "--parity") == 0 ? &o->parity
                                             : NULL;
}

struct number {
    uint32_t *to;
    uint32_t most;
};

static struct number number_option(struct options *o, const char *option)
{
    const struct {
        const char *option;
        struct number number;
    } numbers[] = {{"--unit", {&o->unit, 0x7FE}},     {"--master", {&o->master, 31}},
                   {"--baud", {&o->baud, 115200}},    {"--timeout", {&o->timeout, MOST_MS}},
                   {"--gap", {&o->gap, MOST_MS}},     {"--retries", {&o->retries, 1000}},
                   {"--every", {&o->every, MOST_MS}}, {"--reply-within", {&o->within, MOST_MS}}};
    for (size_t i = 0; i < sizeof numbers / sizeof *numbers; i++) {
        if (strcmp(option, numbers[i].option) == 0)
            return numbers[i].number;
    }
    return (struct number){NULL, 0};
}

/* How long a reply's first character may take: sending the longest request, the unit's idle mark, and what it takes before it answers. */
static uint32_t longest_wait(const struct options *o)
{
    return OSTURDAM_FRAME * 11000u / o->baud + o->gap + o->within;
}

/* Time that is not given, and a time-out that would take a late reply for the answer to the next request. */
static bool timed(struct options *o)
{
    uint32_t chars = 38500 / o->baud + 1;
    if (o->gap == 0)
        o->gap = chars > LEAST_GAP ? chars : LEAST_GAP;
    if (o->timeout == 0)
        o->timeout = 2 * longest_wait(o);
    if (o->timeout > longest_wait(o))
        return true;
    fprintf(stderr, "poll2179: --timeout is more than %u ms with this --baud, --gap and --reply-within; --help tells more\n",
            (unsigned)longest_wait(o));
    return false;
}

static bool settled(struct options *o)
{
    if (o->help || o->version)
        return true;
    if (!o->line)
        return wrong("--line", "is missing: a device, or ADDRESS:PORT");
    if (!o->unit_given)
        return wrong("--unit", "is missing: 0 to 2046");
    if (!serial_has_baud(o->baud))
        return wrong("--baud", "is 300, 600, 1200, 2400, 4800, 9600, 19200, 38400, 57600 or 115200");
    if (o->parity && strcmp(o->parity, "none") != 0 && strcmp(o->parity, "even") != 0 && strcmp(o->parity, "odd") != 0)
        return wrong("--parity", "is none, even or odd");
    if (o->zone && !clock_has_zone(o->zone))
        return wrong("--zone", "takes a time zone, as Europe/Vienna, UTC or CET-1CEST");
    if (o->hex && o->json)
        return wrong("--hex and --json", "exclude each other");
    o->form = o->hex ? HEX : o->json ? JSON : WORDS;
    return timed(o);
}

/* One option and what it takes; how many words it is, 0 where it is wrong. */
static int take_option(struct options *o, int left, char **words)
{
    bool *flag = flag_of(o, words[0]);
    const char **text = text_of(o, words[0]);
    struct number number = number_option(o, words[0]);
    if (flag)
        *flag = true;
    else if (!text && !number.to)
        return wrong(words[0], "is no option");
    else if (left < 2)
        return wrong(words[0], "lacks what it takes");
    else if (text)
        *text = words[1];
    else if (!number_of(words[1], number.most, number.to))
        return wrong(words[0], "takes a number that fits");
    o->unit_given |= number.to == &o->unit;
    return text || number.to ? 2 : 1;
}

/* Options stand anywhere; the other words, in their order, are the command. */
bool options_read(struct options *o, int many, char **words)
{
    *o = defaults;
    o->words = many;
    int kept = 1;
    for (int i = 1; i < many;) {
        if (strncmp(words[i], "--", 2) != 0) {
            words[kept++] = words[i++];
            continue;
        }
        int used = take_option(o, many - i, words + i);
        if (used == 0)
            return false;
        i += used;
    }
    o->words = kept;
    return settled(o);
}

bool options_fit(const struct options *o, struct command *command)
{
    bool history = command->kind == HISTORY, all = command->kind == SET_TIME || command->kind == RESET_COUNT;
    if ((o->dump || o->follow) && !history)
        return wrong("--dump and --follow", "go with history");
    if (history && !o->state)
        return wrong("--state", "is missing: history needs a file that keeps the master, one for each unit and master");
    if (!history && o->state)
        return wrong("--state", "goes with history");
    if (o->all && !all)
        return wrong("--all", "goes with set-time and reset-count");
    if (o->zone && !command->now)
        return wrong("--zone", "goes with set-time now");
    command->all = o->all;
    command->dump = o->dump;
    return true;
}

void options_help(void)
{
    fputs("usage: poll2179 --line LINE --unit NUMBER [OPTION...] COMMAND...\n"
          "Polls a remote unit of the Cooper 2179 serial protocol and prints what it answers.\n"
          "\n"
          "Options:\n"
          "  --line LINE            a serial device or pseudo-terminal, or ADDRESS:PORT (an address of IPv6 in brackets)\n"
          "  --unit NUMBER          the unit, 0 to 2046\n"
          "  --master NUMBER        the master that asks, 0 to 31 (1)\n"
          "  --baud RATE            of a serial device (9600)\n"
          "  --parity PARITY        none (the default, as the protocol says), even or odd\n"
          "  --reply-within MS      what the unit takes at most before it answers (100, as unit2179 has it)\n"
          "  --gap MS               quiet time behind a character that ends a reply (50, or 3.5 characters)\n"
          "  --timeout MS           how long a reply's first character is waited for. It must be longer than the unit may take, or\n"
          "                         a late reply is read as that to the next request: than --reply-within, --gap and the sending\n"
          "                         of the longest request together; without, twice that\n"
          "  --retries NUMBER       how often a request is sent again that was not answered (3); what has something done,\n"
          "                         as operate, is never sent twice\n"
          "  --state FILE           for history: the master's memory; the records stand in FILE.records, in the order received.\n"
          "                         Both are on the disk before a request goes out, so that none is lost or kept twice,\n"
          "                         whenever this program or the unit ends. One for each unit and master\n"
          "  --dump                 of history: as many records as fit a reply\n"
          "  --follow               of history: until no record is left, and then on\n"
          "  --every MS             with --follow: how long to wait then (1000)\n"
          "  --all                  of set-time and reset-count: all units, which do not answer\n"
          "  --zone ZONE            of set-time now, as UTC, Europe/Vienna or CET-1CEST; without, the host's\n"
          "  --hex                  print the characters sent and heard, - for none\n"
          "  --json                 print an object on a line\n"
          "  --help                 print this\n"
          "  --version              print which interface and state files it has\n"
          "\n",
          stdout);
    command_help();
    puts(
        "\nExit status: 0 a normal answer, or sent to all units; 1 the state or the output cannot be written, or the state is not that of\n"
        "this master and unit; 2 command line; 3 NOP; 4 RST; 5 no answer that can be believed; 6 the line. With --follow 0 where a signal\n"
        "ends it.");
}
