#include "options.h"

#include <stdio.h>
#include <string.h>

#include "clock.h"
#include "config.h"
#include "events.h"
#include "image.h"
#include "line.h"
#include "serial.h"
#include "text.h"

#define BAUDS "is 300, 600, 1200, 2400, 4800, 9600, 19200, 38400, 57600 or 115200"

enum { LEAST_GAP = 20, LONGEST_WAIT = 10000, LONGEST_IDLE = 1000000 };

static const struct options defaults = {
    .line = {.baud = 9600, .parity = 'n'}, .suspension = 1000, .reply_within = 100, .idle = 600, .address = "127.0.0.1"};

static bool wrong(const char *option, const char *what)
{
    fprintf(stderr, "unit2179: %s %s; --help tells more\n", option, what);
    return false;
}

/* Options that take a word, and where it goes. */
static const char **text_of(struct options *o, const char *option)
{
    const struct {
        const char *option;
        const char **text;
    } texts[] = {{"--config", &o->config}, {"--serial", &o->serial},  {"--tcp", &o->tcp},     {"--events", &o->events},
                 {"--state", &o->state},   {"--log", &o->log},        {"--clock", &o->clock}, {"--zone", &o->zone},
                 {"--parity", &o->parity}, {"--capture", &o->capture}};
    for (size_t i = 0; i < sizeof texts / sizeof *texts; i++) {
        if (strcmp(option, texts[i].option) == 0)
            return texts[i].text;
    }
    return NULL;
}

static uint32_t *number_option(struct options *o, const char *option)
{
    return strcmp(option, "--baud") == 0           ? &o->line.baud
           : strcmp(option, "--gap") == 0          ? &o->gap
           : strcmp(option, "--suspension") == 0   ? &o->suspension
           : strcmp(option, "--reply-within") == 0 ? &o->reply_within
           : strcmp(option, "--idle") == 0         ? &o->idle
                                                   : NULL;
}

static bool *flag_option(struct options *o, const char *option)
{
    return strcmp(option, "--pty") == 0       ? &o->pty
           : strcmp(option, "--fresh") == 0   ? &o->fresh
           : strcmp(option, "--help") == 0    ? &o->help
           : strcmp(option, "--version") == 0 ? &o->version
           : strcmp(option, "--rs485") == 0   ? &o->line.rs485
                                              : NULL;
}

/* ADDRESS:PORT, [ADDRESS]:PORT or PORT. */
static bool split_address(struct options *o)
{
    uint32_t port;
    const char *colon = strrchr(o->tcp, ':');
    size_t length = colon ? (size_t)(colon - o->tcp) : 0;
    bool bracketed = length > 2 && o->tcp[0] == '[' && o->tcp[length - 1] == ']';
    o->port = colon ? colon + 1 : o->tcp;
    if (!number_of(o->port, 65535, &port) || strspn(o->port, "0123456789") != strlen(o->port) || (colon && length == 0) ||
        length >= sizeof o->address || (!bracketed && memchr(o->tcp, ':', length)))
        return wrong("--tcp", "takes [ADDRESS:]PORT, an address of IPv6 in brackets");
    if (colon)
        snprintf(o->address, sizeof o->address, "%.*s", (int)length - 2 * bracketed, o->tcp + bracketed);
    return true;
}

/* 3.5 characters, but no less than what a host and its adapters may be late by. */
static uint32_t gap_at(const struct serial *line)
{
    uint32_t characters = (uint32_t)((7 * line_pace(line).character / 2 + NS_OF_MS - 1) / NS_OF_MS);
    return characters > LEAST_GAP ? characters : LEAST_GAP;
}

static bool settled(struct options *o)
{
    if ((o->serial != NULL) + (o->tcp != NULL) + o->pty > 1)
        return wrong("--serial, --pty and --tcp", "do not go together");
    if (o->peers.many > 0 && !o->tcp)
        return wrong("--peer", "goes with --tcp");
    if (o->fresh && !o->state)
        return wrong("--fresh", "goes with --state");
    if (o->clock && strcmp(o->clock, "system") != 0 && strcmp(o->clock, "kept") != 0)
        return wrong("--clock", "is kept or system");
    if (o->zone && (!o->clock || strcmp(o->clock, "system") != 0))
        return wrong("--zone", "goes with --clock system");
    if (o->zone && !clock_has_zone(o->zone))
        return wrong("--zone", "takes a time zone, as Europe/Vienna, UTC or CET-1CEST");
    if (o->parity && strcmp(o->parity, "none") != 0 && strcmp(o->parity, "even") != 0 && strcmp(o->parity, "odd") != 0)
        return wrong("--parity", "is none, even or odd");
    if (o->parity)
        o->line.parity = o->parity[0];
    if (!serial_has_baud(o->line.baud))
        return wrong("--baud", BAUDS);
    if (o->gap == 0)
        o->gap = gap_at(&o->line);
    return !o->tcp || split_address(o);
}

static bool take_number(const struct options *o, const char *option, const char *word, uint32_t *number)
{
    bool baud = number == &o->line.baud, idle = number == &o->idle;
    if (number_of(word, baud ? 115200 : idle ? LONGEST_IDLE : LONGEST_WAIT, number) && *number > 0)
        return true;
    return wrong(option, baud ? BAUDS : idle ? "takes seconds, 1 to 1000000" : "takes milliseconds, 1 to 10000");
}

bool options_read(struct options *o, int many, char **words)
{
    *o = defaults;
    for (int i = 1; i < many; i++) {
        const char **text = text_of(o, words[i]);
        uint32_t *number = number_option(o, words[i]);
        bool *flag = flag_option(o, words[i]), peer = strcmp(words[i], "--peer") == 0;
        if (flag)
            *flag = true;
        else if (!text && !number && !peer)
            return wrong(words[i], "is no option");
        else if (i + 1 == many)
            return wrong(words[i], "lacks what it takes");
        else if (peer && !peers_add(&o->peers, words[++i]))
            return wrong("--peer", "takes ADDRESS or ADDRESS/BITS, up to 32 times");
        else if (peer)
            continue;
        else if (text)
            *text = words[++i];
        else if (!take_number(o, words[i], words[i + 1], number))
            return false;
        else
            i++;
    }
    return settled(o);
}

static const char help[] =
    "usage: unit2179 [OPTION...]\n"
    "Serves a remote unit of the Cooper 2179 serial protocol. Without options it is the bench unit (unit 1234,\n"
    "inputs 30h and 40h, fresh) on a pseudo-terminal, whose name it prints.\n"
    "\n"
    "The line, one of:\n"
    "  --pty                  a pseudo-terminal of its own (the default)\n"
    "  --serial DEVICE        a serial device or pseudo-terminal that exists: 8 bits, 1 stop bit\n"
    "  --tcp [ADDRESS:]PORT   a TCP port of an address or name, one of IPv6 in brackets (without: 127.0.0.1; port 0: a\n"
    "                         free one). Up to 8 masters may be connected, and one more if another was quiet for a\n"
    "                         second, which then goes. Each connection has idle marks of its own, gets the replies to\n"
    "                         what it sent, and has the master's number that it sent first, as long as it is open: a\n"
    "                         second one with that number is closed\n"
    "  --peer ADDRESS[/BITS]  who may connect; may be given up to 32 times (without: all)\n"
    "  --idle SECONDS         a connection that was quiet for so long is closed (600)\n"
    "  --baud RATE            of the serial device: 300, 600, 1200, 2400, 4800, 9600 (the default), 19200, 38400, 57600 or\n"
    "                         115200\n"
    "  --parity PARITY        none (the default, as the protocol says), even or odd\n"
    "  --rs485                the device's driver keys an RS-485 sender, by RTS\n"
    "  --gap MS               quiet time that is an idle mark; 3.5 characters at the baud rate, at least 20 ms\n"
    "  --suspension MS        quiet time that is an idle mark behind the header of a Set Time (1000)\n"
    "  --reply-within MS      a reply that could not begin so soon after the idle mark is not sent (100): a master that\n"
    "                         has given up must not take it for its next answer. A master has to wait longer than this,\n"
    "                         the gap and the sending of request and reply together\n"
    "\n"
    "The unit:\n"
    "  --config FILE          what it is equipped with; without, the bench unit\n"
    "  --state FILE           keep its state there and begin with what is there; without, nothing is kept.\n"
    "                         What changed is on the disk before a reply is sent or an output acts, in FILE.journal-a\n"
    "                         or -b first and now and then in FILE. Time that the process is down is not counted, and a\n"
    "                         select or a write does not outlive it\n"
    "  --clock system         set its clock from the host's time at the start. Otherwise (kept) it goes on where it was\n"
    "                         kept, and the unit asks its masters for set-up (status bit 7), since nobody knows how far\n"
    "                         it is behind\n"
    "  --zone ZONE            the time zone of that clock, as UTC, Europe/Vienna or CET-1CEST; without, the host's\n"
    "  --fresh                begin with a fresh unit, whatever the state file has\n"
    "  --events FIFO          read local events there (made if it is missing), or from standard input (-)\n"
    "  --log FILE             append each event and what came out, - for standard output; fields parted by tabs:\n"
    "                         T ms, R stretch outcome reply, S ms since the sync point of that Set Time, L why that\n"
    "                         reply was not sent, A output action, E event figures outcome, M samples missing and mean\n"
    "                         of that sample, D file and how many records it has dropped, the latest for that event;\n"
    "                         the last field is when it was written. SIGHUP opens it again\n"
    "  --capture FILE         append what is heard and sent as a capture (pcapng) that Wireshark opens\n"
    "  --help                 print this\n"
    "  --version              print which interface, layout and state files it has\n"
    "\n"
    "Standard output has the line's name, then a line for each output action. SIGTERM and SIGINT end it in order.\n"
    "\n";

static const char set_time_help[] =
    "Set time: the time that a master sends is that of the sync point, where the start bit of its request's fifth character\n"
    "ends. The milliseconds from there until the unit hears the request are added to it, by a clock of the host that no one\n"
    "sets; if they are over 10,000, the request is refused. On a serial device the fifth character began as long before it\n"
    "was seen as it and those seen with it take at the baud rate: what a device or adapter holds back besides, the unit's\n"
    "clock is late by. On a pseudo-terminal or a TCP port all that can be known is when that character came, and the clock\n"
    "is late by the time that it was under way.\n"
    "\n";

static void config_help(void)
{
    printf("Configuration lines (numbers as 30h, 30H or 0x30 are hexadecimal, any other decimal; # begins a comment):\n"
           "  unit NUMBER            0 to %Xh; the one line that must be there\n"
           "  inputs LIST            equipped inputs, e.g. 30h 40h-43h; two-bit status 00-1Fh, status 30h-3Fh,\n"
           "                         accumulators 40h-5Fh, analogs 80h-FFh\n"
           "  outputs LIST           equipped control outputs, 00 to %Xh\n"
           "  calculations LIST      equipped special calculations, 00 to %Xh\n"
           "  mean CALCULATION ANALOG SAMPLES\n"
           "                         an equipped calculation is the mean of the last samples of an equipped analog, which\n"
           "                         sample events take: 1, 2, 4, 8, 16, 32, 64, 128 or %d. Up to %d of them\n"
           "  file NUMBER VALUES oldest|newest\n"
           "                         a history file, 0 to %d, whose records have 1 to %d values. When it is full, one that\n"
           "                         says oldest takes no record, one that says newest drops its oldest record for a new\n"
           "                         one, but none of the latest history reply. One that says neither keeps the oldest, and\n"
           "                         that is told\n"
           "  block LENGTH           characters of the parameter block, 0 to %d\n",
           CONFIG_UNIT_MOST, CONFIG_NUMBER_MOST, OSTURDAM_CALCULATIONS - 1, OSTURDAM_SAMPLES, OSTURDAM_MEANS, OSTURDAM_FILES - 1,
           OSTURDAM_VALUES, OSTURDAM_BLOCK);
}

void options_help(void)
{
    fputs(help, stdout);
    fputs(set_time_help, stdout);
    config_help();
    putchar('\n');
    events_help();
    putchar('\n');
    puts("Exit status: 0 ended in order, 1 log, capture or events not to be had, 2 command line, 3 configuration, 4 state, 5 line,\n"
         "6 an output action could not be told.");
}

void options_version(void)
{
    printf("unit2179: interface %d of the library, units of layout %d, state files of version %d\n", OSTURDAM_VERSION, OSTURDAM_LAYOUT,
           IMAGE_VERSION);
}
