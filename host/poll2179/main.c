/* poll2179: a master of the Cooper 2179 serial protocol, by hand. */
#include <poll.h>
#include <signal.h>
#include <stdio.h>
#include <unistd.h>

#include "clock.h"
#include "options.h"
#include "say.h"

enum { EXIT_FILES = 1, EXIT_USAGE, EXIT_NOP, EXIT_RST, EXIT_SILENT, EXIT_LINE };

static struct exchange exchange;

static volatile sig_atomic_t stopped;

static void stop(int signal)
{
    (void)signal;
    stopped = 1;
}

/* Whether a command has its answer. A repeat that brought nothing new, or records of another wish, has settled what was asked before,
 * and the wish itself comes next. */
static bool settled(const struct exchange *x, const struct command *c, enum ended ended)
{
    if (c->kind != HISTORY || ended != ANSWERED || x->read == OSTURDAM_READ_RST || !exchange_repeats(x))
        return true;
    return x->kept[0] > 0 && exchange_file(x) == c->number && exchange_dumps(x) == c->dump;
}

static enum ended ask(struct exchange *x, const struct options *o, const struct command *c)
{
    uint32_t left = command_repeats(c) ? o->retries : 0;
    for (;;) {
        enum ended ended = exchange_once(x, c);
        struct view view = {o->form, stopped || (ended == SILENT ? left == 0 : settled(x, c, ended)), o->follow};
        left -= ended == SILENT && left > 0;
        if ((ended == ANSWERED || (ended == SILENT && !stopped)) && !show(&view, c, x, ended))
            return NOT_KEPT;
        if (view.last)
            return ended;
    }
}

/* A WRITE is answered by nothing, or RST; then its EXECUTE goes out. */
static enum ended write_block(struct exchange *x, const struct options *o, const struct command *c)
{
    struct command execute = *c;
    execute.kind = EXECUTE;
    enum ended ended = exchange_once(x, c);
    bool goes_on = ended == SILENT && x->heard == 0;
    struct view view = {o->form, true, false};
    if (ended <= SILENT && (!goes_on || o->form == HEX) && !show(&view, c, x, ended))
        return NOT_KEPT;
    return goes_on ? ask(x, o, &execute) : ended;
}

static int status_of(const struct exchange *x, enum ended ended)
{
    static const int others[] = {0, EXIT_SILENT, EXIT_FILES, EXIT_LINE};
    if (ended != ANSWERED || x->heard == 0)
        return others[ended];
    return x->read == OSTURDAM_READ_NOP ? EXIT_NOP : x->read == OSTURDAM_READ_RST ? EXIT_RST : 0;
}

/* Ends by a signal, or where going on is of no use: no such file, no line, no disk. */
static int follow(struct exchange *x, const struct options *o, const struct command *c)
{
    struct sigaction end = {.sa_handler = stop};
    sigaction(SIGINT, &end, NULL);
    sigaction(SIGTERM, &end, NULL);
    while (!stopped) {
        enum ended ended = ask(x, o, c);
        if (ended > SILENT || (ended == ANSWERED && x->read == OSTURDAM_READ_NOP && !stopped))
            return status_of(x, ended);
        if (x->kept[0] == 0 && !stopped)
            poll(NULL, 0, (int)o->every);
    }
    return 0;
}

static int run(const struct options *o, const struct command *c)
{
    uint16_t address = osturdam_poll_address((uint8_t)o->master, (uint16_t)o->unit);
    struct exchange *x = &exchange;
    osturdam_poll_begin(x->poll.chars, address);
    x->patience = (struct patience){o->timeout, o->gap};
    x->zone = o->zone;
    if (o->state && !state_open(&x->state, o->state, &x->poll, address))
        return EXIT_FILES;
    if (!wire_open(&x->wire, o->line, o->baud, o->parity ? o->parity[0] : 'n') || !exchange_quiet(x))
        return EXIT_LINE;
    if (o->follow)
        return follow(x, o, c);
    return status_of(x, c->kind == WRITE ? write_block(x, o, c) : ask(x, o, c));
}

int main(int many, char **words)
{
    struct options o;
    struct command command;
    if (!standard_files())
        return EXIT_FILES;
    signal(SIGPIPE, SIG_IGN);
    signal(SIGXFSZ, SIG_IGN); /* a limit of a file's size is an error like a full disk */
    if (!options_read(&o, many, words))
        return EXIT_USAGE;
    if (o.help || o.version) {
        if (o.help)
            options_help();
        else
            printf("poll2179: interface %d of the library, state files of version %d\n", OSTURDAM_VERSION, STATE_VERSION);
        return fflush(stdout) == 0 ? 0 : EXIT_FILES;
    }
    if (!command_read(&command, o.words - 1, words + 1) || !options_fit(&o, &command))
        return EXIT_USAGE;
    return run(&o, &command);
}
