/* unit2179: a remote unit of the Cooper 2179 serial protocol, live on a line. */
#include <errno.h>
#include <fcntl.h>
#include <signal.h>
#include <stdio.h>
#include <stdlib.h>
#include <string.h>
#include <unistd.h>

#include "capture.h"
#include "clock.h"
#include "config.h"
#include "events.h"
#include "keeper.h"
#include "line.h"
#include "log.h"
#include "options.h"
#include "say.h"
#include "serve.h"

enum { EXIT_USAGE = 2, EXIT_CONFIG, EXIT_STATE, EXIT_LINE, EXIT_OUTPUT };

enum { CONFIG_MOST = 65536, CONFIG_NOTES = 32 };

static struct osturdam_together all;
static struct keeper keeper;
static struct line line;

static void tell(const char *path, const struct config_notes *notes)
{
    for (size_t i = 0; i < notes->many && i < notes->room; i++)
        complain(&(struct place){path, notes->notes[i].line}, "%s", notes->notes[i].what);
}

/* Reads a configuration file; every line that is wrong is told, or where there is none every one that leaves something unsaid. */
static bool read_config(const char *path, struct osturdam_config *config)
{
    static char text[CONFIG_MOST + 1];
    static struct config_note faults[CONFIG_NOTES], notices[CONFIG_NOTES];
    struct config_notes wrong = {.notes = faults, .room = CONFIG_NOTES}, unsaid = {.notes = notices, .room = CONFIG_NOTES};
    int file = open(path, O_RDONLY | O_CLOEXEC);
    long have = file < 0 ? -1 : read_whole(file, (uint8_t *)text, sizeof text);
    if (have < 0 || have > CONFIG_MOST)
        complain(&(struct place){path, 0}, "%s", have < 0 ? strerror(errno) : "is longer than 65,536 characters");
    if (file >= 0)
        close(file);
    if (have < 0 || have > CONFIG_MOST)
        return false;
    bool good = config_read(text, (size_t)have, config, &wrong, &unsaid);
    tell(path, good ? &unsaid : &wrong);
    return good;
}

/* A fresh unit of the configuration. */
static bool configure(const struct options *o)
{
    static struct osturdam_config config;
    if (!o->config)
        config_bench(&config);
    else if (!read_config(o->config, &config))
        return false;
    if (!osturdam_is_valid(&config)) {
        fprintf(stderr, "unit2179: no unit has this configuration\n");
        return false;
    }
    struct osturdam_lent lent = osturdam_lend(&all, &config);
    osturdam_begin(&lent, &config);
    return true;
}

/* How many records each file has dropped, where it has any. */
static void tell_dropped(const char *path)
{
    for (uint8_t file = 0; file < OSTURDAM_FILES; file++) {
        unsigned dropped = osturdam_dropped_of(&all.unit, file);
        if (dropped > 0)
            complain(&(struct place){path, 0}, "records that file %u has dropped: %u%s", file, dropped,
                     dropped == OSTURDAM_DROPPED ? " or more" : "");
    }
}

/* The unit as it was kept, where it was. */
static bool restore(const struct options *o, struct store *store)
{
    bool found = false;
    if (!o->state)
        return true;
    keeper.kept.all = all;
    if (!store_open(store, o->state) || (!o->fresh && !store_load(store, &keeper.kept, &found)))
        return false;
    all = keeper.kept.all;
    fprintf(stderr, "unit2179: %s: %s\n", o->state, found ? "the kept state goes on" : "a fresh unit");
    tell_dropped(o->state);
    return true;
}

static bool connect_line(const struct options *o)
{
    if (o->serial)
        return line_open_serial(&line, o->serial, &o->line);
    return o->tcp ? line_open_tcp(&line, o->address, o->port, &o->peers) : line_open_pty(&line);
}

static int ended(enum served served)
{
    if (served == SERVE_LINE_LOST)
        complain(&(struct place){line.name, 0}, "the line has ended");
    return served == SERVE_STOPPED       ? EXIT_SUCCESS
           : served == SERVE_STATE_LOST  ? EXIT_STATE
           : served == SERVE_OUTPUT_LOST ? EXIT_OUTPUT
                                         : EXIT_LINE;
}

static int run(const struct options *o)
{
    static struct store store;
    static struct events events;
    if (!configure(o))
        return EXIT_CONFIG;
    if (!restore(o, &store))
        return EXIT_STATE;
    if (!log_open(o->log) || !capture_open(o->capture) || !events_open(&events, o->events))
        return EXIT_FAILURE;
    if (!connect_line(o))
        return EXIT_LINE;
    static struct server server;
    server = (struct server){.all = &all,
                             .lent = osturdam_lend(&all, &all.unit.config),
                             .keeper = &keeper,
                             .line = &line,
                             .events = &events,
                             .quiet = {(int64_t)o->gap * NS_OF_MS, (int64_t)o->suspension * NS_OF_MS},
                             .within = (int64_t)o->reply_within * NS_OF_MS,
                             .idle = (int64_t)o->idle * 1000 * NS_OF_MS};
    struct day_time host = clock_host(o->zone);
    bool set = o->clock && strcmp(o->clock, "system") == 0;
    if (!serve_begin(&server, o->state ? &store : NULL, set ? &host : NULL))
        return EXIT_STATE;
    printf("unit %u on %s\n", osturdam_number_of(&all.unit.config), line.name);
    fflush(stdout);
    return ended(serve(&server));
}

int main(int many, char **words)
{
    static struct options options;
    if (!standard_files())
        return EXIT_FAILURE;
    signal(SIGXFSZ, SIG_IGN); /* a limit of a file's size is an error like a full disk */
    if (!options_read(&options, many, words))
        return EXIT_USAGE;
    if (options.help || options.version) {
        options.help ? options_help() : options_version();
        return EXIT_SUCCESS;
    }
    if (osturdam_layout() != OSTURDAM_LAYOUT) {
        fprintf(stderr, "unit2179: it is linked with a library of another layout\n");
        return EXIT_FAILURE;
    }
    return run(&options);
}
