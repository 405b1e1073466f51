#include "log.h"

#include <errno.h>
#include <fcntl.h>
#include <stdarg.h>
#include <stdio.h>
#include <string.h>
#include <sys/stat.h>
#include <time.h>
#include <unistd.h>

#include "say.h"
#include "stretch.h"

enum { LINE = 2 * STRETCH_KEPT + 2 * OSTURDAM_REPLY + 96 }; /* no line is longer than a whole stretch and a whole reply */

static struct place at;
static int into = -1;
static bool failing; /* which was told */
static bool torn;    /* it ends in a part of a line */

struct text {
    char chars[LINE];
    size_t many;
};

/* A FIFO need not have a reader yet: it is opened for both, so that this waits for none. */
static int open_file(const char *path)
{
    struct stat found;
    bool fifo = stat(path, &found) == 0 && S_ISFIFO(found.st_mode);
    int file = open(path, (fifo ? O_RDWR : O_WRONLY) | O_APPEND | O_CREAT | O_CLOEXEC, 0644);
    if (file < 0)
        complain(&at, "%s", strerror(errno));
    return file;
}

bool log_open(const char *path)
{
    if (!path)
        return true;
    bool standard = strcmp(path, "-") == 0;
    at.name = standard ? "standard output" : path;
    into = standard ? STDOUT_FILENO : open_file(path);
    return into >= 0;
}

void log_reopen(void)
{
    int file = into > STDERR_FILENO ? open_file(at.name) : -1;
    if (file < 0)
        return;
    close(into);
    into = file;
    failing = torn = false;
}

static void add(struct text *t, const char *format, ...) __attribute__((format(printf, 2, 3)));

static void add(struct text *t, const char *format, ...)
{
    va_list given;
    va_start(given, format);
    int more = vsnprintf(t->chars + t->many, LINE - t->many, format, given);
    va_end(given);
    t->many += more > 0 ? (size_t)more : 0;
    t->many = t->many < LINE ? t->many : LINE - 1;
}

static void add_hex(struct text *t, const uint8_t *chars, size_t many)
{
    for (size_t i = 0; i < many; i++)
        add(t, "%02X", chars[i]);
}

/* A line that is not written whole is told once; behind a part of one the next begins on a line of its own. */
static void put(struct text *t)
{
    struct timespec now;
    struct tm tm;
    clock_gettime(CLOCK_REALTIME, &now);
    gmtime_r(&now.tv_sec, &tm);
    add(t, "\t%04d-%02d-%02dT%02d:%02d:%02d.%03ldZ\n", tm.tm_year + 1900, tm.tm_mon + 1, tm.tm_mday, tm.tm_hour, tm.tm_min, tm.tm_sec,
        now.tv_nsec / 1000000);
    torn = torn && put_chars(into, "\n", 1) == 0;
    size_t done = torn ? 0 : put_chars(into, t->chars, t->many);
    if (done < t->many && !failing)
        complain(&at, "the log cannot be written, and goes on when it can: %s", errno == EAGAIN ? "nobody reads it" : strerror(errno));
    failing = done < t->many;
    torn = torn || (failing && done > 0);
}

static void log_ms(const char *kind, uint32_t ms)
{
    struct text t = {.many = 0};
    if (into < 0)
        return;
    add(&t, "%s\t%u", kind, (unsigned)ms);
    put(&t);
}

void log_time(uint32_t ms)
{
    log_ms("T", ms);
}

void log_sync(uint32_t lag)
{
    log_ms("S", lag);
}

void log_stretch(const uint8_t *stretch, size_t heard, const struct osturdam_turned *turned, const uint8_t *reply)
{
    struct text t = {.many = 0};
    if (into < 0)
        return;
    add(&t, "R\t");
    add_hex(&t, stretch, heard);
    add(&t, "\t%u\t", (unsigned)turned->outcome);
    add_hex(&t, reply, turned->sent);
    add(&t, turned->sent > 0 ? "" : "-");
    put(&t);
}

void log_unsent(const char *why)
{
    struct text t = {.many = 0};
    if (into < 0)
        return;
    add(&t, "L\t%s", why);
    put(&t);
}

bool log_action(const struct osturdam_turned *turned)
{
    struct text told = {.many = 0}, t = {.many = 0};
    const char *what = turned->action == OSTURDAM_CLOSE ? "close" : "open";
    add(&told, "output %02Xh %s\n", turned->output, what);
    bool good = put_chars(STDOUT_FILENO, told.chars, told.many) == told.many;
    int error = errno;
    add(&t, "A\t%u\t%s", turned->output, what);
    if (into >= 0 && good)
        put(&t);
    errno = error;
    return good;
}

void log_event(const struct event *event, unsigned outcome)
{
    struct text t = {.many = 0};
    if (into < 0)
        return;
    add(&t, "E\t%s", event_kind(event));
    for (size_t i = 0; i < event->many; i++)
        add(&t, "\t%u", (unsigned)event->figures[i]);
    add(&t, "\t%u", outcome);
    put(&t);
}

/* A mean of so many bits has at most 13 digits. */
void log_sample(const struct osturdam_sampled *sampled)
{
    struct text t = {.many = 0};
    float mean;
    if (into < 0)
        return;
    memcpy(&mean, &sampled->mean, sizeof mean);
    add(&t, "M\t%u\t", sampled->missing);
    if (sampled->missing == 0)
        add(&t, "%.13g", (double)mean);
    else
        add(&t, "-");
    put(&t);
}

void log_drop(uint8_t file, uint16_t dropped)
{
    struct text t = {.many = 0};
    if (into < 0)
        return;
    add(&t, "D\t%u\t%u", file, dropped);
    put(&t);
}
