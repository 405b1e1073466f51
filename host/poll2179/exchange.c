#define _DEFAULT_SOURCE

#include "exchange.h"

#include <time.h>

#include "clock.h"
#include "daytime.h"
#include "record.h"

/* A master suspends its sending behind the command of a Set Time for 25 ms at least: the unit makes ready for the sync point. */
enum { SUSPENDED_MS = 40, HEADER = 4 };

/* A line of the records' file: file, event type, day, time, values. */
static const struct record_form kept_form = {"%u\t%u\t%u\t%02u:%02u:%02u\t", "\t", "\n"};

static void sleep_until(int64_t when)
{
    struct timespec t = {.tv_sec = when / (1000LL * NS_OF_MS), .tv_nsec = when % (1000LL * NS_OF_MS)};
    while (clock_nanosleep(CLOCK_MONOTONIC, TIMER_ABSTIME, &t, NULL) != 0)
        continue;
}

/* Header, suspension, and then the rest at the moment that it tells: so the time is taken last. */
static bool send_time(struct exchange *x, const struct command *c)
{
    struct command told = *c;
    if (!wire_send(&x->wire, x->frame, HEADER) || !wire_sent(&x->wire))
        return false;
    sleep_until(clock_now() + (int64_t)SUSPENDED_MS * NS_OF_MS);
    if (c->now) {
        struct day_time t = clock_host(x->zone);
        time_to(told.chars, &t);
        command_build(&told, &x->poll, x->frame);
    }
    return wire_send(&x->wire, x->frame + HEADER, x->asked - HEADER);
}

static bool believed(enum osturdam_read read)
{
    return read == OSTURDAM_READ_NORMAL || read == OSTURDAM_READ_NOP || read == OSTURDAM_READ_RST;
}

/* Noise before a reply does no harm, and nothing is asked again while the reply may still come: else it would be read as the answer to
 * the next request. */
static enum ended listen(struct exchange *x)
{
    int64_t until = clock_now() + (int64_t)x->patience.first * NS_OF_MS;
    while (clock_now() < until) {
        long many = wire_receive(&x->wire, x->reply, sizeof x->reply, until, x->patience.gap);
        if (many <= 0)
            return many < 0 ? NO_LINE : SILENT;
        x->heard = (size_t)many;
        x->read = (enum osturdam_read)osturdam_poll_read(x->poll.chars, x->reply, x->heard, x->records, sizeof x->records, x->kept);
        if (believed(x->read))
            return ANSWERED;
    }
    return SILENT;
}

static bool keep(struct exchange *x)
{
    char line[RECORD_TEXT];
    for (size_t i = 0; i < x->kept[0]; i++) {
        record_text(line, &kept_form, exchange_file(x), x->records + i * x->kept[1], x->kept[1]);
        if (!state_add(&x->state, line))
            return false;
    }
    return state_save(&x->state, &x->poll, false);
}

enum ended exchange_once(struct exchange *x, const struct command *c)
{
    x->heard = x->kept[0] = 0;
    x->asked = command_build(c, &x->poll, x->frame);
    if (x->asked == 0 || !state_save(&x->state, &x->poll, true))
        return NOT_KEPT;
    if (!wire_drain(&x->wire, 0) || !(c->kind == SET_TIME ? send_time(x, c) : wire_send(&x->wire, x->frame, x->asked)))
        return NO_LINE;
    if (c->all)
        return ANSWERED;
    enum ended ended = listen(x);
    return ended == ANSWERED && !keep(x) ? NOT_KEPT : ended;
}

bool exchange_quiet(struct exchange *x)
{
    return !x->state.waits || wire_drain(&x->wire, x->patience.first);
}

bool exchange_repeats(const struct exchange *x)
{
    return x->frame[2] == 0x04 && !(x->frame[3] & 0x40);
}
