#include "serve.h"

#include <errno.h>
#include <fcntl.h>
#include <poll.h>
#include <signal.h>
#include <string.h>
#include <sys/time.h>
#include <unistd.h>

#include "clock.h"
#include "guests.h"
#include "log.h"
#include "turn.h"

enum {
    KEEP_MS = 60000,                 /* the kept clock is never further behind */
    END_MS = 700,                    /* from a signal to the end, at most */
    WAITED_MS = OSTURDAM_HOLD_MS + 1 /* longer than a select or a write waits */
};

enum { BELL, EVENTS, LISTENER, KEEPER, FIRST_CHANNEL = KEEPER + KEEPER_FILES, POLLED = FIRST_CHANNEL + CHANNELS };

static int bell[2]; /* a signal writes, the loop reads: so none is missed between two looks */

enum { ENDS = 'e', REOPENS = 'r' };

/* Whatever the loop is doing, it has so long to end in order; what must last is kept at any moment. */
static void ring(int signal)
{
    static const struct itimerval soon = {.it_value = {.tv_usec = END_MS * 1000}};
    int before = errno;
    char what = signal == SIGHUP ? REOPENS : ENDS;
    if (write(bell[1], &what, 1) < 0 || (what == ENDS && setitimer(ITIMER_REAL, &soon, NULL) != 0))
        errno = before;
}

/* What the bell was rung for. */
static char rung(void)
{
    char what = 0;
    return read(bell[0], &what, 1) == 1 ? what : 0;
}

static void end_at_once(int signal)
{
    (void)signal;
    _exit(0);
}

static bool make_bell(void)
{
    struct sigaction end = {.sa_handler = ring, .sa_flags = SA_RESTART}, at_once = {.sa_handler = end_at_once};
    if (pipe(bell) != 0) {
        complain(&(struct place){"unit2179", 0}, "%s", strerror(errno));
        return false;
    }
    sigaction(SIGTERM, &end, NULL);
    sigaction(SIGINT, &end, NULL);
    sigaction(SIGHUP, &end, NULL);
    sigaction(SIGALRM, &at_once, NULL);
    signal(SIGPIPE, SIG_IGN);
    return true;
}

/* After a restart the clock is behind by nobody knows how much: unless it is set, the unit asks for set-up as after power on. */
static void set_clock(struct osturdam_unit *unit, const struct day_time *clock)
{
    if (!clock) {
        osturdam_put_kept(unit, OSTURDAM_STATUS_CONFIGURE, 1);
        return;
    }
    osturdam_put_kept(unit, OSTURDAM_DAY, clock->day);
    osturdam_put_kept(unit, OSTURDAM_HOUR, clock->hour);
    osturdam_put_kept(unit, OSTURDAM_MINUTE, clock->minute);
    osturdam_put_kept(unit, OSTURDAM_SECOND, clock->second);
    osturdam_put_kept(unit, OSTURDAM_MS, clock->ms);
}

bool serve_begin(struct server *s, struct store *store, const struct day_time *clock)
{
    const struct osturdam_unit *unit = &s->all->unit;
    if (!make_bell())
        return false;
    s->told = s->kept = clock_now();
    /* nobody knows how long the unit was down, so no select and no write may outlive that */
    if (osturdam_kept_of(unit, OSTURDAM_SELECT) == OSTURDAM_HELD || osturdam_kept_of(unit, OSTURDAM_WRITE) == OSTURDAM_WAITS)
        turn_pass(s, WAITED_MS);
    set_clock(&s->all->unit, clock);
    s->keeper->kept.all = *s->all;
    return keeper_begin(s->keeper, store);
}

/* A mark is given only by a look that began after the gap and found no character: a late process never cuts a frame. */
static void look_for_mark(struct server *s, struct channel *channel, short found, int64_t looked)
{
    if (channel->coming.heard == 0)
        return;
    int64_t due = stretch_due(&channel->coming, &s->quiet);
    /* the characters before an end are a stretch */
    if (channel->ended || (!(found & POLLIN) && looked >= due))
        channel_mark(channel, channel->ended ? looked : due);
}

/* Whether a channel has ended and all of it is heard and answered. */
static bool is_over(const struct server *s, const struct channel *channel)
{
    return channel->ended && channel->coming.heard == 0 && channel->marked.heard == 0 && channel->left == 0 && s->answer.channel != channel;
}

static enum served look_at(struct server *s, struct channel *channel, short found, int64_t looked)
{
    if (!channel->ended && (found & ~POLLOUT))
        channel_read(channel);
    look_for_mark(s, channel, found, looked);
    if (channel->left > 0 && ((found & POLLOUT) || looked >= channel->until) && !channel_flush(channel)) {
        complain(&(struct place){s->line->name, 0}, "%zu characters of a reply could not be sent", channel->left);
        channel->left = 0;
        channel->ended = channel->ended || s->line->listener >= 0;
    }
    /* a connection that only stopped sending gets its reply first */
    if (!is_over(s, channel))
        return SERVE_GOES_ON;
    guests_forget(s, channel);
    return s->line->listener >= 0 ? SERVE_GOES_ON : SERVE_LINE_LOST;
}

/* When a channel has something that comes by itself, if that is before another time. */
static int64_t due_of(const struct server *s, const struct channel *channel, int64_t due)
{
    if (is_over(s, channel))
        return 0;
    if (channel->coming.heard > 0 && channel->marked.heard == 0) {
        int64_t idle = stretch_due(&channel->coming, &s->quiet);
        due = idle < due ? idle : due;
    }
    due = guests_due(s, channel) < due ? guests_due(s, channel) : due;
    return channel->left > 0 && channel->until < due ? channel->until : due;
}

/* The next channel with a stretch to hear, in turn, or NULL. */
static struct channel *next_marked(struct server *s)
{
    for (size_t i = 0; i < CHANNELS; i++) {
        struct channel *channel = &s->line->channels[(s->next + i) % CHANNELS];
        if (channel->file >= 0 && channel->marked.heard > 0)
            return channel;
    }
    return NULL;
}

/* Milliseconds until the next thing that comes by itself. */
static int wait_from(struct server *s, int64_t now)
{
    int64_t due = (s->waits == NOTHING_WAITS ? s->kept : now) + (int64_t)KEEP_MS * NS_OF_MS;
    if (s->waits == NOTHING_WAITS && (next_marked(s) || events_ready(s->events)))
        return 0;
    if (s->deaf > now && s->deaf < due)
        due = s->deaf;
    for (size_t i = 0; i < CHANNELS; i++) {
        if (s->line->channels[i].file >= 0)
            due = due_of(s, &s->line->channels[i], due);
    }
    return due <= now ? 0 : (int)((due - now + NS_OF_MS - 1) / NS_OF_MS);
}

static void list(const struct server *s, struct pollfd polled[POLLED], int64_t now)
{
    int files[KEEPER_FILES];
    keeper_files(s->keeper, files);
    polled[BELL] = (struct pollfd){.fd = bell[0], .events = POLLIN};
    polled[EVENTS] = (struct pollfd){.fd = events_ready(s->events) ? -1 : s->events->file, .events = POLLIN};
    polled[LISTENER] = (struct pollfd){.fd = now < s->deaf ? -1 : s->line->listener, .events = POLLIN};
    for (size_t i = 0; i < KEEPER_FILES; i++)
        polled[KEEPER + i] = (struct pollfd){.fd = files[i], .events = POLLIN};
    for (size_t i = 0; i < CHANNELS; i++) {
        const struct channel *c = &s->line->channels[i];
        short wanted = (short)((c->ended ? 0 : POLLIN) | (c->left > 0 ? POLLOUT : 0));
        polled[FIRST_CHANNEL + i] = (struct pollfd){.fd = wanted ? c->file : -1, .events = wanted};
    }
}

/* Waits for what is listed and in use: the system takes no more entries than a process may have files. */
static bool wait_for(struct pollfd polled[POLLED], int ms)
{
    struct pollfd used[POLLED];
    nfds_t many = 0;
    for (size_t i = 0; i < POLLED; i++) {
        if (polled[i].fd >= 0)
            used[many++] = polled[i];
    }
    if (poll(used, many, ms) < 0)
        return false;
    for (size_t i = POLLED; i-- > 0;)
        polled[i].revents = polled[i].fd >= 0 ? used[--many].revents : 0;
    return true;
}

/* The line and local events take turns. */
static enum served take_turn(struct server *s)
{
    struct event event;
    struct channel *channel = next_marked(s);
    bool ready = events_ready(s->events);
    if (s->waits != NOTHING_WAITS || (!channel && !ready))
        return SERVE_GOES_ON;
    s->heard = channel && (!ready || !s->heard);
    if (s->heard) {
        s->next = (size_t)(channel - s->line->channels) + 1;
        return guests_refused(s, channel) ? SERVE_GOES_ON : turn_hear(s, channel);
    }
    return events_next(s->events, &event) ? turn_take(s, &event) : SERVE_GOES_ON;
}

static enum served look_at_channels(struct server *s, const struct pollfd polled[POLLED], int64_t looked)
{
    enum served served = SERVE_GOES_ON;
    for (size_t i = 0; i < CHANNELS && served == SERVE_GOES_ON; i++) {
        if (s->line->channels[i].file >= 0)
            served = look_at(s, &s->line->channels[i], polled[FIRST_CHANNEL + i].revents, looked);
    }
    return served;
}

static enum served look_at_keeper(struct server *s, int64_t looked)
{
    enum keeping keeping = keeper_look(s->keeper, looked);
    if (keeping == KEEPER_LOST)
        return SERVE_STATE_LOST;
    return keeping == KEEPER_KEPT && s->waits != NOTHING_WAITS ? turn_end(s) : SERVE_GOES_ON;
}

static enum served end(struct server *s)
{
    turn_pass_time(s);
    return keeper_end(s->keeper, s->all) ? SERVE_STOPPED : SERVE_STATE_LOST;
}

/* One look at everything, which waits until there is something to see. */
static enum served look(struct server *s)
{
    struct pollfd polled[POLLED];
    int64_t looked = clock_now();
    list(s, polled, looked);
    if (!wait_for(polled, wait_from(s, looked)))
        return SERVE_GOES_ON;
    enum served served = look_at_channels(s, polled, looked);
    int64_t now = clock_now();
    if (served == SERVE_GOES_ON)
        served = look_at_keeper(s, now);
    if (polled[EVENTS].revents)
        events_read(s->events);
    if (served == SERVE_GOES_ON)
        served = take_turn(s);
    if (served != SERVE_GOES_ON)
        return served;
    guests_look(s, now);
    if (polled[LISTENER].revents)
        guests_accept(s, now);
    char what = polled[BELL].revents ? rung() : 0;
    if (what == REOPENS)
        log_reopen();
    if (what == ENDS)
        return end(s);
    if (s->waits == NOTHING_WAITS && now - s->kept >= (int64_t)KEEP_MS * NS_OF_MS)
        turn_keep_time(s);
    return SERVE_GOES_ON;
}

enum served serve(struct server *s)
{
    enum served served;
    do
        served = look(s);
    while (served == SERVE_GOES_ON);
    /* what ends for another reason than its state has its clock kept as at an end in order */
    if (served == SERVE_LINE_LOST || served == SERVE_OUTPUT_LOST)
        end(s);
    return served;
}
