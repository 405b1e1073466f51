#include "turn.h"

#include <errno.h>
#include <string.h>

#include "capture.h"
#include "clock.h"
#include "guests.h"
#include "log.h"

void turn_pass(struct server *s, uint32_t ms)
{
    if (ms == 0)
        return;
    osturdam_wait(&s->lent, ms);
    log_time(ms);
}

void turn_pass_time(struct server *s)
{
    int64_t now = clock_now();
    while (now - s->told >= NS_OF_MS)
        turn_pass(s, clock_passed(&s->told, now));
}

/* Kept numbers that go with the next change: they say how the line is, or do not outlive the process. */
static bool passing(enum osturdam_kept which)
{
    return which == OSTURDAM_SELECT_AGE || (which >= OSTURDAM_WRITE && which <= OSTURDAM_WRITE_AGE) || which == OSTURDAM_SILENCE ||
           which == OSTURDAM_MARK;
}

/* Whether an event has changed what must last. */
static bool lasts(const struct server *s, const uint8_t before[2 * OSTURDAM_KEPT])
{
    const uint8_t *now = s->all->unit.numbers;
    for (unsigned i = 0; i < OSTURDAM_KEPT; i++) {
        if (!passing((enum osturdam_kept)i) && osturdam_word_at(now + 2 * i) != osturdam_word_at(before + 2 * i))
            return true;
    }
    return keeper_differs(s->keeper, s->all);
}

static void keep(struct server *s, bool synced)
{
    s->kept = clock_now();
    keeper_keep(s->keeper, s->all, synced);
}

/* What a reply tells or an action does is kept first: a master never holds a reply that the unit can forget. */
static enum served turn_begun(struct server *s, enum waiting waits, const uint8_t before[2 * OSTURDAM_KEPT])
{
    s->waits = waits;
    if (!s->keeper->store || !lasts(s, before))
        return turn_end(s);
    keep(s, true);
    return SERVE_GOES_ON;
}

enum served turn_hear(struct server *s, struct channel *channel)
{
    uint8_t before[2 * OSTURDAM_KEPT];
    struct answer *a = &s->answer;
    a->channel = channel;
    a->heard = channel->marked;
    a->mark = channel->mark;
    channel->marked.heard = 0;
    capture_heard(a->heard.chars, a->heard.heard);
    turn_pass_time(s);
    /* up to the millisecond that the unit was told last: from there its clock goes on, and none counts twice or not at all */
    a->lag = stretch_lag(&a->heard, s->told);
    memcpy(before, s->all->unit.numbers, sizeof before);
    struct osturdam_heard heard = {
        .chars = a->heard.chars, .count = a->heard.heard, .lag = a->lag, .buffer = a->reply, .room = sizeof a->reply};
    osturdam_hear(&s->lent, &heard, &a->turned);
    guests_heard(s, a);
    return turn_begun(s, A_REPLY_WAITS, before);
}

enum served turn_take(struct server *s, const struct event *event)
{
    uint8_t before[2 * OSTURDAM_KEPT];
    turn_pass_time(s);
    memcpy(before, s->all->unit.numbers, sizeof before);
    s->event = *event;
    s->full = event_stores(event) && osturdam_count_of(&s->all->unit, (uint8_t)event->figures[0]) == OSTURDAM_ROOM;
    s->outcome = event_apply(&s->event, &s->lent);
    return turn_begun(s, AN_EVENT_WAITS, before);
}

void turn_keep_time(struct server *s)
{
    turn_pass_time(s);
    s->waits = TIME_WAITS;
    keep(s, false);
}

/* A master that has given up on its request must not take the reply for the answer to its next one: why it is not sent, or NULL. */
static const char *unsent(const struct server *s, const struct answer *a)
{
    if (clock_now() - a->mark > s->within)
        return "late";
    return channel_waits(a->channel) ? "new characters" : NULL;
}

static void send_reply(struct server *s)
{
    struct answer *a = &s->answer;
    const char *why = a->channel ? unsent(s, a) : "gone";
    if (!why && !channel_send(a->channel, a->reply, a->turned.sent))
        why = "not taken";
    if (!why) {
        capture_sent(a->reply, a->turned.sent);
        return;
    }
    log_unsent(why);
    complain(&(struct place){s->line->name, 0}, "a reply was not sent: %s", why);
}

static enum served end_stretch(struct server *s)
{
    const struct answer *a = &s->answer;
    log_stretch(a->heard.chars, a->heard.heard, &a->turned, a->reply);
    if (stretch_sets_time(&a->heard))
        log_sync(a->lag);
    /* an action that nobody was told of did not happen, and is not answered as done */
    if (a->turned.action != OSTURDAM_REST && !log_action(&a->turned)) {
        complain(&(struct place){"standard output", 0}, "an action of output %02Xh cannot be told: %s", a->turned.output,
                 errno == EAGAIN ? "nobody reads it" : strerror(errno));
        return SERVE_OUTPUT_LOST;
    }
    if (a->turned.sent > 0)
        send_reply(s);
    s->answer.channel = NULL;
    return SERVE_GOES_ON;
}

/* A local event is told as done once it is kept. */
static enum served end_event(struct server *s)
{
    log_event(&s->event, s->outcome);
    if (event_samples(&s->event) && s->outcome == OSTURDAM_DONE)
        log_sample(&s->event.sampled);
    if (s->outcome != OSTURDAM_DONE)
        complain(&s->events->at, "%s", event_refusal(&s->event, s->outcome));
    else if (s->full)
        log_drop((uint8_t)s->event.figures[0], osturdam_dropped_of(&s->all->unit, (uint8_t)s->event.figures[0]));
    return SERVE_GOES_ON;
}

enum served turn_end(struct server *s)
{
    enum waiting waited = s->waits;
    s->waits = NOTHING_WAITS;
    switch (waited) {
    case A_REPLY_WAITS: return end_stretch(s);
    case AN_EVENT_WAITS: return end_event(s);
    default: return SERVE_GOES_ON;
    }
}
