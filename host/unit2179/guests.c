#include "guests.h"

#include <errno.h>
#include <string.h>

#include "clock.h"

enum {
    QUIET_MS = 1000, /* a connection that was quiet for so long makes room */
    DEAF_MS = 1000   /* how long none is taken where the system has no room for one */
};

#define SAY(s, ...) complain(&(struct place){(s)->line->name, 0}, __VA_ARGS__)

void guests_forget(struct server *s, struct channel *channel)
{
    if (s->answer.channel == channel)
        s->answer.channel = NULL;
    for (size_t i = 0; i < MASTERS; i++) {
        if (s->owners[i] == channel)
            s->owners[i] = NULL;
    }
    channel_close(channel);
}

/* The connection that has brought nothing for longest, if that is some time; none whose reply waits. */
static struct channel *quietest(struct server *s, int64_t now)
{
    struct channel *found = NULL;
    for (size_t i = 0; i < CHANNELS; i++) {
        struct channel *c = &s->line->channels[i];
        if (c->file >= 0 && c != s->answer.channel && (!found || c->active < found->active))
            found = c;
    }
    return found && now - found->active >= (int64_t)QUIET_MS * NS_OF_MS ? found : NULL;
}

static bool make_room(struct server *s, int64_t now)
{
    struct channel *channel = quietest(s, now);
    if (!channel)
        return false;
    SAY(s, "the connection that was quiet for longest made room for another");
    guests_forget(s, channel);
    return true;
}

void guests_accept(struct server *s, int64_t now)
{
    bool full = line_is_full(s->line) && !make_room(s, now);
    if (line_accept(s->line, now)) {
        s->deaf_told = false;
        if (full)
            SAY(s, "a connection was turned away: %d are open", CHANNELS);
        return;
    }
    if (errno == EAGAIN || errno == EINTR || errno == ECONNABORTED)
        return;
    /* the system has no descriptor for it: asking again at once would only keep the processor busy */
    if (make_room(s, now))
        return;
    s->deaf = now + (int64_t)DEAF_MS * NS_OF_MS;
    if (!s->deaf_told)
        SAY(s, "no connection can be taken: %s", strerror(errno));
    s->deaf_told = true;
}

int64_t guests_due(const struct server *s, const struct channel *channel)
{
    return s->line->listener >= 0 && s->idle > 0 ? channel->active + s->idle : INT64_MAX;
}

void guests_look(struct server *s, int64_t now)
{
    for (size_t i = 0; i < CHANNELS; i++) {
        struct channel *c = &s->line->channels[i];
        if (c->file < 0 || now < guests_due(s, c) || s->answer.channel == c)
            continue;
        SAY(s, "a connection was quiet for %d s, and is closed", (int)(s->idle / NS_OF_MS / 1000));
        guests_forget(s, c);
    }
}

static bool reached(enum osturdam_outcome outcome)
{
    return outcome != OSTURDAM_NOT_WHOLE && outcome != OSTURDAM_CHECK_WRONG && outcome != OSTURDAM_OTHER_UNIT &&
           outcome != OSTURDAM_BROADCAST_DONE && outcome != OSTURDAM_BROADCAST_REFUSED;
}

/* What the unit would say to a stretch, asked of a copy. */
static enum osturdam_outcome judged(const struct server *s, const struct stretch *stretch)
{
    static struct osturdam_together copy;
    static uint8_t reply[OSTURDAM_REPLY];
    struct osturdam_turned turned;
    copy = *s->all;
    struct osturdam_lent lent = osturdam_lend(&copy, &copy.unit.config);
    struct osturdam_heard heard = {.chars = stretch->chars, .count = stretch->heard, .buffer = reply, .room = sizeof reply};
    return osturdam_hear(&lent, &heard, &turned);
}

bool guests_refused(struct server *s, struct channel *channel)
{
    const struct stretch *stretch = &channel->marked;
    if (s->line->listener < 0 || stretch->heard < 2)
        return false;
    unsigned master = osturdam_word_at(stretch->chars) >> 11;
    const struct channel *owner = s->owners[master];
    if (!owner || owner == channel || !reached(judged(s, stretch)))
        return false;
    SAY(s, "a second connection sends as master %u, which another one is: it is closed", master);
    guests_forget(s, channel);
    return true;
}

void guests_heard(struct server *s, const struct answer *answer)
{
    if (s->line->listener >= 0 && reached(answer->turned.outcome))
        s->owners[osturdam_word_at(answer->heard.chars) >> 11] = answer->channel;
}
