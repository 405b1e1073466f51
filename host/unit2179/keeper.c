#include "keeper.h"

#include <errno.h>
#include <string.h>
#include <time.h>
#include <unistd.h>

#include "clock.h"

enum {
    JOURNAL_FULL = JOURNAL / 2, /* from here on the state file is made anew, while entries go into the other journal */
    AGAIN_MS = 10000
};

static bool lost(const struct keeper *k, int error)
{
    complain(&k->store->at, "the state cannot be kept: %s", strerror(error));
    return false;
}

/* The jobs, which threads do. */

static bool put(void *context)
{
    struct keeper *k = context;
    bool good = (!k->other || journal_sync(k->store, 1 - k->journal)) && journal_put(k->store, k->journal, k->used, k->entries, k->many) &&
                (!k->synced || journal_sync(k->store, k->journal));
    k->put_error = errno;
    return good;
}

static bool make(void *context)
{
    struct keeper *k = context;
    bool good = store_whole(k->store, k->image, k->length) && journal_clear(k->store, 1 - k->journal, k->filled);
    k->make_error = errno;
    return good;
}

/* A number that no other history of this state has. */
static uint64_t new_history(void)
{
    struct timespec t;
    clock_gettime(CLOCK_REALTIME, &t);
    return ((uint64_t)t.tv_sec * 1000000000u + (uint64_t)t.tv_nsec) ^ (uint64_t)getpid() << 40;
}

bool keeper_begin(struct keeper *k, struct store *store)
{
    k->store = store;
    if (!store)
        return true;
    if (number_at(k->kept.history, 8) == 0)
        put_number(k->kept.history, new_history(), 8);
    k->used = k->filled = JOURNAL_HEAD;
    if (!journals_open(store))
        return false;
    k->length = image_write(k->image, &k->kept);
    /* the journals are emptied last: what they have is in the state file then */
    if (!store_whole(store, k->image, k->length) || !journals_clear(store) || !worker_begin(&k->putting) || !worker_begin(&k->making))
        return lost(k, errno);
    return true;
}

bool keeper_differs(const struct keeper *k, const struct osturdam_together *all)
{
    const struct osturdam_together *was = &k->kept.all;
    size_t before = offsetof(struct osturdam_unit, numbers), behind = offsetof(struct osturdam_unit, words);
    return memcmp(was, all, before) != 0 || memcmp((const uint8_t *)was + behind, (const uint8_t *)all + behind, sizeof *was - behind) != 0;
}

/* The state file is made of all that is kept, and the journal before this one is emptied. */
static void make_whole(struct keeper *k)
{
    k->length = image_write(k->image, &k->kept);
    worker_do(&k->making, make, k);
}

/* Entries go on in the other journal, which is empty. */
static void change_over(struct keeper *k)
{
    k->filled = k->used;
    k->journal = 1 - k->journal;
    k->used = JOURNAL_HEAD;
    k->other = true;
    make_whole(k);
}

/* Hands the entry to its thread, or waits for room in the other journal. */
static void start(struct keeper *k)
{
    bool fits = k->used + k->many <= JOURNAL, empty = k->filled == JOURNAL_HEAD && !k->making.busy;
    if (empty && (!fits || k->used > JOURNAL_FULL)) {
        change_over(k);
        fits = true;
    }
    k->held = !fits;
    if (fits)
        worker_do(&k->putting, put, k);
    else if (!k->making.busy)
        make_whole(k);
}

/* Makes the entry of what changed, twice. */
static void enter(struct keeper *k, const struct osturdam_together *all, bool synced)
{
    uint64_t number = number_at(k->kept.entry, 8) + 1;
    size_t length = entry_write(k->entries, number_at(k->kept.history, 8), number, &k->kept.all, all);
    memcpy(k->entries + length, k->entries, length);
    k->many = 2 * length;
    k->synced = synced;
    k->kept.all = *all;
    put_number(k->kept.entry, number, 8);
}

void keeper_keep(struct keeper *k, const struct osturdam_together *all, bool synced)
{
    if (!k->store)
        return;
    enter(k, all, synced);
    start(k);
}

void keeper_files(const struct keeper *k, int files[KEEPER_FILES])
{
    files[0] = k->store ? worker_file(&k->putting) : -1;
    files[1] = k->store ? worker_file(&k->making) : -1;
}

/* The state file is made, or could not be: then its journal goes on as long as it has room, and it is tried again. */
static bool made(struct keeper *k, int64_t now)
{
    if (worker_result(&k->making)) {
        k->filled = JOURNAL_HEAD;
        k->said = false;
    } else {
        if (!k->said)
            complain(&k->store->at, "the state file cannot be made anew: %s; changes are kept in its journal", strerror(k->make_error));
        k->said = true;
        k->again = now + (int64_t)AGAIN_MS * NS_OF_MS;
        if (k->held)
            return lost(k, k->make_error);
    }
    if (k->held)
        start(k);
    return true;
}

enum keeping keeper_look(struct keeper *k, int64_t now)
{
    if (!k->store)
        return KEEPER_KEPT;
    if (worker_ended(&k->making) && !made(k, now))
        return KEEPER_LOST;
    if (k->filled > JOURNAL_HEAD && !k->making.busy && now >= k->again)
        make_whole(k);
    if (worker_ended(&k->putting)) {
        if (!worker_result(&k->putting)) {
            lost(k, k->put_error);
            return KEEPER_LOST;
        }
        k->used += k->many;
        k->other = false;
    }
    return k->putting.busy || k->held ? KEEPER_KEEPS : KEEPER_KEPT;
}

bool keeper_end(struct keeper *k, const struct osturdam_together *all)
{
    if (!k->store)
        return true;
    if (k->putting.busy) {
        if (!worker_result(&k->putting))
            return lost(k, k->put_error);
        k->used += k->many;
    }
    if (k->making.busy)
        worker_result(&k->making);
    bool held = k->held;
    enter(k, all, true);
    /* an entry first: where the disk is slow, there may be no time for more */
    bool entered = !held && k->used + k->many <= JOURNAL && put(k);
    k->length = image_write(k->image, &k->kept);
    if (store_whole(k->store, k->image, k->length))
        return true;
    complain(&k->store->at, "the state file cannot be made anew: %s; changes are kept in its journal", strerror(errno));
    return entered || lost(k, k->put_error);
}
