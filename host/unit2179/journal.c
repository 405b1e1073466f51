/* The two journals beside a state file: a title and entries behind it, each twice, then zeros to the end. */
#include <errno.h>
#include <fcntl.h>
#include <string.h>
#include <sys/stat.h>
#include <unistd.h>

#include "entry.h"
#include "store.h"

static const uint8_t head[JOURNAL_HEAD] = {'u', 'n', 'i', 't', '2', '1', '7', '9', ' ', 'j', 'o', 'u', 'r', 'n', 'a', 'l', 1, 0};
static const uint8_t zeros[JOURNAL];
static uint8_t rooms[JOURNALS][JOURNAL + 1]; /* one more, so that a longer file is told */

bool journal_put(const struct store *store, size_t journal, size_t at, const uint8_t *chars, size_t many)
{
    return write_at(store->journals[journal], at, chars, many);
}

bool journal_sync(const struct store *store, size_t journal)
{
    return fdatasync(store->journals[journal]) == 0;
}

bool journal_clear(const struct store *store, size_t journal, size_t used)
{
    return journal_put(store, journal, JOURNAL_HEAD, zeros, used - JOURNAL_HEAD) && journal_sync(store, journal);
}

static long journal_read(struct store *store, size_t i)
{
    int file = open(store->names[i], O_RDONLY | O_CLOEXEC | O_NOFOLLOW);
    if (file < 0)
        return -1;
    long have = read_whole(file, rooms[i], JOURNAL + 1);
    close(file);
    return have;
}

static bool is_whole(size_t i, long have)
{
    return have == JOURNAL && memcmp(rooms[i], head, sizeof head) == 0;
}

/* A journal, damaged or not, or a part of one whose making was cut short: nobody else's file is written over. */
static bool is_ours(size_t i, long have)
{
    size_t titled = (size_t)have < sizeof head ? (size_t)have : sizeof head;
    return have == JOURNAL || (have < JOURNAL && (memcmp(rooms[i], head, titled) == 0 || memcmp(rooms[i], zeros, (size_t)have) == 0));
}

/* All of a journal is laid out at once: keeping an entry then changes no length and takes no room on the disk. */
static bool open_journal(struct store *store, size_t i)
{
    long have = journal_read(store, i);
    if (have < 0 && errno != ENOENT)
        return false;
    errno = EEXIST;
    if (have >= 0 && !is_ours(i, have))
        return false;
    int file = store->journals[i] = open(store->names[i], O_RDWR | O_CREAT | O_CLOEXEC | O_NOFOLLOW, 0644);
    if (file < 0)
        return false;
    if (is_whole(i, have))
        return true;
    memset(rooms[i], 0, JOURNAL);
    return write_at(file, 0, head, sizeof head) && write_at(file, sizeof head, zeros, JOURNAL - sizeof head) && fsync(file) == 0;
}

bool journals_open(struct store *store)
{
    for (size_t i = 0; i < JOURNALS; i++) {
        if (open_journal(store, i))
            continue;
        complain(&(struct place){store->names[i], 0}, "%s",
                 errno == EEXIST ? "is no journal of a unit, and is in the way of one" : strerror(errno));
        return false;
    }
    return true;
}

bool journals_clear(const struct store *store)
{
    for (size_t i = 0; i < JOURNALS; i++) {
        if (memcmp(rooms[i] + JOURNAL_HEAD, zeros, JOURNAL - JOURNAL_HEAD) != 0 && !journal_clear(store, i, JOURNAL))
            return false;
    }
    return true;
}

/* Where the next entry that this state has not yet is, from some place on; a place behind the end if there is none. */
static size_t next_entry(const uint8_t *room, size_t at, uint64_t history, uint64_t latest, uint64_t *number)
{
    while (at < JOURNAL && (entry_at(room + at, JOURNAL - at, history, number) == 0 || *number <= latest))
        at++;
    return at;
}

static bool apply(const uint8_t *room, size_t at, const struct image_order *order, struct kept *kept)
{
    uint64_t number;
    size_t length = entry_at(room + at, JOURNAL - at, number_at(kept->history, 8), &number);
    put_number(kept->entry, number, 8);
    return entry_apply(room + at, length, order, kept);
}

/* Entries are taken in the order of their numbers, whichever journal has them. One that is missing before another is damage; what is not
 * whole behind the last was never kept. */
static const char *merged(const struct image_order *order, struct kept *kept)
{
    uint64_t history = number_at(kept->history, 8), numbers[JOURNALS];
    size_t at[JOURNALS] = {JOURNAL_HEAD, JOURNAL_HEAD};
    for (;;) {
        uint64_t latest = number_at(kept->entry, 8);
        for (size_t i = 0; i < JOURNALS; i++)
            at[i] = next_entry(rooms[i], at[i], history, latest, &numbers[i]);
        if (at[0] >= JOURNAL && at[1] >= JOURNAL)
            return NULL;
        size_t next = at[0] >= JOURNAL || (at[1] < JOURNAL && numbers[1] < numbers[0]) ? 1 : 0;
        if (numbers[next] != latest + 1)
            return "its journal is damaged: an entry is missing";
        if (!apply(rooms[next], at[next], order, kept))
            return "its journal has a change that no unit has";
    }
}

const char *journals_replay(struct store *store, const struct image_order *order, struct kept *kept)
{
    if (number_at(kept->history, 8) == 0)
        return NULL;
    for (size_t i = 0; i < JOURNALS; i++) {
        long have = journal_read(store, i);
        if (have < 0)
            return errno == ENOENT ? "its journal is missing" : "its journal cannot be read";
        if (!is_whole(i, have))
            return "its journal is not whole";
    }
    return merged(order, kept);
}
