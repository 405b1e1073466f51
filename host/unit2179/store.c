#include "store.h"

#include <errno.h>
#include <fcntl.h>
#include <libgen.h>
#include <limits.h>
#include <stdio.h>
#include <stdlib.h>
#include <string.h>
#include <sys/stat.h>
#include <unistd.h>

#include "older.h"

static char *joined(const char *path, const char *ending)
{
    size_t room = strlen(path) + strlen(ending) + 1;
    char *made = malloc(room);
    if (made)
        snprintf(made, room, "%s%s", path, ending);
    return made;
}

/* The path of the state file itself: a link is followed once, at the start, so that a rename never replaces it. NULL: told. */
static char *followed(const struct place *at)
{
    struct stat found;
    if (lstat(at->name, &found) != 0 && errno == ENOENT)
        return joined(at->name, "");
    char *path = realpath(at->name, NULL);
    if (!path || stat(path, &found) != 0) {
        complain(at, "cannot be used: %s", strerror(errno));
        free(path);
        return NULL;
    }
    if (!S_ISREG(found.st_mode)) {
        complain(at, "cannot be used: it is no plain file");
        free(path);
        return NULL;
    }
    return path;
}

/* The lock is a file of its own, since the state file is another one after each rename. It ends with the process. */
static bool lock(struct store *store)
{
    char *name = joined(store->path, ".lock");
    struct flock whole = {.l_type = F_WRLCK, .l_whence = SEEK_SET};
    store->lock = name ? open(name, O_RDWR | O_CREAT | O_CLOEXEC | O_NOFOLLOW, 0644) : -1;
    free(name);
    if (store->lock < 0) {
        complain(&store->at, "cannot be locked: %s", strerror(errno));
        return false;
    }
    if (fcntl(store->lock, F_SETLK, &whole) != 0) {
        complain(&store->at, "another process keeps its state there");
        return false;
    }
    return true;
}

bool store_open(struct store *store, const char *path)
{
    *store = (struct store){.at = {path, 0}, .lock = -1, .journals = {-1, -1}, .path = followed(&(struct place){path, 0})};
    if (!store->path)
        return false;
    store->fresh = joined(store->path, ".new");
    store->names[0] = joined(store->path, ".journal-a");
    store->names[1] = joined(store->path, ".journal-b");
    char *copy = joined(store->path, ""); /* dirname may change what it is given, and answer a string of its own */
    store->folder = copy ? joined(dirname(copy), "") : NULL;
    free(copy);
    if (!store->fresh || !store->names[0] || !store->names[1] || !store->folder) {
        complain(&store->at, "%s", strerror(errno));
        return false;
    }
    return lock(store);
}

void store_close(struct store *store)
{
    for (size_t i = 0; i < JOURNALS; i++) {
        if (store->journals[i] >= 0)
            close(store->journals[i]);
        free(store->names[i]);
    }
    if (store->lock >= 0)
        close(store->lock);
    free(store->path);
    free(store->fresh);
    free(store->folder);
}

long read_whole(int file, uint8_t *room, size_t most)
{
    size_t have = 0;
    while (have < most) {
        ssize_t more = read(file, room + have, most - have);
        if (more < 0 && errno == EINTR)
            continue;
        if (more <= 0)
            return more < 0 ? -1 : (long)have;
        have += (size_t)more;
    }
    return (long)have;
}

bool write_at(int file, size_t at, const uint8_t *chars, size_t many)
{
    while (many > 0) {
        ssize_t done = pwrite(file, chars, many, (off_t)at);
        if (done < 0 && errno != EINTR)
            return false;
        if (done > 0) {
            chars += done;
            at += (size_t)done;
            many -= (size_t)done;
        }
    }
    return true;
}

/* Entries are taken as the file before them has it; no event changes the configuration, by which records are found. */
static const char *replayed(struct store *store, const struct image_order *order, struct kept *kept)
{
    struct osturdam_config config = kept->all.unit.config;
    const char *wrong = journals_replay(store, order, kept);
    if (!wrong && memcmp(&config, &kept->all.unit.config, sizeof config) != 0)
        wrong = "its journal has a change that no unit has";
    return wrong;
}

/* Which files keep the oldest is for the configuration to say that is given now: any state goes on with that, and where it is new it is told. */
static void mark(const struct place *at, struct osturdam_config *kept, const struct osturdam_config *given)
{
    for (uint8_t file = 0; file < OSTURDAM_FILES; file++) {
        if (osturdam_has_file(given, file) && osturdam_keeps_oldest(kept, file) != osturdam_keeps_oldest(given, file))
            complain(at, "file %u keeps the %s from now on", file, osturdam_keeps_oldest(given, file) ? "oldest" : "newest");
    }
    memcpy(kept->oldest, given->oldest, sizeof kept->oldest);
}

bool store_load(struct store *store, struct kept *kept, bool *found)
{
    static uint8_t room[IMAGE_MOST];
    struct image_order order;
    struct osturdam_config given = kept->all.unit.config;
    struct osturdam_lent lent = osturdam_lend(&kept->all, &kept->all.unit.config);
    int file = open(store->path, O_RDONLY | O_CLOEXEC | O_NOFOLLOW);
    *found = file >= 0;
    if (file < 0 && errno == ENOENT)
        return true;
    long have = file < 0 ? -1 : read_whole(file, room, sizeof room);
    const char *wrong = have < 0 ? strerror(errno) : image_read(room, (size_t)have, kept, &order);
    if (file >= 0)
        close(file);
    if (!wrong)
        wrong = replayed(store, &order, kept);
    if (!wrong)
        older_bring(kept, order.version);
    if (!wrong)
        osturdam_go_on(&lent);
    if (!wrong && osturdam_wait(&lent, 0) == OSTURDAM_NOT_CONFIGURED)
        wrong = "it has a number that no unit keeps";
    if (wrong)
        complain(&store->at, "the state cannot be used: %s (--fresh begins anew and gives it up)", wrong);
    else
        mark(&store->at, &kept->all.unit.config, &given);
    return !wrong;
}

static bool synced(const char *path)
{
    int file = open(path, O_RDONLY | O_CLOEXEC);
    bool good = file >= 0 && fsync(file) == 0;
    if (file >= 0)
        close(file);
    return good;
}

/* Writes a file that is open, and closes it. */
static bool filled(int file, const uint8_t *image, size_t many)
{
    bool good = write_at(file, 0, image, many) && fsync(file) == 0;
    int error = errno;
    if (close(file) != 0 && good)
        return false;
    errno = error;
    return good;
}

/* The new file is on the disk before it takes the old one's name, and the name before the caller goes on. What a process that was killed
 * left half written is removed, and so is a link that someone laid there. */
bool store_whole(const struct store *store, const uint8_t *image, size_t many)
{
    if (unlink(store->fresh) != 0 && errno != ENOENT)
        return false;
    int file = open(store->fresh, O_WRONLY | O_CREAT | O_EXCL | O_CLOEXEC | O_NOFOLLOW, 0644);
    if (file < 0)
        return false;
    if (filled(file, image, many) && rename(store->fresh, store->path) == 0)
        return synced(store->folder);
    int error = errno;
    unlink(store->fresh); /* on a full disk it would take the last room */
    errno = error;
    return false;
}
