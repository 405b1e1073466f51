#include "state.h"

#include <errno.h>
#include <fcntl.h>
#include <libgen.h>
#include <stdio.h>
#include <stdlib.h>
#include <string.h>
#include <sys/file.h>
#include <sys/stat.h>
#include <unistd.h>

#include "osturdam.h"
#include "say.h"

/* "POLL", version, whether an answer is waited for, the memory, the length of the records, the check of all before it. */
enum {
    VERSION_AT = 4,
    WAITS_AT,
    MEMORY_AT,
    LENGTH_AT = MEMORY_AT + OSTURDAM_POLL_MEMORY,
    CHECK_AT = LENGTH_AT + 8,
    STATE_CHARS = CHECK_AT + 2
};

static bool failed(const char *path, const char *what)
{
    complain(&(struct place){path, 0}, "%s", what);
    return false;
}

static void lay(uint8_t chars[STATE_CHARS], const struct state *s, const struct osturdam_poll *poll)
{
    memcpy(chars, "POLL", VERSION_AT);
    chars[VERSION_AT] = STATE_VERSION;
    chars[WAITS_AT] = s->waits;
    memcpy(chars + MEMORY_AT, poll->chars, OSTURDAM_POLL_MEMORY);
    for (int i = 0; i < 8; i++)
        chars[LENGTH_AT + i] = (uint8_t)((uint64_t)s->length >> 8 * i);
    osturdam_word_to(chars + CHECK_AT, osturdam_check(0, chars, CHECK_AT));
}

static void take(struct state *s, struct osturdam_poll *poll, const uint8_t chars[STATE_CHARS])
{
    uint64_t length = 0;
    memcpy(poll->chars, chars + MEMORY_AT, OSTURDAM_POLL_MEMORY);
    for (int i = 0; i < 8; i++)
        length |= (uint64_t)chars[LENGTH_AT + i] << 8 * i;
    s->length = (int64_t)length;
    s->waits = chars[WAITS_AT] != 0;
}

/* Whether it is memory of a master: that refuses an empty reply as not whole, any other as out of range. */
static bool in_range(struct osturdam_poll poll)
{
    uint8_t room[OSTURDAM_POLL_ROOM], kept[2];
    return osturdam_poll_read(poll.chars, NULL, 0, room, sizeof room, kept) == OSTURDAM_READ_NOT_WHOLE;
}

/* What was read from FILE is a state of this master and unit. */
static bool understood(struct state *s, const uint8_t *chars, ssize_t many, struct osturdam_poll *poll, uint16_t address)
{
    if (many <= VERSION_AT || memcmp(chars, "POLL", VERSION_AT) != 0)
        return failed(s->path, "is no state of poll2179");
    if (chars[VERSION_AT] != STATE_VERSION) {
        complain(&(struct place){s->path, 0}, "is of version %u; this program knows version %d", chars[VERSION_AT], STATE_VERSION);
        return false;
    }
    if (many != STATE_CHARS || osturdam_check(0, chars, STATE_CHARS) != 0)
        return failed(s->path, "is damaged");
    take(s, poll, chars);
    uint16_t is = osturdam_word_at(poll->chars);
    if (s->length < 0 || !in_range(*poll))
        return failed(s->path, "is damaged");
    if (is != address)
        complain(&(struct place){s->path, 0}, "is of master %u and unit %u", is / 2048, is % 2048);
    return is == address;
}

/* A link is followed once, so that both names are one state and one lock. What is no plain file is refused. */
static bool resolved(struct state *s, const char *path)
{
    struct stat found;
    char *whole = lstat(path, &found) == 0 ? realpath(path, NULL) : strdup(path);
    const char *why = !whole ? strerror(errno) : strlen(whole) < sizeof s->path ? NULL : "is too long a name";
    if (!why)
        strcpy(s->path, whole);
    free(whole);
    if (why)
        return failed(path, why);
    return stat(s->path, &found) != 0 || S_ISREG(found.st_mode) || failed(path, "is no plain file");
}

/* One program at a time, by the records' lock: a second would acknowledge what this one has not received. */
static bool open_records(struct state *s)
{
    int many = snprintf(s->records_path, sizeof s->records_path, "%s.records", s->path);
    if (many >= (int)sizeof s->records_path)
        return failed(s->path, "is too long a name");
    struct stat found;
    s->records = open(s->records_path, O_RDWR | O_CREAT | O_APPEND | O_NOFOLLOW | O_NONBLOCK | O_CLOEXEC, 0666);
    if (s->records < 0 || fstat(s->records, &found) != 0)
        return failed(s->records_path, strerror(errno));
    if (!S_ISREG(found.st_mode))
        return failed(s->records_path, "is no plain file");
    return flock(s->records, LOCK_EX | LOCK_NB) == 0 || failed(s->records_path, "another program has it");
}

/* What was not taken yet goes; where less is there than was, records were lost by other hands. */
static bool cut_records(const struct state *s)
{
    off_t is = lseek(s->records, 0, SEEK_END);
    if (is < 0 || is < s->length)
        return failed(s->records_path, is < 0 ? strerror(errno) : "is shorter than it was: records are missing that the unit has given up");
    return ftruncate(s->records, s->length) == 0 || failed(s->records_path, strerror(errno));
}

static bool begin(struct state *s, struct osturdam_poll *poll, uint16_t address)
{
    if (lseek(s->records, 0, SEEK_END) != 0)
        return failed(s->records_path, "has records, but there is no state that goes with it");
    osturdam_poll_begin(poll->chars, address);
    complain(&(struct place){s->path, 0},
             "a new master begins: its first history request acknowledges what the unit last sent to this master");
    return true;
}

bool state_open(struct state *s, const char *path, struct osturdam_poll *poll, uint16_t address)
{
    uint8_t chars[STATE_CHARS + 1];
    s->kept = true;
    if (!resolved(s, path) || !open_records(s))
        return false;
    int file = open(s->path, O_RDONLY | O_CLOEXEC);
    if (file < 0 && errno == ENOENT)
        return begin(s, poll, address);
    ssize_t many = file < 0 ? -1 : read(file, chars, sizeof chars);
    if (many < 0)
        failed(path, strerror(errno));
    if (file >= 0)
        close(file);
    return many >= 0 && understood(s, chars, many, poll, address) && cut_records(s);
}

bool state_add(struct state *s, const char *line)
{
    size_t many = strlen(line);
    ssize_t went = write(s->records, line, many);
    if (went != (ssize_t)many)
        return failed(s->records_path, went < 0 ? strerror(errno) : "the disk is full");
    s->length += (int64_t)many;
    return true;
}

/* A name stands on the disk once its folder does. */
static bool sync_folder(const char *path)
{
    char copy[STATE_PATH];
    snprintf(copy, sizeof copy, "%s", path);
    int folder = open(dirname(copy), O_RDONLY | O_DIRECTORY | O_CLOEXEC);
    bool done = folder >= 0 && fsync(folder) == 0;
    if (folder >= 0)
        close(folder);
    return done;
}

static bool replace(const char *path, const uint8_t *chars, size_t many)
{
    char beside[STATE_PATH];
    if (snprintf(beside, sizeof beside, "%s.new", path) >= (int)sizeof beside)
        return false;
    int file = open(beside, O_WRONLY | O_CREAT | O_TRUNC | O_NOFOLLOW | O_CLOEXEC, 0666);
    if (file < 0)
        return false;
    bool written = write(file, chars, many) == (ssize_t)many && fsync(file) == 0;
    return close(file) == 0 && written && rename(beside, path) == 0 && sync_folder(path);
}

bool state_save(struct state *s, const struct osturdam_poll *poll, bool waits)
{
    uint8_t chars[STATE_CHARS];
    if (!s->kept)
        return true;
    s->waits = waits;
    lay(chars, s, poll);
    return (fdatasync(s->records) == 0 && replace(s->path, chars, sizeof chars)) || failed(s->path, strerror(errno));
}
