/* A disk that is slow, full or broken, for tests: linked beside the live unit, whose own code has no word of it.
 *
 * The file that FAULTS names has lines, which are read at each call and may change while the unit runs:
 *   sync MS...      the first synchronisation of a file from now takes so many milliseconds more, the second ...; the last figure stays
 *   fail CALL ERROR each such call (sync, write, rename) of a file fails with that error number
 *   short MANY      files take so many characters more, and then the disk is full
 * Lines, terminals and connections are let alone: only what is written to regular files is. */
#include <errno.h>
#include <fcntl.h>
#include <stdatomic.h>
#include <stdbool.h>
#include <stdio.h>
#include <stdlib.h>
#include <string.h>
#include <sys/stat.h>
#include <time.h>
#include <unistd.h>

int __real_fsync(int file);
int __real_fdatasync(int file);
ssize_t __real_write(int file, const void *chars, size_t many);
ssize_t __real_pwrite(int file, const void *chars, size_t many, off_t at);
int __real_rename(const char *from, const char *to);
int __wrap_fsync(int file);
int __wrap_fdatasync(int file);
ssize_t __wrap_write(int file, const void *chars, size_t many);
ssize_t __wrap_pwrite(int file, const void *chars, size_t many, off_t at);
int __wrap_rename(const char *from, const char *to);

static struct timespec since; /* when the file of faults was last changed */
static atomic_ulong calls;    /* synchronisations since then */
static atomic_ulong written;  /* characters since then */

static bool is_regular(int file)
{
    struct stat found;
    return fstat(file, &found) == 0 && S_ISREG(found.st_mode);
}

/* The faults as they are now; none where there is no file of them. */
static const char *faults(char text[1024])
{
    struct stat found;
    const char *name = getenv("FAULTS");
    int file = name ? open(name, O_RDONLY | O_CLOEXEC) : -1;
    text[0] = '\n';
    ssize_t many = file < 0 ? 0 : read(file, text + 1, 1022);
    text[1 + (many > 0 ? many : 0)] = '\0';
    if (file >= 0 && fstat(file, &found) == 0 && memcmp(&since, &found.st_mtim, sizeof since) != 0) {
        since = found.st_mtim;
        calls = written = 0;
    }
    if (file >= 0)
        close(file);
    return text;
}

/* What stands behind the words that a line begins with. */
static const char *behind(const char *text, const char *words)
{
    char line[64];
    snprintf(line, sizeof line, "\n%s ", words);
    const char *found = strstr(text, line);
    return found ? found + strlen(line) : NULL;
}

static int error_of(const char *call)
{
    char text[1024], words[32];
    snprintf(words, sizeof words, "fail %s", call);
    const char *error = behind(faults(text), words);
    return error ? atoi(error) : 0;
}

static void wait_for_disk(void)
{
    char text[1024];
    const char *figures = behind(faults(text), "sync");
    if (!figures)
        return;
    unsigned long turn = calls++;
    long ms = 0;
    char *end = (char *)figures;
    for (unsigned long i = 0; i <= turn && *end && *end != '\n'; i++)
        ms = strtol(end, &end, 10);
    struct timespec wait = {ms / 1000, ms % 1000 * 1000000};
    while (nanosleep(&wait, &wait) != 0 && errno == EINTR)
        ;
}

static int synced(int file, int (*real)(int))
{
    if (!is_regular(file))
        return real(file);
    wait_for_disk();
    int error = error_of("sync");
    if (error == 0)
        return real(file);
    errno = error;
    return -1;
}

int __wrap_fsync(int file)
{
    return synced(file, __real_fsync);
}

int __wrap_fdatasync(int file)
{
    return synced(file, __real_fdatasync);
}

/* How many characters of a write the disk takes. */
static size_t taken(int file, size_t many)
{
    char text[1024];
    if (!is_regular(file))
        return many;
    const char *room = behind(faults(text), "short");
    if (!room)
        return error_of("write") ? 0 : many;
    unsigned long left = strtoul(room, NULL, 10), before = written;
    size_t most = before >= left ? 0 : left - before < many ? left - before : many;
    written += most;
    return most;
}

static ssize_t failed(void)
{
    int error = error_of("write");
    errno = error ? error : ENOSPC;
    return -1;
}

ssize_t __wrap_write(int file, const void *chars, size_t many)
{
    size_t most = taken(file, many);
    return most > 0 || many == 0 ? __real_write(file, chars, most) : failed();
}

ssize_t __wrap_pwrite(int file, const void *chars, size_t many, off_t at)
{
    size_t most = taken(file, many);
    return most > 0 || many == 0 ? __real_pwrite(file, chars, most, at) : failed();
}

int __wrap_rename(const char *from, const char *to)
{
    int error = error_of("rename");
    if (error == 0)
        return __real_rename(from, to);
    errno = error;
    return -1;
}
