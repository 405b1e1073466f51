#include "capture.h"

#include <errno.h>
#include <fcntl.h>
#include <string.h>
#include <time.h>
#include <unistd.h>

#include "image.h"
#include "osturdam.h"
#include "say.h"

enum {
    SERIAL_LINE = 250, /* the link type */
    SERIAL_HEAD = 12,  /* before the characters: seconds, microseconds, who sends, the line's signals, 0 */
    MASTER = 1,
    REMOTE = 2,
    BLOCK_HEAD = 28, /* of a packet: type, length, interface, time, lengths as captured and as it was */
    BLOCK_MOST = BLOCK_HEAD + SERIAL_HEAD + OSTURDAM_REPLY + 3 + 4
};

static struct place at;
static int into = -1;

static void put(const uint8_t *chars, size_t many)
{
    if (put_chars(into, (const char *)chars, many) == many)
        return;
    complain(&at, "the capture ends: %s", errno == EAGAIN ? "nobody reads it" : strerror(errno));
    close(into);
    into = -1;
}

bool capture_open(const char *path)
{
    uint8_t head[28 + 20];
    if (!path)
        return true;
    at.name = path;
    into = open(path, O_WRONLY | O_APPEND | O_CREAT | O_CLOEXEC, 0644);
    if (into < 0) {
        complain(&at, "%s", strerror(errno));
        return false;
    }
    /* a section of version 1.0 and of any length, then its one interface, of any packet length */
    uint8_t *to = put_number(put_number(head, 0x0A0D0D0A, 4), 28, 4);
    to = put_number(put_number(to, 0x1A2B3C4D, 4), 1, 4);
    to = put_number(put_number(to, UINT64_MAX, 8), 28, 4);
    to = put_number(put_number(to, 1, 4), 20, 4);
    put_number(put_number(put_number(to, SERIAL_LINE, 4), 0, 4), 20, 4);
    put(head, sizeof head);
    return true;
}

static void put_high_first(uint8_t *to, uint32_t number)
{
    for (size_t i = 0; i < 4; i++)
        to[i] = (uint8_t)(number >> (24 - 8 * i));
}

static void packet(uint8_t sender, const uint8_t *chars, size_t many)
{
    uint8_t block[BLOCK_MOST] = {0};
    struct timespec now;
    if (into < 0)
        return;
    clock_gettime(CLOCK_REALTIME, &now);
    uint64_t micro = (uint64_t)now.tv_sec * 1000000 + (uint64_t)now.tv_nsec / 1000;
    size_t data = SERIAL_HEAD + many, whole = BLOCK_HEAD + (data + 3) / 4 * 4 + 4;
    uint8_t *to = put_number(put_number(put_number(block, 6, 4), whole, 4), 0, 4);
    to = put_number(put_number(to, micro >> 32, 4), micro, 4);
    to = put_number(put_number(to, data, 4), data, 4);
    put_high_first(to, (uint32_t)now.tv_sec);
    put_high_first(to + 4, (uint32_t)(micro % 1000000));
    to[8] = sender;
    memcpy(to + SERIAL_HEAD, chars, many);
    put_number(block + whole - 4, whole, 4);
    put(block, whole);
}

void capture_heard(const uint8_t *chars, size_t many)
{
    packet(MASTER, chars, many);
}

void capture_sent(const uint8_t *chars, size_t many)
{
    packet(REMOTE, chars, many);
}
