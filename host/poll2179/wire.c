#define _DEFAULT_SOURCE /* speeds over 38400 */

#include "wire.h"

#include <errno.h>
#include <fcntl.h>
#include <netdb.h>
#include <netinet/in.h>
#include <netinet/tcp.h>
#include <poll.h>
#include <stdio.h>
#include <string.h>
#include <sys/file.h>
#include <sys/socket.h>
#include <termios.h>
#include <unistd.h>

#include "clock.h"
#include "osturdam.h"
#include "say.h"
#include "serial.h"
#include "text.h"

enum { CONNECT_MS = 5000, SEND_MS = 5000, FLOOD_MS = 2000, ADDRESS_MOST = 256 };

static bool failed(const char *place, const char *what)
{
    complain(&(struct place){place, 0}, "%s", what);
    return false;
}

static bool open_device(struct wire *wire, const char *path, uint32_t baud, char parity)
{
    wire->file = open(path, O_RDWR | O_NOCTTY | O_NONBLOCK | O_CLOEXEC);
    if (wire->file < 0)
        return failed(path, strerror(errno));
    if (flock(wire->file, LOCK_EX | LOCK_NB) != 0)
        return failed(path, "another program has it");
    if (!serial_make_raw(wire->file, baud, parity))
        return failed(path, "is no serial device");
    wire->device = true;
    return tcflush(wire->file, TCIFLUSH) == 0 || failed(path, strerror(errno));
}

/* Connects within its time. */
static bool connected(int file, const struct addrinfo *to)
{
    struct pollfd done = {.fd = file, .events = POLLOUT};
    int error = 0;
    socklen_t length = sizeof error;
    if (connect(file, to->ai_addr, to->ai_addrlen) == 0)
        return true;
    if (errno != EINPROGRESS)
        return false;
    if (poll(&done, 1, CONNECT_MS) != 1)
        error = ETIMEDOUT;
    else if (getsockopt(file, SOL_SOCKET, SO_ERROR, &error, &length) != 0)
        return false;
    errno = error;
    return error == 0;
}

static int connect_to(const struct addrinfo *found)
{
    int yes = 1;
    for (; found; found = found->ai_next) {
        int file = socket(found->ai_family, SOCK_STREAM | SOCK_NONBLOCK | SOCK_CLOEXEC, 0);
        if (file >= 0 && connected(file, found)) {
            setsockopt(file, IPPROTO_TCP, TCP_NODELAY, &yes, sizeof yes);
            return file;
        }
        int error = errno;
        if (file >= 0)
            close(file);
        errno = error;
    }
    return -1;
}

/* ADDRESS:PORT, an address of IPv6 in brackets. */
static bool open_tcp(struct wire *wire, const char *place)
{
    const struct addrinfo wanted = {.ai_family = AF_UNSPEC, .ai_socktype = SOCK_STREAM, .ai_flags = AI_NUMERICSERV};
    struct addrinfo *found;
    char address[ADDRESS_MOST];
    const char *colon = strrchr(place, ':');
    size_t length = colon ? (size_t)(colon - place) : 0;
    uint32_t port;
    bool numbered = length > 0 && strspn(colon + 1, "0123456789") == strlen(colon + 1) && number_of(colon + 1, UINT16_MAX, &port);
    bool bracketed = length > 2 && place[0] == '[' && place[length - 1] == ']';
    if (!numbered || length >= sizeof address)
        return failed(place, "is no device, and no ADDRESS:PORT");
    snprintf(address, sizeof address, "%.*s", (int)length - 2 * bracketed, place + bracketed);
    int wrong = getaddrinfo(address, colon + 1, &wanted, &found);
    if (wrong)
        return failed(place, gai_strerror(wrong));
    wire->file = connect_to(found);
    freeaddrinfo(found);
    return wire->file >= 0 || failed(place, strerror(errno));
}

bool wire_open(struct wire *wire, const char *place, uint32_t baud, char parity)
{
    wire->place = place;
    return access(place, F_OK) == 0 ? open_device(wire, place, baud, parity) : open_tcp(wire, place);
}

/* More characters, -1 where the line has ended, and 0 where none came before a moment. */
static long more(const struct wire *wire, uint8_t *chars, size_t room, int64_t until)
{
    struct pollfd ready = {.fd = wire->file, .events = POLLIN};
    int64_t left = until - clock_now();
    int came = poll(&ready, 1, left > 0 ? (int)((left + NS_OF_MS - 1) / NS_OF_MS) : 0);
    if (came == 0 || (came < 0 && errno == EINTR))
        return 0;
    ssize_t many = came < 0 ? -1 : read(wire->file, chars, room);
    if (many < 0 && (errno == EAGAIN || errno == EINTR))
        return 0;
    return many > 0 ? (long)many : -1;
}

bool wire_drain(const struct wire *wire, uint32_t ms)
{
    uint8_t chars[OSTURDAM_REPLY];
    int64_t until = clock_now() + (int64_t)ms * NS_OF_MS, now = until;
    long many = 1;
    while (many > 0 || now < until) {
        many = more(wire, chars, sizeof chars, until);
        now = clock_now();
        if (many < 0)
            return failed(wire->place, "the line has ended");
        if (now > until + (int64_t)FLOOD_MS * NS_OF_MS)
            return failed(wire->place, "the line does not fall silent");
    }
    return true;
}

bool wire_send(const struct wire *wire, const uint8_t *chars, size_t many)
{
    struct pollfd ready = {.fd = wire->file, .events = POLLOUT};
    size_t sent = 0;
    while (sent < many) {
        int room = poll(&ready, 1, SEND_MS);
        if (room == 0)
            return failed(wire->place, "the line takes no characters");
        ssize_t went = room < 0 ? -1 : write(wire->file, chars + sent, many - sent);
        if (went < 0 && errno != EINTR && errno != EAGAIN)
            return failed(wire->place, strerror(errno));
        sent += went > 0 ? (size_t)went : 0;
    }
    return true;
}

bool wire_sent(const struct wire *wire)
{
    int done = wire->device ? tcdrain(wire->file) : 0;
    while (done != 0 && errno == EINTR)
        done = tcdrain(wire->file);
    return done == 0 || failed(wire->place, strerror(errno));
}

enum { HEAD = 7 };

/* How many characters a reply has by its count, as far as there is room; of its head before that has come. */
static size_t expected(const uint8_t *chars, size_t heard, size_t room)
{
    size_t whole = heard < HEAD ? HEAD : 9u + osturdam_word_at(chars + HEAD - 2);
    return whole < room ? whole : room;
}

long wire_receive(const struct wire *wire, uint8_t *chars, size_t room, int64_t until, uint32_t gap)
{
    size_t heard = 0;
    while (heard < expected(chars, heard, room) && clock_now() < until) {
        long many = more(wire, chars + heard, expected(chars, heard, room) - heard, until);
        if (many < 0 && heard == 0)
            failed(wire->place, "the line has ended");
        if (many < 0)
            return heard > 0 ? (long)heard : -1;
        if (many > 0)
            until = clock_now() + (int64_t)gap * NS_OF_MS;
        heard += (size_t)many;
    }
    return (long)heard;
}
