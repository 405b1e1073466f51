#define _DEFAULT_SOURCE /* speeds over 38400 */

#include "line.h"

#include <errno.h>
#include <fcntl.h>
#include <linux/serial.h>
#include <netdb.h>
#include <netinet/in.h>
#include <netinet/tcp.h>
#include <stdio.h>
#include <stdlib.h>
#include <string.h>
#include <sys/file.h>
#include <sys/ioctl.h>
#include <sys/socket.h>
#include <sys/stat.h>
#include <sys/sysmacros.h>
#include <termios.h>
#include <unistd.h>

#include "clock.h"
#include "say.h"
#include "serial.h"

enum { SEND_MS = 5000 }; /* a reply of 520 characters at 1200 baud takes 4,334 ms */

enum { PTY_FIRST = 136, PTY_LAST = 143 }; /* the system's numbers of pseudo-terminals among its devices */

struct pace line_pace(const struct serial *serial)
{
    int64_t second = (int64_t)1000 * NS_OF_MS;
    return (struct pace){(serial->parity == 'n' ? 10 : 11) * second / serial->baud, second / serial->baud};
}

static void line_empty(struct line *line, const char *name)
{
    snprintf(line->name, sizeof line->name, "%s", name);
    line->listener = line->held = -1;
    for (size_t i = 0; i < CHANNELS; i++)
        line->channels[i] = (struct channel){.file = -1};
}

static bool failed(const char *name, const char *what)
{
    complain(&(struct place){name, 0}, "%s: %s", what, strerror(errno));
    return false;
}

/* Two programs on one device would each hear a part: programs that lock it are kept out by that, others by the device itself. */
static bool take_alone(int file)
{
    return flock(file, LOCK_EX | LOCK_NB) == 0 && (!isatty(file) || ioctl(file, TIOCEXCL) == 0);
}

static bool key_sender(int file)
{
    struct serial_rs485 keyed = {.flags = SER_RS485_ENABLED | SER_RS485_RTS_ON_SEND};
    return ioctl(file, TIOCSRS485, &keyed) == 0;
}

/* A pseudo-terminal has a speed by name alone. */
static bool is_pseudo_terminal(int file)
{
    struct stat found;
    return fstat(file, &found) == 0 && major(found.st_rdev) >= PTY_FIRST && major(found.st_rdev) <= PTY_LAST;
}

bool line_open_serial(struct line *line, const char *device, const struct serial *serial)
{
    line_empty(line, device);
    int file = open(device, O_RDWR | O_NOCTTY | O_NONBLOCK | O_CLOEXEC);
    if (file < 0)
        return failed(device, errno == EBUSY ? "another program has it" : "cannot be opened");
    if (!take_alone(file))
        return failed(device, "another program has it");
    if (!serial_make_raw(file, serial->baud, serial->parity))
        return failed(device, "is no serial device");
    if (serial->rs485 && !key_sender(file))
        return failed(device, "does not key an RS-485 sender");
    tcflush(file, TCIFLUSH); /* what was sent before the unit was there is not heard */
    line->channels[0].file = file;
    if (!is_pseudo_terminal(file))
        line->channels[0].pace = line_pace(serial);
    return true;
}

bool line_open_pty(struct line *line)
{
    line_empty(line, "pseudo-terminal");
    int file = posix_openpt(O_RDWR | O_NOCTTY);
    if (file < 0 || grantpt(file) != 0 || unlockpt(file) != 0)
        return failed(line->name, "cannot be made");
    line_empty(line, ptsname(file));
    line->held = open(line->name, O_RDWR | O_NOCTTY | O_CLOEXEC);
    if (line->held < 0 || !serial_make_raw(line->held, 9600, 'n') || fcntl(file, F_SETFL, O_NONBLOCK) != 0)
        return failed(line->name, "cannot be opened");
    line->channels[0].file = file;
    return true;
}

/* Listens on the first address of a list on which that can be done. */
static int listen_on(const struct addrinfo *found)
{
    int yes = 1;
    for (; found; found = found->ai_next) {
        int file = socket(found->ai_family, SOCK_STREAM, 0);
        if (file >= 0 && setsockopt(file, SOL_SOCKET, SO_REUSEADDR, &yes, sizeof yes) == 0 &&
            bind(file, found->ai_addr, found->ai_addrlen) == 0 && listen(file, CHANNELS) == 0 && fcntl(file, F_SETFL, O_NONBLOCK) == 0 &&
            fcntl(file, F_SETFD, FD_CLOEXEC) == 0)
            return file;
        int error = errno;
        if (file >= 0)
            close(file);
        errno = error;
    }
    return -1;
}

/* The line's name is its address and port; one that every network can reach is told as such. */
static bool name_listener(struct line *line)
{
    struct sockaddr_storage at;
    socklen_t length = sizeof at;
    char address[INET6_ADDRSTRLEN], port[8];
    if (getsockname(line->listener, (struct sockaddr *)&at, &length) != 0 ||
        getnameinfo((struct sockaddr *)&at, length, address, sizeof address, port, sizeof port, NI_NUMERICHOST | NI_NUMERICSERV) != 0)
        return false;
    snprintf(line->name, sizeof line->name, at.ss_family == AF_INET6 ? "[%s]:%s" : "%s:%s", address, port);
    if (line->peers->many == 0 && (strcmp(address, "0.0.0.0") == 0 || strcmp(address, "::") == 0))
        complain(&(struct place){line->name, 0}, "whoever can reach this host can operate the unit (--peer says who may)");
    return true;
}

bool line_open_tcp(struct line *line, const char *address, const char *port, const struct peers *peers)
{
    const struct addrinfo wanted = {.ai_family = AF_UNSPEC, .ai_socktype = SOCK_STREAM, .ai_flags = AI_PASSIVE | AI_NUMERICSERV};
    struct addrinfo *found;
    line_empty(line, address);
    line->peers = peers;
    int wrong = getaddrinfo(address, port, &wanted, &found);
    if (wrong) {
        complain(&(struct place){address, 0}, "is no address: %s", gai_strerror(wrong));
        return false;
    }
    line->listener = listen_on(found);
    freeaddrinfo(found);
    return (line->listener >= 0 && name_listener(line)) || failed(address, "cannot be listened on");
}

static struct channel *free_channel(struct line *line)
{
    for (size_t i = 0; i < CHANNELS; i++) {
        if (line->channels[i].file < 0)
            return &line->channels[i];
    }
    return NULL;
}

bool line_is_full(const struct line *line)
{
    return !free_channel((struct line *)line);
}

/* A peer that has gone without a word is found in some 25 seconds, and what it has not read is not kept for it. */
static void watch_peer(int file)
{
    const struct {
        int level, name, value;
    } options[] = {{IPPROTO_TCP, TCP_NODELAY, 1},
                   {SOL_SOCKET, SO_KEEPALIVE, 1},
                   {IPPROTO_TCP, TCP_KEEPIDLE, 10},
                   {IPPROTO_TCP, TCP_KEEPINTVL, 5},
                   {IPPROTO_TCP, TCP_KEEPCNT, 3},
                   {IPPROTO_TCP, TCP_USER_TIMEOUT, 25000},
                   {SOL_SOCKET, SO_SNDBUF, 8 * OSTURDAM_REPLY}};
    for (size_t i = 0; i < sizeof options / sizeof *options; i++)
        setsockopt(file, options[i].level, options[i].name, &options[i].value, sizeof options[i].value);
}

bool line_accept(struct line *line, int64_t now)
{
    struct sockaddr_storage from;
    socklen_t length = sizeof from;
    int file = accept(line->listener, (struct sockaddr *)&from, &length);
    struct channel *channel = free_channel(line);
    if (file < 0)
        return false;
    bool allowed = peers_allow(line->peers, (struct sockaddr *)&from);
    if (!allowed)
        complain(&(struct place){line->name, 0}, "a connection was turned away: its address is not among those that may come");
    if (!channel || !allowed) {
        close(file);
        return true;
    }
    fcntl(file, F_SETFL, O_NONBLOCK);
    fcntl(file, F_SETFD, FD_CLOEXEC);
    watch_peer(file);
    *channel = (struct channel){.file = file, .active = now};
    return true;
}

void channel_read(struct channel *channel)
{
    uint8_t come[1024];
    ssize_t many = read(channel->file, come, sizeof come);
    if (many > 0) {
        channel->active = clock_now();
        stretch_take(&channel->coming, come, (size_t)many, channel->active, &channel->pace);
    } else if (many == 0 || (errno != EAGAIN && errno != EINTR)) {
        channel->ended = true;
    }
}

void channel_mark(struct channel *channel, int64_t mark)
{
    if (channel->marked.heard > 0)
        return;
    channel->marked = channel->coming;
    channel->mark = mark;
    channel->coming.heard = 0;
}

bool channel_waits(const struct channel *channel)
{
    int many = 0;
    return channel->coming.heard > 0 || channel->marked.heard > 0 || (ioctl(channel->file, FIONREAD, &many) == 0 && many > 0);
}

bool channel_send(struct channel *channel, const uint8_t *reply, size_t many)
{
    if (channel->left > 0)
        return false;
    memcpy(channel->unsent, reply, many);
    channel->left = many;
    channel->until = clock_now() + (int64_t)SEND_MS * NS_OF_MS;
    return channel_flush(channel);
}

bool channel_flush(struct channel *channel)
{
    ssize_t done = write(channel->file, channel->unsent, channel->left);
    if (done < 0 && errno != EAGAIN && errno != EINTR)
        return false;
    if (done > 0) {
        channel->left -= (size_t)done;
        memmove(channel->unsent, channel->unsent + done, channel->left);
    }
    return channel->left == 0 || clock_now() < channel->until;
}

void channel_close(struct channel *channel)
{
    close(channel->file);
    *channel = (struct channel){.file = -1};
}
