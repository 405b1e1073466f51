#include "say.h"

#include <errno.h>
#include <fcntl.h>
#include <poll.h>
#include <stdarg.h>
#include <stdio.h>
#include <string.h>
#include <unistd.h>

enum { SAID = 1024 };

bool standard_files(void)
{
    int file = open("/dev/null", O_RDONLY);
    while (file >= 0 && file <= STDERR_FILENO)
        file = open("/dev/null", O_RDONLY);
    return file >= 0 && close(file) == 0;
}

size_t put_chars(int file, const char *chars, size_t many)
{
    /* a pipe that can be written takes 4,096 characters at least: no line is longer, so none waits for a reader */
    struct pollfd room = {.fd = file, .events = POLLOUT};
    size_t done = 0;
    while (done < many) {
        if (poll(&room, 1, 0) == 0) {
            errno = EAGAIN;
            return done;
        }
        ssize_t more = write(file, chars + done, many - done);
        if (more < 0 && errno != EINTR)
            return done;
        done += more > 0 ? (size_t)more : 0;
    }
    return done;
}

void complain(const struct place *at, const char *format, ...)
{
    char text[SAID];
    va_list given;
    int begun = at->line > 0 ? snprintf(text, SAID, "%s:%u: ", at->name, at->line) : snprintf(text, SAID, "%s: ", at->name);
    size_t many = begun < SAID ? (size_t)begun : SAID - 1;
    va_start(given, format);
    int rest = vsnprintf(text + many, SAID - many, format, given);
    va_end(given);
    many += rest > 0 ? (size_t)rest : 0;
    many = many < SAID ? many : SAID - 1;
    text[many] = '\n';
    put_chars(STDERR_FILENO, text, many + 1);
}
