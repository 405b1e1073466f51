// The line that is not there.
#include "modbus/line.h"

#include <stdio.h>
#include <stdlib.h>
#include <sys/select.h>
#include <unistd.h>

enum { LINE = 3 };

uint8_t request[REQUEST], written[MODBUS_RTU_MAX_ADU_LENGTH];
size_t taken, put;
int silent;

int select(int n, fd_set *reads, fd_set *writes, fd_set *others, struct timeval *most)
{
    (void)n, (void)reads, (void)writes, (void)others, (void)most;
    return 1;
}

// Volatile, so that the compiler does not call memcpy.
static void copy(volatile uint8_t *to, const uint8_t *from, size_t n)
{
    for (size_t i = 0; i < n; i++)
        to[i] = from[i];
}

ssize_t read(int line, void *to, size_t n)
{
    (void)line;
    copy(to, request + taken, n);
    taken += n;
    return n;
}

ssize_t write(int line, const void *from, size_t n)
{
    (void)line;
    if (!silent)
        copy(written, from, n);
    put = n;
    return n;
}

modbus_t *on_line(void)
{
    modbus_t *m = modbus_new_rtu("none", 9600, 'N', 8, 1);
    must(m && modbus_set_slave(m, SLAVE) == 0 && modbus_set_socket(m, LINE) == 0, "no context");
    return m;
}

void close_frame(uint8_t *s, size_t n)
{
    uint16_t check = 0xFFFF;
    for (size_t i = 0; i < n; i++) {
        check ^= s[i];
        for (int bit = 0; bit < 8; bit++)
            check = (check >> 1) ^ ((check & 1) * 0xA001);
    }
    s[n] = check;
    s[n + 1] = check >> 8;
}

void must(int holds, const char *what)
{
    if (!holds) {
        fprintf(stderr, "libmodbus: %s\n", what);
        exit(1);
    }
}
