#define _DEFAULT_SOURCE /* speeds over 38400 */

#include "serial.h"

#include <stddef.h>
#include <termios.h>

static const struct {
    uint32_t baud;
    speed_t speed;
} speeds[] = {{300, B300},   {600, B600},     {1200, B1200},   {2400, B2400},   {4800, B4800},
              {9600, B9600}, {19200, B19200}, {38400, B38400}, {57600, B57600}, {115200, B115200}};

enum { SPEEDS = sizeof speeds / sizeof *speeds };

static size_t speed_of(uint32_t baud)
{
    size_t i = 0;
    while (i < SPEEDS && speeds[i].baud != baud)
        i++;
    return i;
}

bool serial_has_baud(uint32_t baud)
{
    return speed_of(baud) < SPEEDS;
}

bool serial_make_raw(int file, uint32_t baud, char parity)
{
    struct termios t;
    if (!serial_has_baud(baud) || tcgetattr(file, &t) != 0)
        return false;
    speed_t speed = speeds[speed_of(baud)].speed;
    t.c_oflag = t.c_lflag = 0;
    t.c_iflag = parity == 'n' ? 0 : INPCK | IGNPAR;
    t.c_cflag = CS8 | CREAD | CLOCAL | (parity == 'n' ? 0 : PARENB) | (parity == 'o' ? PARODD : 0);
    t.c_cc[VMIN] = 1;
    t.c_cc[VTIME] = 0;
    return cfsetispeed(&t, speed) == 0 && cfsetospeed(&t, speed) == 0 && tcsetattr(file, TCSANOW, &t) == 0;
}
