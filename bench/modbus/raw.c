// libmodbus's check word has no name of its own to count. A raw request copies its n characters and puts check characters behind them:
// what it grows by from one length to another is the copy and the check of the characters between.
#include "cycles.h"
#include "modbus/line.h"

#include <stdlib.h>
#include <string.h>

enum { LEAST = 3, MOST = MODBUS_MAX_PDU_LENGTH + 1 };

__attribute__((noinline)) int raw_counted(modbus_t *m, const uint8_t *s, int n)
{
    return modbus_send_raw_request(m, s, n);
}

int main(int argc, char **argv)
{
    uint8_t s[MODBUS_RTU_MAX_ADU_LENGTH] = {SLAVE, MODBUS_FC_WRITE_MULTIPLE_REGISTERS};
    int n = argc == 2 ? atoi(argv[1]) : 0;
    must(n >= LEAST && n <= MOST, "usage: raw CHARACTERS");
    for (int i = 2; i < n; i++)
        s[i] = 37 * i;
    modbus_t *m = on_line();
    int sent = raw_counted(m, s, n);
    close_frame(s, n);
    must(sent == n + 2 && put == (size_t)sent && memcmp(written, s, sent) == 0, "another frame than its characters");
    if (cycles_asked()) {
        silent = 1;
        TELL_CYCLES("raw_counted", , raw_counted(m, s, n));
    }
    return 0;
}
