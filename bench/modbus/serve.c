// libmodbus's server side of one read of n holding registers, on an RTU context: from a request in hand to the reply handed over.
#include "cycles.h"
#include "modbus/line.h"

#include <stdlib.h>
#include <string.h>

enum { MOST = 125 };

// Both are counted over one call in a run, as the line is.
__attribute__((noinline)) int served_counted(modbus_t *m, uint8_t *heard, modbus_mapping_t *registers)
{
    int n = modbus_receive(m, heard);
    return modbus_reply(m, heard, n, registers);
}

// The reply alone, to a request that nothing has checked.
__attribute__((noinline)) int replied_counted(modbus_t *m, modbus_mapping_t *registers)
{
    return modbus_reply(m, request, REQUEST, registers);
}

static void must_be_right(int sent, const uint16_t *words, int n)
{
    uint8_t wanted[MODBUS_RTU_MAX_ADU_LENGTH] = {SLAVE, MODBUS_FC_READ_HOLDING_REGISTERS, 2 * n};
    for (int i = 0; i < n; i++) {
        wanted[3 + 2 * i] = words[i] >> 8;
        wanted[4 + 2 * i] = words[i];
    }
    close_frame(wanted, 3 + 2 * n);
    must(sent == 5 + 2 * n && put == (size_t)sent && memcmp(written, wanted, sent) == 0, "another reply than the registers");
}

// The words are those of as many analogs in bench/setting.c.
int main(int argc, char **argv)
{
    int n = argc == 3 ? atoi(argv[2]) : 0, whole = argc == 3 && strcmp(argv[1], "served") == 0;
    must(n >= 1 && n <= MOST && (whole || strcmp(argv[1], "replied") == 0), "usage: serve served | replied REGISTERS");
    modbus_t *m = on_line();
    modbus_mapping_t *registers = modbus_mapping_new(0, 0, MOST, 0);
    must(registers != NULL, "no registers");
    for (int i = 0; i < MOST; i++)
        registers->tab_registers[i] = 257 * (0x80 + i) + 3;
    memcpy(request, (uint8_t[]){SLAVE, MODBUS_FC_READ_HOLDING_REGISTERS, 0, 0, 0, n}, REQUEST - 2);
    close_frame(request, REQUEST - 2);

    uint8_t heard[MODBUS_RTU_MAX_ADU_LENGTH];
    must_be_right(whole ? served_counted(m, heard, registers) : replied_counted(m, registers), registers->tab_registers, n);
    must(!whole || taken == REQUEST, "not the whole request was read");
    if (cycles_asked()) {
        silent = 1;
        if (whole)
            TELL_CYCLES("served_counted", taken = 0, served_counted(m, heard, registers));
        else
            TELL_CYCLES("replied_counted", , replied_counted(m, registers));
    }
    return 0;
}
