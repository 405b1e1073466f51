/* A serial device as both ends of a line set it. */
#ifndef UNIT2179_SERIAL_H
#define UNIT2179_SERIAL_H

#include <stdbool.h>
#include <stdint.h>

bool serial_has_baud(uint32_t baud);

/* Eight bits, one stop bit, every character as it is; one with wrong parity ('e' or 'o') is left out, and what it stands in is damaged. */
bool serial_make_raw(int file, uint32_t baud, char parity);

#endif
