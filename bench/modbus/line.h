// A line that is not there: in these programs libmodbus waits, reads and writes by select, read and write of line.c instead of the C
// library's. They call nothing, so that what they cost is counted by their names and taken off.
#ifndef LINE_H
#define LINE_H

#include <modbus/modbus.h>

#include <stddef.h>
#include <stdint.h>

enum { SLAVE = 17, REQUEST = 8 };

// What is read, how much of it was, and what was written last.
extern uint8_t request[REQUEST], written[MODBUS_RTU_MAX_ADU_LENGTH];
extern size_t taken, put;

// Nothing that is written is copied: for cycles, of which the line's cannot be told from the others'.
extern int silent;

// A context of Modbus RTU on this line.
modbus_t *on_line(void);

// Check characters behind n characters: the same division as Cooper's, begun with all bits set.
void close_frame(uint8_t *s, size_t n);

// Ends the run where something does not hold.
void must(int holds, const char *what);

#endif
