/* The devices of the board: a serial line, a timer, lamps as output pins, and a console. */
#ifndef BOARD_H
#define BOARD_H

#include <stdint.h>

void board_start(void);
void board_send(const uint8_t *chars, uint32_t many);
void board_tell(const char *text);

void board_output(uint8_t output, int closed); /* what hangs on one of the two pins */
void board_sleep(void);                        /* until the next interrupt, which comes within a millisecond */

/* Interrupts, and what they tell the line's driver (line.c): a character came, a millisecond passed. */
void uart_interrupt(void);
void line_heard(uint8_t character);
void line_tick(void);

#endif
