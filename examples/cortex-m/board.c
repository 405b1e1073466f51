#include "board.h"

struct uart {
    volatile uint32_t data, state, control, interrupt, divider;
};

#define LINE ((struct uart *)0x40004000)
#define CONSOLE ((struct uart *)0x40005000)
#define LAMPS (*(volatile uint32_t *)0x40028000)
#define SYSTICK ((volatile uint32_t *)0xE000E010) /* control, reload, now */
#define INTERRUPTS_ON (*(volatile uint32_t *)0xE000E100)

enum { FULL_TO_SEND = 1, RECEIVED = 2, SENDS = 1, RECEIVES = 2, TELLS_RECEIVED = 8, CLOCK = 25000000, BAUD = 9600, PINS = 2 };

void board_start(void)
{
    LINE->divider = CONSOLE->divider = CLOCK / BAUD;
    LINE->control = SENDS | RECEIVES | TELLS_RECEIVED;
    CONSOLE->control = SENDS;
    INTERRUPTS_ON = 1; /* UART 0 has received */
    SYSTICK[1] = CLOCK / 1000 - 1;
    SYSTICK[0] = 7; /* on, with an interrupt, by the processor's clock */
}

static void put(struct uart *to, uint8_t character)
{
    while (to->state & FULL_TO_SEND)
        ;
    to->data = character;
}

void board_send(const uint8_t *chars, uint32_t many)
{
    while (many-- > 0)
        put(LINE, *chars++);
}

void board_tell(const char *text)
{
    while (*text != 0)
        put(CONSOLE, (uint8_t)*text++);
}

void board_output(uint8_t output, int closed)
{
    if (output < PINS)
        LAMPS = closed ? LAMPS | 1u << output : LAMPS & ~(1u << output);
}

void board_sleep(void)
{
    __asm__ volatile("wfi" ::: "memory");
}

void uart_interrupt(void)
{
    LINE->interrupt = RECEIVED;
    while (LINE->state & RECEIVED)
        line_heard((uint8_t)LINE->data);
}
