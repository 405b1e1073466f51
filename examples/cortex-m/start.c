/* Where the processor starts: its vectors, and memory as C wants it. What is kept over a reset is left alone. */
#include "board.h"

extern uint32_t stack_top[], data_start[], data_end[], data_from[], bss_start[], bss_end[];
int main(void);

/* Nothing here is meant to fault; a board would have its watchdog reset it. */
static void fault(void)
{
    for (;;)
        ;
}

void reset(void)
{
    const uint32_t *from = data_from;
    for (uint32_t *p = data_start; p < data_end; p++)
        *p = *from++;
    for (uint32_t *p = bss_start; p < bss_end; p++)
        *p = 0;
    main();
    fault();
}

enum { HANDLERS = 15 + 32, RESET = 0, SYSTICK = 14, UART0_RECEIVES = 15 };

__attribute__((section(".vectors"), used)) static const struct {
    uint32_t *stack;
    void (*handlers[HANDLERS])(void);
} vectors = {stack_top,
             {[RESET] = reset,
              [RESET + 1 ... SYSTICK - 1] = fault,
              [SYSTICK] = line_tick,
              [UART0_RECEIVES] = uart_interrupt,
              [UART0_RECEIVES + 1 ... HANDLERS - 1] = fault}};
