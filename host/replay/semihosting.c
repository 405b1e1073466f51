/* An Arm board of the M profile with no operating system, under an emulator or a debugger: the recording is a file of its host's. */
#include "machine.h"

enum { OPEN = 1, WRITE = 5, READ = 6, EXIT = 0x18, STOPPED = 0x20026, FAILED = 0x20023 };
enum { UNALIGN_TRP = 8 };

extern uint32_t stack_top[], bss_start[], bss_end[];

static int32_t host(uint32_t what, const void *with)
{
    register uint32_t r0 __asm__("r0") = what;
    register const void *r1 __asm__("r1") = with;
    __asm__ volatile("bkpt 0xAB" : "+r"(r0) : "r"(r1) : "memory");
    return (int32_t)r0;
}

static uint32_t opened(const char *name, uint32_t length, uint32_t mode)
{
    const uint32_t with[3] = {(uint32_t)name, mode, length};
    return (uint32_t)host(OPEN, with);
}

uint32_t machine_read(uint8_t *to, uint32_t many)
{
    static uint32_t file;
    if (file == 0)
        file = opened("recording", 9, 1);
    const uint32_t with[3] = {file, (uint32_t)to, many};
    return many - (uint32_t)host(READ, with);
}

void machine_tell(const char *chars, uint32_t many)
{
    static uint32_t terminal;
    if (terminal == 0)
        terminal = opened(":tt", 3, 4);
    const uint32_t with[3] = {terminal, (uint32_t)chars, many};
    host(WRITE, with);
}

static void end(uint32_t how)
{
    host(EXIT, (const void *)how);
    for (;;)
        ;
}

static void fault(void)
{
    static const char why[] = "replay: a fault of the machine\n";
    machine_tell(why, sizeof why - 1);
    end(FAILED);
}

/* As on processors that have no unaligned access, none is allowed where the library is for one of them. */
static void reset(void)
{
    for (uint32_t *p = bss_start; p < bss_end; p++)
        *p = 0;
#ifdef ALIGNED
    *(volatile uint32_t *)0xE000ED14 |= UNALIGN_TRP;
#endif
    end(replay() == 0 ? STOPPED : FAILED);
}

__attribute__((section(".vectors"), used)) static const struct {
    uint32_t *stack;
    void (*handlers[15])(void);
} vectors = {stack_top, {reset, fault, fault, fault, fault, fault}};
