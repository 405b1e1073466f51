/* Linux on any of its processors, with no C library: the recording is the standard input. */
#include "machine.h"

#if defined __x86_64__
enum { READ = 0, WRITE = 1, EXIT = 60 };
#define CALL "syscall"
#define NUMBER "rax"
#define FIRST "rdi"
#define SECOND "rsi"
#define THIRD "rdx"
#define SPOILT "rcx", "r11", "memory"
#define ANSWER number
#define START "_start: xor %ebp, %ebp\n and $-16, %rsp\n call started\n"
#elif defined __aarch64__
enum { READ = 63, WRITE = 64, EXIT = 93 };
#define CALL "svc 0"
#define NUMBER "x8"
#define FIRST "x0"
#define SECOND "x1"
#define THIRD "x2"
#define SPOILT "memory"
#define ANSWER first
#define START "_start: b started\n"
#elif defined __arm__
enum { READ = 3, WRITE = 4, EXIT = 1 };
#define CALL "svc 0"
#define NUMBER "r7"
#define FIRST "r0"
#define SECOND "r1"
#define THIRD "r2"
#define SPOILT "memory"
#define ANSWER first
#define START "_start: b started\n"
#else
enum { READ = 63, WRITE = 64, EXIT = 93 };
#define CALL "ecall"
#define NUMBER "a7"
#define FIRST "a0"
#define SECOND "a1"
#define THIRD "a2"
#define SPOILT "memory"
#define ANSWER first
#define START ".option push\n.option norelax\n_start: la gp, __global_pointer$\n.option pop\n j started\n"
#endif

__asm__(".globl _start\n" START);

static long ask(long what, long one, long two, long three)
{
    register long number __asm__(NUMBER) = what;
    register long first __asm__(FIRST) = one;
    register long second __asm__(SECOND) = two;
    register long third __asm__(THIRD) = three;
    __asm__ volatile(CALL : "+r"(number), "+r"(first) : "r"(second), "r"(third) : SPOILT);
    return ANSWER;
}

uint32_t machine_read(uint8_t *to, uint32_t many)
{
    uint32_t had = 0;
    while (had < many) {
        long more = ask(READ, 0, (long)(to + had), (long)(many - had));
        if (more <= 0)
            break;
        had += (uint32_t)more;
    }
    return had;
}

void machine_tell(const char *chars, uint32_t many)
{
    ask(WRITE, 1, (long)chars, (long)many);
}

__attribute__((used)) void started(void)
{
    ask(EXIT, replay(), 0, 0);
    __builtin_trap();
}
