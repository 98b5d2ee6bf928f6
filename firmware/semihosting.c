/* Text and the end of the run by ARM's semihosting: what stands at the debugger or the emulator carries it out. A product has its
   own print and end_run in place of these: without a debugger the first bkpt is a fault. */
#include <stdint.h>

#include "board.h"
#include "print.h"

enum { SYS_WRITE0 = 0x04, SYS_EXIT_EXTENDED = 0x20, ADP_STOPPED_APPLICATION_EXIT = 0x20026 };

static void ask(uint32_t operation, const void *argument)
{
    register uint32_t r0 __asm__("r0") = operation;
    register const void *r1 __asm__("r1") = argument;
    __asm__ volatile("bkpt 0xab" : "+r"(r0) : "r"(r1) : "memory");
}

void print(const char *text) { ask(SYS_WRITE0, text); }

void end_run(int status)
{
    const uint32_t reason[2] = { ADP_STOPPED_APPLICATION_EXIT, (uint32_t)status };
    for (;;) ask(SYS_EXIT_EXTENDED, reason);
}
