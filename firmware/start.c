/* Start-up of a Cortex-M4 without a system: the vectors, static data, then main. A fault ends the run with status 3. */
#include <stdint.h>

#include "board.h"

/* Places of link.ld. */
extern uint32_t data_source[], data_start[], data_end[], bss_start[], bss_end[], stack_top[];

int main(void);

#ifdef __ARM_FP
/* The floating-point unit, for a caller that is compiled for it: the library does without. */
static void enable_floating_point(void)
{
    volatile uint32_t *cpacr = (volatile uint32_t *)0xe000ed88;
    *cpacr |= 0xfu << 20; /* coprocessors 10 and 11 */
    __asm__ volatile("dsb\n\tisb" : : : "memory");
}
#endif

void reset(void)
{
    uint32_t *source = data_source;
#ifdef __ARM_FP
    enable_floating_point();
#endif
    for (uint32_t *to = data_start; to < data_end; to++) *to = *source++;
    for (uint32_t *to = bss_start; to < bss_end; to++) *to = 0;
    end_run(main());
}

static void fault(void) { end_run(3); }

/* The core's own part of the vector table. The interrupts of a part follow it; none is enabled here. */
struct vectors {
    uint32_t *stack;
    void (*handler[15])(void);
};

__attribute__((section(".vectors"), used)) static const struct vectors vectors = {
    stack_top,
    { reset, fault, fault, fault, fault, fault, 0, 0, 0, 0, fault, fault, 0, fault, fault },
};
