#include "stack.h"

/* Places of link.ld. */
extern uint32_t stack_bottom[], stack_top[];

__attribute__((noinline)) void fill_stack(uint32_t word)
{
    const uint32_t *in_use;
    __asm__ volatile("mov %0, sp" : "=r"(in_use));
    for (volatile uint32_t *at = stack_bottom; at < in_use; at++) *at = word; /* volatile: memset has a frame down there */
}

uint32_t count_filled(uint32_t word)
{
    uint32_t count = 0;
    while (stack_bottom + count < stack_top && stack_bottom[count] == word) count++;
    return count;
}
