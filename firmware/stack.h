/* The stack of link.ld. */
#ifndef STACK_H
#define STACK_H

#include <stdint.h>

/* Fills all of the stack that is not in use with a word. */
void fill_stack(uint32_t word);

/* The words at the bottom of the stack that still hold this word. */
uint32_t count_filled(uint32_t word);

#endif
