/* The syndrome of a vector, for programs that make keys. */
#ifndef SYNDROME_H
#define SYNDROME_H

#include <stdint.h>

/* y = H' x_A + x_B, with the (m - k) by k matrix H' row after row and x = x_A, x_B. */
void syndrome(const uint8_t *matrix, const uint8_t *x, uint32_t m, uint32_t k, uint8_t *y);

#endif
