#include "syndrome.h"

/* The product of GF(256) with FIPS 197's polynomial. */
static uint8_t product(uint8_t a, uint8_t b)
{
    uint32_t sum = 0, multiple = a;
    for (; b > 0; b >>= 1) {
        if (b & 1) sum ^= multiple;
        multiple <<= 1;
        if (multiple & 0x100) multiple ^= 0x11b;
    }
    return (uint8_t)sum;
}

void syndrome(const uint8_t *matrix, const uint8_t *x, uint32_t m, uint32_t k, uint8_t *y)
{
    for (uint32_t i = 0; i < m - k; i++) {
        y[i] = x[k + i];
        for (uint32_t j = 0; j < k; j++) y[i] ^= product(matrix[i * k + j], x[j]);
    }
}
