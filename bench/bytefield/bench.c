/* Times the product of bytes through libbench_c.a against the same product in C over the same two tables. */
#include <stdint.h>
#include <stdio.h>
#include <stdlib.h>

#include "clock.h"

enum { LENGTH = 4096, CALLS = 200, ROUNDS = 300 };

/* A slice argument is its address and its length. */
uint8_t bytefield_c_dot(const uint8_t *a, uint64_t a_length, const uint8_t *b, uint64_t b_length);

static uint8_t powers[256];
static uint8_t logs[256];

/* Powers of 03 modulo z^8 + z^4 + z^3 + z + 1, and their logarithms. */
static void make_tables(void)
{
    unsigned x = 1;
    for (int i = 0; i < 255; i++) {
        powers[i] = (uint8_t)x;
        logs[x] = (uint8_t)i;
        x ^= x << 1;
        if (x & 0x100) x ^= 0x11b;
    }
    powers[255] = 1;
}

static inline uint8_t product(uint8_t a, uint8_t b, const uint8_t *log, const uint8_t *pow)
{
    if (a == 0 || b == 0) return 0;
    unsigned i = (unsigned)log[a] + log[b];
    return pow[i < 255 ? i : i - 255];
}

__attribute__((noinline)) static uint8_t c_dot(const uint8_t *a, uint64_t a_length, const uint8_t *b, uint64_t b_length)
{
    uint8_t total = 0;
    for (size_t i = 0; i < a_length && i < b_length; i++) total ^= product(a[i], b[i], logs, powers);
    return total;
}

typedef uint8_t dot_function(const uint8_t *, uint64_t, const uint8_t *, uint64_t);

static uint8_t a[LENGTH], b[LENGTH];
static volatile uint8_t sink;

/* Nanoseconds a product. */
static double time_of(dot_function *dot)
{
    double start = processor_time();
    for (int i = 0; i < CALLS; i++) {
        a[i % LENGTH] ^= 1;
        sink ^= dot(a, LENGTH, b, LENGTH);
    }
    return (processor_time() - start) / CALLS / LENGTH;
}

int main(void)
{
    make_tables();
    srand(1);
    for (int i = 0; i < LENGTH; i++) {
        a[i] = (uint8_t)(rand() >> 8);
        b[i] = (uint8_t)(rand() >> 8);
    }
    for (int x = 0; x < 256; x++) {
        for (int y = 0; y < 256; y++) {
            uint8_t u = (uint8_t)x, v = (uint8_t)y;
            if (bytefield_c_dot(&u, 1, &v, 1) != c_dot(&u, 1, &v, 1)) {
                printf("different product of %02x and %02x\n", x, y);
                return 1;
            }
        }
    }
    /* many rounds, in turn, so that other work on the machine counts for neither */
    static double rattle[ROUNDS], c[ROUNDS];
    for (int round = 0; round < ROUNDS; round++) {
        rattle[round] = time_of(bytefield_c_dot);
        c[round] = time_of(c_dot);
    }
    printf("ratio\tproduct of bytes\tthe same in C\t%.2f\n", low_time(rattle, ROUNDS) / low_time(c, ROUNDS));
    return 0;
}
