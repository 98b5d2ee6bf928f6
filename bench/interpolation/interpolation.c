/* Interpolation at the points 1 to m, twice: by the proved library and by the same algorithm in C.
   Prints the time of each in microseconds (the least of many rounds, both in one run) and their ratio. */
#include <stddef.h>
#include <stdint.h>
#include <stdio.h>
#include <string.h>
#include <time.h>

/* the exported function of the proved library: a slice goes over as pointer and length */
void rattle_interpolate(uint8_t *x, size_t n);

static uint8_t logs[256], powers[256];

static void make_tables(void)
{
    unsigned a = 1;
    for (unsigned i = 0; i < 255; i++) {
        powers[i] = (uint8_t)a;
        logs[a] = (uint8_t)i;
        a ^= a << 1;
        if (a & 0x100)
            a ^= 0x11b;
    }
    powers[255] = 1;
}

static inline uint8_t product(uint8_t a, uint8_t b, const uint8_t *log, const uint8_t *pow)
{
    if (a == 0)
        return 0;
    if (b == 0)
        return 0;
    unsigned i = (unsigned)log[a] + log[b];
    return pow[i < 255 ? i : i - 255];
}

static inline uint8_t inverse(uint8_t a, const uint8_t *log, const uint8_t *pow)
{
    if (a == 0)
        return 0;
    return pow[255 - log[a]];
}

/* two sweeps in place: to the coefficients of Newton's form, and from them to those of the polynomial */
__attribute__((noinline)) static void c_interpolate(uint8_t *x, size_t n, const uint8_t *log, const uint8_t *pow)
{
    for (size_t j = 0; j < n; j++) {
        uint8_t f = (uint8_t)(j + 1), y = x[j];
        for (size_t i = j + 1; i < n; i++)
            x[i] = product(x[i] ^ y, inverse((uint8_t)(i + 1) ^ f, log, pow), log, pow);
    }
    for (size_t j = n; j-- > 0;) {
        uint8_t f = (uint8_t)(j + 1);
        for (size_t i = j; i + 1 < n; i++)
            x[i] ^= product(f, x[i + 1], log, pow);
    }
}

static double now(void)
{
    struct timespec t;
    clock_gettime(CLOCK_MONOTONIC, &t);
    return (double)t.tv_sec * 1e6 + (double)t.tv_nsec / 1e3;
}

int main(void)
{
    enum { m = 230, rounds = 400 };
    uint8_t x[m], a[m], b[m];
    double proved = 1e9, plain = 1e9;
    make_tables();
    for (int i = 0; i < m; i++)
        x[i] = (uint8_t)(i * 167 + 13);
    for (int round = 0; round < rounds; round++) {
        memcpy(a, x, m);
        double t0 = now();
        rattle_interpolate(a, m);
        double t1 = now();
        memcpy(b, x, m);
        double t2 = now();
        c_interpolate(b, m, logs, powers);
        double t3 = now();
        if (memcmp(a, b, m) != 0) {
            puts("the results differ");
            return 1;
        }
        if (t1 - t0 < proved)
            proved = t1 - t0;
        if (t3 - t2 < plain)
            plain = t3 - t2;
        memcpy(x, a, m);
    }
    printf("m %d: proved %.1f us, C %.1f us, ratio %.2f\n", m, proved, plain, proved / plain);
    return 0;
}
