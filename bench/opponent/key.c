#include "key.h"

#include <string.h>

#include "field.h"

/* Entries first to first + width - 1 of x_A times their columns of the matrix. */
static inline void add_block(const struct set *set, const uint8_t *matrix, const uint8_t *x_a, unsigned first, unsigned width,
                             uint8_t *x_b)
{
    const uint8_t *multiples[8];
    unsigned k = set->k, rows = set->m - k;
    for (unsigned j = 0; j < width; j++) multiples[j] = opponent_product[x_a[first + j]];
    const uint8_t *row = matrix + first;
    for (unsigned i = 0; i < rows; i++, row += k) {
        uint8_t sum = x_b[i];
        for (unsigned j = 0; j < width; j++) sum ^= multiples[j][row[j]];
        x_b[i] = sum;
    }
}

void image(const struct set *set, const uint8_t *matrix, const uint8_t *x_a, uint8_t *x)
{
    unsigned j = 0;
    memcpy(x, x_a, set->k);
    memset(x + set->k, 0, set->m - set->k);
    for (; j + 8 <= set->k; j += 8) add_block(set, matrix, x_a, j, 8, x + set->k);
    if (j < set->k) add_block(set, matrix, x_a, j, set->k - j, x + set->k);
}

void vector(const struct set *set, const struct key *key, const uint8_t *x_a, uint8_t *x)
{
    image(set, key->matrix, x_a, x);
    for (unsigned i = 0; i < set->m - set->k; i++) x[set->k + i] ^= key->y[i];
}

unsigned weight(const struct set *set, const uint8_t *x)
{
    unsigned count = 0;
    for (unsigned i = 0; i < set->m; i++) count += x[i] != 0;
    return count;
}

/* The sum of the logarithms of f + g over g from first to last; f itself, whose entry is 0, counts for nothing. */
static unsigned sum_of_logs(unsigned f, unsigned first, unsigned last)
{
    unsigned sum = 0;
    for (unsigned g = first; g <= last; g++) sum += opponent_log[f ^ g];
    return sum;
}

/* X F G = X^256 + X with G the product over the bytes above m, so that f F'(f) G(f) = 1: the shorter product is taken. */
uint8_t inverse_derivative(unsigned m, unsigned f)
{
    if (m < 128) return opponent_power[(255 - sum_of_logs(f, 1, m) % 255) % 255];
    return opponent_power[(opponent_log[f] + sum_of_logs(f, m + 1, 255)) % 255];
}

static void times_root(uint8_t *polynomial, unsigned degree, uint8_t root)
{
    const uint8_t *multiple = opponent_product[root];
    uint8_t coefficient = 0;
    polynomial[degree + 1] = 0;
    for (unsigned i = 0; i <= degree + 1; i++) {
        uint8_t next = polynomial[i];
        polynomial[i] = coefficient ^ multiple[next];
        coefficient = next;
    }
}

/* E: the nonzero positions, then the lowest others. */
void make_q(const struct set *set, const uint8_t *x, uint8_t *q)
{
    unsigned degree = 0;
    q[0] = 1;
    for (unsigned i = 0; i < set->m; i++)
        if (x[i] != 0) times_root(q, degree++, (uint8_t)(i + 1));
    for (unsigned i = 0; degree < set->w; i++)
        if (x[i] == 0) times_root(q, degree++, (uint8_t)(i + 1));
}

/* The logarithms of d = x_e / F'(e) and of e, for the nonzero positions e; gives how many there are. */
static unsigned put_logs(const struct set *set, const uint8_t *x, uint16_t *terms, uint16_t *steps)
{
    unsigned count = 0;
    for (unsigned i = 0; i < set->m; i++) {
        if (x[i] == 0) continue;
        terms[count] = (uint16_t)((opponent_log[x[i]] + opponent_log[inverse_derivative(set->m, i + 1)]) % 255);
        steps[count++] = opponent_log[i + 1];
    }
    return count;
}

static inline uint8_t sum_of_powers(const uint16_t *logs, unsigned count)
{
    uint8_t sum = 0;
    for (unsigned i = 0; i < count; i++) sum ^= opponent_power[logs[i]];
    return sum;
}

/* sums[j], the sum of d e^j. */
static void power_sums(const struct set *set, const uint8_t *x, uint8_t *sums)
{
    uint16_t terms[255], steps[255];
    unsigned count = put_logs(set, x, terms, steps);
    for (unsigned j = 0; j < set->w; j++) {
        sums[j] = sum_of_powers(terms, count);
        for (unsigned i = 0; i < count; i++) {
            uint16_t next = terms[i] + steps[i];
            terms[i] = next < 255 ? next : next - 255;
        }
    }
}

/* P takes the value x_e Q'(e) / F'(e) at each e of E. By Lagrange it is the sum of d Q/(X + e), and coefficient i of Q/(X + e)
   is the sum of q[j] e^(j-i-1) over all j above i. */
void make_p(const struct set *set, const uint8_t *x, const uint8_t *q, uint8_t *p)
{
    uint8_t sums[255];
    power_sums(set, x, sums);
    memset(p, 0, set->w);
    for (unsigned j = 1; j <= set->w; j++) {
        const uint8_t *multiple = opponent_product[q[j]];
        for (unsigned i = 0; i < j; i++) p[i] ^= multiple[sums[j - i - 1]];
    }
}
