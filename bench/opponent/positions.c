#include <string.h>

#include "evaluation.h"
#include "key.h"

/* factor/(r + f), where f is not r; else gives 0. Divided by Y + f, chi(Y) leaves chi(f), and chi(r) is 0, so that 1/(r + f) is the
   quotient at r over chi(f). */
static int put_inverse(uint8_t c[4], const uint8_t chi[4], uint8_t f, uint8_t factor)
{
    const uint8_t *multiple = opponent_product[f];
    uint8_t c2 = chi[3] ^ f, c1 = chi[2] ^ multiple[c2], c0 = chi[1] ^ multiple[c1], value = chi[0] ^ multiple[c0];
    if (value == 0) return 0;
    uint8_t last = byte_product(factor, byte_inverse(value));
    const uint8_t *lasts = opponent_product[last];
    c[0] = lasts[c0], c[1] = lasts[c1], c[2] = lasts[c2], c[3] = last;
    return 1;
}

/* r^j for all j up to w. */
static void put_powers(struct positions *positions, unsigned at, const uint8_t chi[4])
{
    uint8_t c[4] = { 1, 0, 0, 0 };
    for (unsigned j = 0; j <= positions->set->w; j++) {
        memcpy(positions->powers[j] + at, c, 4);
        const uint8_t *multiple = opponent_product[c[3]];
        c[3] = c[2] ^ multiple[chi[3]], c[2] = c[1] ^ multiple[chi[2]], c[1] = c[0] ^ multiple[chi[1]], c[0] = multiple[chi[0]];
    }
}

/* The inverses at one position; gives F(r). Lagrange's polynomials sum to 1, so that F(r) is 1 over the sum of the inverses.
   Where r is the interpolation point f, F(r) is 0 and S(r) is x_f. */
static point put_inverses(struct positions *positions, unsigned at, const uint8_t chi[4], const uint8_t *factors, const point r[4])
{
    unsigned m = positions->set->m;
    uint8_t sum[4] = { 0 };
    for (unsigned f = 1; f <= m; f++) {
        uint8_t *c = positions->inverses[f - 1] + at;
        if (!put_inverse(c, chi, (uint8_t)f, factors[f - 1])) {
            for (unsigned g = 1; g <= m; g++) memset(positions->inverses[g - 1] + at, 0, 4);
            c[0] = 1;
            return 0;
        }
        for (int i = 0; i < 4; i++) sum[i] ^= c[i];
    }
    return point_inverse(combined(sum, r));
}

static void make_position(struct positions *positions, unsigned l, point r, point epsilon, const uint8_t *factors)
{
    uint8_t chi[4];
    point powers[4] = { 1, r, point_product(r, r), 0 };
    powers[3] = point_product(powers[2], r);
    characteristic(r, chi);
    put_powers(positions, 4 * l, chi);
    point F = put_inverses(positions, 4 * l, chi, factors, powers), p = point_product(epsilon, F);
    for (int i = 0; i < 4; i++) {
        positions->s[l][i] = point_product(F ? F : 1, powers[i]);
        positions->q[l][i] = point_product(epsilon, powers[i]);
        positions->p[l][i] = point_product(p, powers[i]);
    }
}

void make_factors(struct factors *factors, const struct set *set)
{
    for (unsigned f = 1; f <= set->m; f++) factors->of[f - 1] = inverse_derivative(set->m, f);
}

void make_positions(struct positions *positions, const struct set *set, const struct factors *factors, const uint8_t *message2)
{
    positions->set = set;
    for (unsigned l = 0; l < set->t; l++)
        make_position(positions, l, read_point(message2, l), read_point(message2, set->t + l), factors->of);
}
