#include "evaluation.h"

#include <string.h>

/* Adds each byte times its column. */
static void add_columns(uint8_t *sums, const uint8_t *bytes, unsigned count, const uint8_t (*columns)[4 * MAX_POSITIONS],
                        unsigned rows)
{
    for (unsigned i = 0; i < count; i++) {
        const uint8_t *multiple = opponent_product[bytes[i]];
        if (bytes[i] == 0) continue;
        for (unsigned j = 0; j < rows; j++) sums[j] ^= multiple[columns[i][j]];
    }
}

void evaluate_one(const struct positions *positions, const uint8_t *x, const uint8_t *q, unsigned q_length, struct values *values)
{
    const struct set *set = positions->set;
    uint8_t s_sums[4 * MAX_POSITIONS] = { 0 }, q_sums[4 * MAX_POSITIONS] = { 0 };
    add_columns(s_sums, x, set->m, positions->inverses, 4 * set->t);
    add_columns(q_sums, q, q_length, positions->powers, 4 * set->t);
    for (unsigned l = 0; l < set->t; l++) {
        values->s[l] = combined(s_sums + 4 * l, positions->s[l]);
        values->q[l] = combined(q_sums + 4 * l, positions->q[l]);
    }
}

/* ---- eight shares side by side: a byte of each in one word */

#define ONES ((uint64_t)0x0101010101010101)

/* z times each byte of a word. */
static inline uint64_t doubled(uint64_t a) { return (a & 0x7f * ONES) << 1 ^ (a >> 7 & ONES) * 0x1b; }

/* A word for each value of the low half of a byte and of its high half. */
struct halves {
    uint64_t low[16], high[16];
};

/* The multiples of a word; gives the word times 10. */
static inline uint64_t put_multiples(uint64_t of[16], uint64_t word)
{
    of[0] = 0;
    for (unsigned bit = 1; bit < 16; bit *= 2) {
        for (unsigned i = 0; i < bit; i++) of[bit + i] = of[i] ^ word;
        word = doubled(word);
    }
    return word;
}

static inline uint64_t multiple(const struct halves *multiples, uint8_t by)
{
    return multiples->low[by & 15] ^ multiples->high[by >> 4];
}

/* Entries first to first + width - 1 of x_A times their columns of the matrix. */
static inline void add_block(const struct set *set, const uint8_t *matrix, const uint64_t *x_a, unsigned first, unsigned width,
                             uint64_t *x_b)
{
    struct halves multiples[8];
    unsigned k = set->k, rows = set->m - k;
    for (unsigned j = 0; j < width; j++)
        put_multiples(multiples[j].high, put_multiples(multiples[j].low, x_a[first + j]));
    const uint8_t *row = matrix + first;
    for (unsigned i = 0; i < rows; i++, row += k) {
        uint64_t sum = x_b[i];
        for (unsigned j = 0; j < width; j++) sum ^= multiple(&multiples[j], row[j]);
        x_b[i] = sum;
    }
}

/* H' x_A added to what stands behind x_A. */
static void add_image(const struct set *set, const uint8_t *matrix, uint64_t *x)
{
    unsigned j = 0;
    for (; j + 8 <= set->k; j += 8) add_block(set, matrix, x, j, 8, x + set->k);
    if (j < set->k) add_block(set, matrix, x, j, set->k - j, x + set->k);
}

/* Entry i of each share, from a place in it. */
static void side_by_side(uint64_t (*shares)[SHARE_WORDS], unsigned count, size_t place, unsigned length, uint64_t *words)
{
    memset(words, 0, length * sizeof *words);
    for (unsigned d = 0; d < count; d++) {
        const uint8_t *bytes = (const uint8_t *)shares[d] + place;
        for (unsigned i = 0; i < length; i++) words[i] |= (uint64_t)bytes[i] << 8 * d;
    }
}

/* Bit by bit from the highest: twice what came before, and the words at values with that bit. */
static inline uint64_t add_half(uint64_t sum, const uint64_t of[16])
{
    for (unsigned bit = 8; bit > 0; bit /= 2) {
        sum = doubled(sum);
        for (unsigned i = 0; i < 16; i++)
            if (i & bit) sum ^= of[i];
    }
    return sum;
}

/* Each word times its column, summed: the words are gathered by what they are multiplied with, the products follow at the end. */
static void sum_columns(const uint64_t *words, unsigned count, const uint8_t (*columns)[4 * MAX_POSITIONS], unsigned rows,
                        uint64_t *sums)
{
    struct halves gathered[4 * MAX_POSITIONS];
    memset(gathered, 0, rows * sizeof *gathered);
    for (unsigned i = 0; i < count; i++) {
        uint64_t word = words[i];
        for (unsigned j = 0; j < rows; j++) {
            uint8_t by = columns[i][j];
            gathered[j].low[by & 15] ^= word;
            gathered[j].high[by >> 4] ^= word;
        }
    }
    for (unsigned j = 0; j < rows; j++) sums[j] = add_half(add_half(0, gathered[j].high), gathered[j].low);
}

/* The value of share d at a position from the sums of all shares. */
static point value_of(const uint64_t sums[4], unsigned d, const point of[4])
{
    uint8_t c[4];
    for (int i = 0; i < 4; i++) c[i] = (uint8_t)(sums[i] >> 8 * d);
    return combined(c, of);
}

void evaluate_shares(const struct positions *positions, const struct key *key, uint64_t (*shares)[SHARE_WORDS], unsigned count,
                     uint64_t constants, struct values *values)
{
    const struct set *set = positions->set;
    unsigned rows = 4 * set->t;
    uint64_t x[255], q[256], p[255], s_sums[4 * MAX_POSITIONS], q_sums[4 * MAX_POSITIONS], p_sums[4 * MAX_POSITIONS];
    side_by_side(shares, count, 8 * set->t, set->k, x);
    for (unsigned i = 0; i < set->m - set->k; i++) x[set->k + i] = key->y[i] * ONES & constants;
    add_image(set, key->matrix, x);
    side_by_side(shares, count, 8 * set->t + set->k, set->w, q);
    q[set->w] = ONES & constants;
    side_by_side(shares, count, 8 * set->t + set->k + set->w, set->w, p);
    sum_columns(x, set->m, positions->inverses, rows, s_sums);
    sum_columns(q, set->w + 1, positions->powers, rows, q_sums);
    sum_columns(p, set->w, positions->powers, rows, p_sums);
    for (unsigned d = 0; d < count; d++) {
        for (unsigned l = 0; l < set->t; l++) {
            values[d].s[l] = value_of(s_sums + 4 * l, d, positions->s[l]);
            values[d].q[l] = value_of(q_sums + 4 * l, d, positions->q[l]);
            values[d].p[l] = value_of(p_sums + 4 * l, d, positions->p[l]);
        }
    }
}
