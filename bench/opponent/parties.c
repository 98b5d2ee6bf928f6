#include "parties.h"

#include <string.h>

void blind(const struct positions *positions, const uint8_t *x, const uint8_t *q, unsigned q_length, const uint64_t *share,
           struct blinded *blinded)
{
    const struct set *set = positions->set;
    struct values values;
    evaluate_one(positions, x, q, q_length, &values);
    for (unsigned l = 0; l < set->t; l++) {
        blinded->alpha[l] = values.q[l] ^ read_point(a_of(share), l);
        blinded->beta[l] = values.s[l] ^ read_point(b_of(set, share), l);
    }
}

/* One position of an axis; party 1 is the one that was evaluated, or the other. */
static void put_position(const struct set *set, unsigned l, const uint64_t *share, const struct values *values,
                         const struct blinded *sums, int first, uint8_t *row)
{
    point a = read_point(a_of(share), l), b = read_point(b_of(set, share), l), alpha = values->q[l] ^ a, beta = values->s[l] ^ b;
    point v = read_point(c_of(set, share), l) ^ values->p[l] ^ point_product(sums->alpha[l], b) ^ point_product(sums->beta[l], a);
    if (first) v ^= point_product(sums->alpha[l], sums->beta[l]);
    uint8_t *own = first ? row : row + 12 * set->t, *other = first ? row + 12 * set->t : row;
    write_point(own, l, alpha);
    write_point(own, set->t + l, beta);
    write_point(own, 2 * set->t + l, v);
    write_point(other, l, alpha ^ sums->alpha[l]);
    write_point(other, set->t + l, beta ^ sums->beta[l]);
    write_point(other, 2 * set->t + l, v);
}

static void hash_row(const struct set *set, const struct salted *salted, unsigned axis, const uint8_t *row, uint8_t digest[DIGEST])
{
    uint8_t string[PREFIX + 1 + 24 * MAX_POSITIONS];
    put_prefix(string, 6, salted);
    string[PREFIX] = (uint8_t)axis;
    memcpy(string + PREFIX + 1, row, 24 * set->t);
    hash_string(string, PREFIX + 1 + 24 * set->t, digest);
}

/* ff in the byte of each axis whose party 1 is the one without leaf apart. */
static uint64_t first_parties(const struct set *set, unsigned apart)
{
    uint64_t constants = 0;
    for (unsigned d = 0; d < set->D; d++)
        if (apart >> d & 1) constants |= (uint64_t)0xff << 8 * d;
    return constants;
}

void respond(const struct positions *positions, const struct key *key, const struct salted *salted,
             uint64_t (*parties)[SHARE_WORDS], unsigned apart, const struct blinded *sums, struct response *response)
{
    const struct set *set = positions->set;
    struct values values[MAX_AXES];
    evaluate_shares(positions, key, parties, set->D, first_parties(set, apart), values);
    put_prefix(response->digests, 7, salted);
    for (unsigned d = 0; d < set->D; d++) {
        for (unsigned l = 0; l < set->t; l++)
            put_position(set, l, parties[d], &values[d], sums, apart >> d & 1, response->rows[d]);
        hash_row(set, salted, d + 1, response->rows[d], response->digests + PREFIX + DIGEST * d);
    }
    hash_string(response->digests, PREFIX + DIGEST * set->D, response->h);
}
