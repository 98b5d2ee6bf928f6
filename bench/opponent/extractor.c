#include <string.h>

#include "opening.h"

static struct opening ones[OPPONENT_RUNS], others[OPPONENT_RUNS];

static uint32_t unequal(unsigned layer, unsigned number) { return 65536 * layer + number; }

/* The first axis whose strings differ, or 0. */
static unsigned unequal_axis(const struct set *set, const struct opening *first, const struct opening *second)
{
    for (unsigned d = 0; d < set->D; d++)
        if (memcmp(first->response.rows[d], second->response.rows[d], 24 * set->t)) return d + 1;
    return 0;
}

static int states_differ(const struct set *set, const struct opening *first, const struct opening *second, unsigned leaf)
{
    if (memcmp(first->pass.states[leaf], second->pass.states[leaf], 32)) return 1;
    return leaf == last_leaf(set) && memcmp(first->pass.aux, second->pass.aux, aux_length(set));
}

/* The first leaf opened in both whose strings differ, or n. */
static unsigned unequal_leaf(const struct set *set, const struct opening *first, const struct opening *second)
{
    unsigned leaf = 0;
    while (leaf < leaves(set) &&
           (leaf == first->pass.apart || leaf == second->pass.apart || !states_differ(set, first, second, leaf)))
        leaf++;
    return leaf;
}

/* Layer 7, 6, 5, 4. Everything is kept, so that nothing is hashed again. */
static uint32_t compare(const struct set *set, const struct opening *first, const struct opening *second)
{
    if (memcmp(first->response.digests, second->response.digests, PREFIX + DIGEST * set->D)) return unequal(7, 0);
    unsigned axis = unequal_axis(set, first, second);
    if (axis) return unequal(6, axis);
    if (memcmp(first->commitments, second->commitments, PREFIX + DIGEST * leaves(set))) return unequal(5, 0);
    unsigned leaf = unequal_leaf(set, first, second);
    return leaf < leaves(set) ? unequal(4, leaf) : 0;
}

static unsigned lowest_bit(unsigned bits)
{
    unsigned number = 1;
    for (; !(bits & 1); bits >>= 1) number++;
    return number;
}

/* The first unequal pair of the runs whose hidden leaves differ, or 0. */
static uint32_t compare_runs(const struct opponent_verifier *first, const struct opponent_verifier *second)
{
    for (unsigned run = 0; run < first->runs; run++) {
        if (first->leaves[run] == second->leaves[run]) continue;
        uint32_t answer = compare(&first->set, &ones[run], &others[run]);
        if (answer) return answer + 256 * run;
    }
    return 0;
}

/* The states of all leaves, of which each opening lacks one, and aux. */
static void put_states(const struct set *set, const struct opening *one, const struct opening *other, uint8_t *out)
{
    unsigned hidden = one->pass.apart;
    memcpy(out, one->pass.states, 32 * leaves(set));
    memcpy(out + 32 * hidden, other->pass.states[hidden], 32);
    memcpy(out + 32 * leaves(set), one->pass.aux ? one->pass.aux : other->pass.aux, aux_length(set));
}

uint32_t opponent_extract(const struct opponent_verifier *first, const uint8_t *first5, const struct opponent_verifier *second,
                          const uint8_t *second5, const struct key *key, uint8_t *out)
{
    uint32_t answer = check_opening(first, first5, key, ones, 1);
    if (answer == 0) answer = check_opening(second, second5, key, others, 1);
    if (answer == 0) answer = compare_runs(first, second);
    if (answer) return answer;
    for (unsigned run = first->runs; run-- > 0;) {
        unsigned difference = first->leaves[run] ^ second->leaves[run];
        if (difference == 0) continue;
        put_states(&first->set, &ones[run], &others[run], out + states_length(&first->set) * run);
        answer = 256 * (run + 1) + lowest_bit(difference);
    }
    return answer;
}
