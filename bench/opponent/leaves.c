#include "leaves.h"

#include <string.h>

static inline void add(uint64_t *to, const uint64_t *share, size_t words)
{
    for (size_t i = 0; i < words; i++) to[i] ^= share[i];
}

/* Leaf n - 1: a and b from its seed, the rest from aux. */
static void make_last_leaf(struct pass *pass, unsigned leaf, uint64_t *share)
{
    const struct set *set = pass->set;
    memset(share, 0, 8 * share_words(set));
    hash_share(&pass->salted, leaf, pass->states[leaf], share, set->t);
    if (!pass->aux) return;
    memcpy((uint8_t *)share + 8 * set->t, pass->aux, aux_length(set));
    if (pass->commitments)
        hash_last_state(&pass->salted, leaf, pass->states[leaf], pass->aux, aux_length(set), pass->commitments + DIGEST * leaf);
}

static void make_leaf(struct pass *pass, unsigned leaf, const uint64_t seed[2], uint64_t *share)
{
    uint64_t *state = pass->states[leaf];
    hash_leaf(&pass->salted, leaf, seed, state);
    if (leaf == last_leaf(pass->set)) {
        make_last_leaf(pass, leaf, share);
    } else {
        hash_share(&pass->salted, leaf, state, share, share_words(pass->set));
        if (pass->commitments) hash_state(&pass->salted, leaf, state, pass->commitments + DIGEST * leaf);
    }
    if (pass->share && leaf == pass->apart) memcpy(pass->share, share, 8 * share_words(pass->set));
}

/* The node at a depth on the way from the root to leaf apart. */
static inline unsigned way(const struct pass *pass, unsigned depth)
{
    return (leaves(pass->set) + pass->apart) >> (pass->set->D - depth);
}

/* The sums below two siblings at a depth: their sum, and the one of the party without leaf apart goes to that party. */
static inline void join(struct pass *pass, unsigned depth, const uint64_t *left, const uint64_t *right, uint64_t *sum)
{
    size_t words = share_words(pass->set);
    if (pass->parties) add(pass->parties[pass->set->D - depth], way(pass, depth) & 1 ? left : right, words);
    for (size_t i = 0; i < words; i++) sum[i] = left[i] ^ right[i];
}

static void pass_node(struct pass *pass, unsigned depth, unsigned node, const uint64_t seed[2], uint64_t *sum)
{
    uint64_t children[4], left[SHARE_WORDS], right[SHARE_WORDS];
    if (depth == pass->set->D) {
        make_leaf(pass, node - leaves(pass->set), seed, sum);
        return;
    }
    hash_node(&pass->salted, node, seed, children);
    if (pass->siblings && node == way(pass, depth))
        memcpy(pass->siblings + 16 * depth, way(pass, depth + 1) & 1 ? children : children + 2, 16);
    pass_node(pass, depth + 1, 2 * node, children, left);
    pass_node(pass, depth + 1, 2 * node + 1, children + 2, right);
    join(pass, depth + 1, left, right, sum);
}

void pass_tree(struct pass *pass, const uint64_t seed[2], uint64_t *sum) { pass_node(pass, 0, 1, seed, sum); }

void pass_siblings(struct pass *pass, const uint8_t *siblings, uint64_t *sum)
{
    uint64_t seed[2], below[SHARE_WORDS];
    size_t words = share_words(pass->set);
    memset(sum, 0, 8 * words);
    for (unsigned depth = 1; depth <= pass->set->D; depth++) {
        memcpy(seed, siblings + 16 * (depth - 1), sizeof seed);
        pass_node(pass, depth, way(pass, depth) ^ 1, seed, below);
        if (pass->parties) add(pass->parties[pass->set->D - depth], below, words);
        add(sum, below, words);
    }
}
