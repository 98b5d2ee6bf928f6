/* The seed tree, the states, shares and commitments of its leaves, and the sums of the shares, in one pass from the root down. */
#ifndef OPPONENT_LEAVES_H
#define OPPONENT_LEAVES_H

#include "layout.h"
#include "strings.h"

struct pass {
    const struct set *set;
    struct salted salted;
    /* A leaf: the hidden one, or one that is asked about. Of each axis the sum of the party without it is made. */
    unsigned apart;
    /* Of leaf n - 1. Where it is 0 it is still to be made: that leaf counts as a and b, and its commitment is left out. */
    const uint8_t *aux;
    /* What is to be filled, where it is not 0: sums of parties, all commitments, siblings and share of leaf apart. */
    uint64_t (*parties)[SHARE_WORDS];
    uint8_t *commitments, *siblings;
    uint64_t *share;
    /* Filled for all leaves that are passed. */
    uint64_t states[MAX_LEAVES][4];
};

/* All leaves below the run's root seed; gives the sum of their shares. */
void pass_tree(struct pass *pass, const uint64_t seed[2], uint64_t *sum);

/* All leaves but leaf apart, from its sibling seeds, from the root side down. */
void pass_siblings(struct pass *pass, const uint8_t *siblings, uint64_t *sum);

#endif
