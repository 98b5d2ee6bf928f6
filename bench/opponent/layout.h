/* Lengths, of a run where there are several, and the parts of a share: a, b, x_A, Q, P, c. */
#ifndef OPPONENT_LAYOUT_H
#define OPPONENT_LAYOUT_H

#include <stddef.h>

#include "opponent.h"

enum { MAX_LEAVES = 256, MAX_AXES = 8, MAX_POSITIONS = 8, SHARE_WORDS = 108, MAX_AUX = 254 + 2 * 255 + 32 };

static inline unsigned leaves(const struct set *set) { return 1u << set->D; }
static inline unsigned last_leaf(const struct set *set) { return leaves(set) - 1; }
static inline size_t aux_length(const struct set *set) { return set->k + 2 * set->w + 4 * set->t; }
static inline size_t opening_length(const struct set *set, unsigned leaf)
{
    return 16 * set->D + 32 + 8 * set->t + (leaf == last_leaf(set) ? 0 : aux_length(set));
}
static inline size_t states_length(const struct set *set) { return 32 * leaves(set) + aux_length(set); }
static inline size_t share_words(const struct set *set) { return (8 * set->t + aux_length(set) + 7) / 8; }

static inline const uint8_t *a_of(const uint64_t *share) { return (const uint8_t *)share; }
static inline const uint8_t *b_of(const struct set *set, const uint64_t *share) { return a_of(share) + 4 * set->t; }
static inline const uint8_t *aux_of(const struct set *set, const uint64_t *share) { return a_of(share) + 8 * set->t; }
static inline const uint8_t *x_a_of(const struct set *set, const uint64_t *share) { return aux_of(set, share); }
static inline const uint8_t *q_of(const struct set *set, const uint64_t *share) { return aux_of(set, share) + set->k; }
static inline const uint8_t *p_of(const struct set *set, const uint64_t *share) { return q_of(set, share) + set->w; }
static inline const uint8_t *c_of(const struct set *set, const uint64_t *share) { return p_of(set, share) + set->w; }

#endif
