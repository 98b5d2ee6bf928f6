/*
 * The calls of the hypercube unlock exchange (document 01) in plain C, written to be fast: the opponent that the library is
 * timed against. It is written from document 01 and shares no code with the library.
 *
 * It gives the same messages and answers, and keeps the same between calls: each call of the prover makes the leaves again from
 * salt and root. What all runs have in common, Q and P of the key and the derivatives of F, it makes once a call. Unlike the library
 * it trusts its caller: it looks at no parameter, run count, length, phase or leaf number, so it never answers 1, 2, 4, 8, 9, 11, 12
 * or 13; an opening whose h differs it refuses at once. It takes no work area and wipes nothing, its tables (64 KB) are made once,
 * and its extractor keeps all that both openings give in static arrays (2 MB).
 */
#ifndef OPPONENT_H
#define OPPONENT_H

#include <stdint.h>

/* Length m, dimension k, weight w, axes D, positions t. */
struct set {
    unsigned m, k, w, D, t;
};

/* The matrix H', row after row, and y. */
struct key {
    const uint8_t *matrix, *y;
};

enum { OPPONENT_RUNS = 32 };

struct opponent_prover {
    struct set set;
    unsigned runs;
    uint8_t x[255], salt[32], root[16], message2[64 * OPPONENT_RUNS];
};

/* Messages 1 to 4, as the verifier's calls before the opening leave them. */
struct opponent_verifier {
    struct set set;
    unsigned runs;
    uint8_t message1[32 + 32 * OPPONENT_RUNS], message2[64 * OPPONENT_RUNS], message3[32 * OPPONENT_RUNS], leaves[OPPONENT_RUNS];
};

/* Makes the tables of the field. To be called once, before everything else. */
void opponent_prepare(void);

/* Gives message 1. Answers 0, or 3 where x has more than w nonzero entries. */
unsigned opponent_begin(struct opponent_prover *prover, const struct set *set, unsigned runs, const uint8_t *x_a,
                        const uint8_t *salt, const uint8_t *root, const struct key *key, uint8_t *message1);

/* Gives message 3. */
void opponent_points(struct opponent_prover *prover, const uint8_t *message2, const struct key *key, uint8_t *message3);

/* Gives message 5. */
void opponent_leaf(const struct opponent_prover *prover, const uint8_t *leaves, const struct key *key, uint8_t *message5);

/* Answers 0 where all runs are accepted; of the lowest that is not, 5 where the recomputed h differs, 7 where h' does. */
unsigned opponent_opening(const struct opponent_verifier *verifier, const uint8_t *message5, const struct key *key);

/* Two openings of one exchange that hide different leaves in some run; what is answered is what unlock_extract answers. */
uint32_t opponent_extract(const struct opponent_verifier *first, const uint8_t *first5, const struct opponent_verifier *second,
                          const uint8_t *second5, const struct key *key, uint8_t *out);

#endif
