/* The parties of all axes (document 01, Parties), and h'. */
#ifndef OPPONENT_PARTIES_H
#define OPPONENT_PARTIES_H

#include "evaluation.h"
#include "strings.h"

/* What is hashed of the parties, and its digests. */
struct response {
    uint8_t rows[MAX_AXES][24 * MAX_POSITIONS]; /* alpha, beta, v of party 1, then of party 2 */
    uint8_t digests[PREFIX + DIGEST * MAX_AXES];
    uint8_t h[DIGEST];
};

/* alpha and beta: of a leaf, or summed over the parties of an axis. */
struct blinded {
    point alpha[MAX_POSITIONS], beta[MAX_POSITIONS];
};

/* alpha and beta of a vector x and the coefficients of Q; a and b are those of the share. */
void blind(const struct positions *positions, const uint8_t *x, const uint8_t *q, unsigned q_length, const uint64_t *share,
           struct blinded *blinded);

/* From the sums of the parties that leaf apart is not in. The other party of an axis has the rest of alpha and beta, and since
   v sums to zero the same v. */
void respond(const struct positions *positions, const struct key *key, const struct salted *salted,
             uint64_t (*parties)[SHARE_WORDS], unsigned apart, const struct blinded *sums, struct response *response);

#endif
