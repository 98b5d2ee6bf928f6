/* The check of an opening (document 01, Parties), for verifier and extractor. */
#ifndef OPPONENT_OPENING_H
#define OPPONENT_OPENING_H

#include "leaves.h"
#include "parties.h"

/* What a run's opening gives, and the strings hashed in checking it. */
struct opening {
    struct pass pass;
    uint64_t parties[MAX_AXES][SHARE_WORDS], sum[SHARE_WORDS]; /* of the parties without the hidden leaf, of all leaves but it */
    uint8_t commitments[PREFIX + DIGEST * MAX_LEAVES];
    struct response response;
};

/* Judges the runs in turn, up to the first that is refused: 0, 5 or 7. What each gives stands in openings, step apart: 0 where only
   the last one is kept. */
unsigned check_opening(const struct opponent_verifier *verifier, const uint8_t *message5, const struct key *key,
                       struct opening *openings, unsigned step);

#endif
