/* The sizes of include/unlock.h: each macro gives what its function gives, for all parameters within their limits at m 255 and for
   all run counts. */
#include <stdio.h>

#include "unlock.h"

static const uint8_t leaves[UNLOCK_RUNS_MAX + 1]; /* leaf 0 in every run, and one run too many */
static uint64_t set[UNLOCK_SET_LENGTH] = { 255 };

/* At the set that is held. */
static int runs_agree(uint64_t k, uint64_t w, uint64_t D, uint64_t t, uint64_t runs)
{
    return unlock_opening_size(set, UNLOCK_SET_LENGTH, leaves, runs) == UNLOCK_OPENING_MAX(k, w, D, t, runs)
        && unlock_extract_size(set, UNLOCK_SET_LENGTH, runs) == UNLOCK_EXTRACT_SIZE(k, w, D, t, runs);
}

static int no_size(uint64_t runs)
{
    return unlock_opening_size(set, UNLOCK_SET_LENGTH, leaves, runs) == 0 && unlock_extract_size(set, UNLOCK_SET_LENGTH, runs) == 0;
}

int main(void)
{
    uint64_t *k = set + 1, *w = set + 2, *D = set + 3, *t = set + 4, runs = 0;
    int agree = unlock_prover_size() == UNLOCK_PROVER_SIZE && unlock_verifier_size() == UNLOCK_VERIFIER_SIZE;
    for (*k = 1; *k < 255; ++*k)
        for (*w = 1; *w <= 255; ++*w)
            for (*D = 1; *D <= 8; ++*D)
                for (*t = 1; *t <= 8; ++*t, runs++)
                    agree = agree && unlock_work_size(set, UNLOCK_SET_LENGTH) == UNLOCK_WORK_SIZE(*k, *w, *D, *t)
                        && runs_agree(*k, *w, *D, *t, 1 + runs % 3) && runs_agree(*k, *w, *D, *t, 1 + runs % 7 * 31 / 6);
    *k = 126, *w = 79, *D = 8, *t = 3;
    for (runs = 1; runs <= UNLOCK_RUNS_MAX; runs++) agree = agree && runs_agree(*k, *w, *D, *t, runs);
    agree = agree && no_size(0) && no_size(UNLOCK_RUNS_MAX + 1);
    if (!agree) printf("a macro differs from its function\n");
    return !agree;
}
