#include "opening.h"

#include <string.h>

#include "key.h"

/* Siblings, the hidden leaf's commitment, its alpha and beta, aux. */
static const uint8_t *commitment_in(const struct set *set, const uint8_t *message5) { return message5 + 16 * set->D; }
static const uint8_t *blinded_in(const struct set *set, const uint8_t *message5) { return commitment_in(set, message5) + DIGEST; }
static const uint8_t *aux_in(const struct set *set, const uint8_t *message5) { return blinded_in(set, message5) + 8 * set->t; }

/* What a run's opening is held to. */
struct statement {
    const struct set *set;
    const uint8_t *salt, *h, *message2, *response;
    unsigned run, leaf;
};

static struct statement statement_of(const struct opponent_verifier *verifier, unsigned run)
{
    struct statement statement = {
        .set = &verifier->set,
        .salt = verifier->message1,
        .h = verifier->message1 + 32 + DIGEST * run,
        .message2 = verifier->message2 + 8 * verifier->set.t * run,
        .response = verifier->message3 + DIGEST * run,
        .run = run,
        .leaf = verifier->leaves[run],
    };
    return statement;
}

static void recompute_leaves(const struct statement *statement, const uint8_t *message5, struct opening *opening, uint8_t h[DIGEST])
{
    const struct set *set = statement->set;
    struct pass *pass = &opening->pass;
    pass->set = set;
    pass->apart = statement->leaf;
    pass->aux = statement->leaf == last_leaf(set) ? 0 : aux_in(set, message5);
    pass->parties = opening->parties;
    pass->commitments = opening->commitments + PREFIX;
    pass->siblings = 0;
    pass->share = 0;
    salt_strings(&pass->salted, statement->salt, statement->run);
    memset(opening->parties, 0, sizeof opening->parties);
    pass_siblings(pass, message5, opening->sum);
    memcpy(pass->commitments + DIGEST * statement->leaf, commitment_in(set, message5), DIGEST);
    put_prefix(opening->commitments, 5, &pass->salted);
    hash_string(opening->commitments, PREFIX + DIGEST * leaves(set), h);
}

/* alpha and beta summed over the parties of an axis: those of the sum of all leaves but the hidden one, and its own. */
static void sum_blinded(const struct positions *positions, const struct key *key, const uint64_t *sum, const uint8_t *hidden,
                        struct blinded *sums)
{
    const struct set *set = positions->set;
    uint8_t x[255], q[256];
    point own[2 * MAX_POSITIONS];
    vector(set, key, x_a_of(set, sum), x);
    memcpy(q, q_of(set, sum), set->w);
    q[set->w] = 1;
    blind(positions, x, q, set->w + 1, sum, sums);
    memcpy(own, hidden, 8 * set->t);
    for (unsigned l = 0; l < set->t; l++) {
        sums->alpha[l] ^= own[l];
        sums->beta[l] ^= own[set->t + l];
    }
}

/* The party with the hidden leaf has the v that makes the sum zero, which is that of the other, so the sums agree on all axes. */
static unsigned check_run(const struct statement *statement, const struct factors *factors, const uint8_t *message5,
                          const struct key *key, struct opening *opening)
{
    struct positions positions;
    struct blinded sums;
    uint8_t h[DIGEST];
    recompute_leaves(statement, message5, opening, h);
    if (memcmp(h, statement->h, DIGEST)) return 5;
    make_positions(&positions, statement->set, factors, statement->message2);
    sum_blinded(&positions, key, opening->sum, blinded_in(statement->set, message5), &sums);
    respond(&positions, key, &opening->pass.salted, opening->parties, statement->leaf, &sums, &opening->response);
    return memcmp(opening->response.h, statement->response, DIGEST) ? 7 : 0;
}

unsigned check_opening(const struct opponent_verifier *verifier, const uint8_t *message5, const struct key *key,
                       struct opening *openings, unsigned step)
{
    struct factors factors;
    make_factors(&factors, &verifier->set);
    for (unsigned run = 0; run < verifier->runs; run++) {
        struct statement statement = statement_of(verifier, run);
        unsigned answer = check_run(&statement, &factors, message5, key, openings + step * run);
        if (answer) return answer;
        message5 += opening_length(&verifier->set, statement.leaf);
    }
    return 0;
}

unsigned opponent_opening(const struct opponent_verifier *verifier, const uint8_t *message5, const struct key *key)
{
    struct opening opening;
    return check_opening(verifier, message5, key, &opening, 0);
}
