#include <string.h>

#include "field.h"
#include "key.h"
#include "leaves.h"
#include "parties.h"

void opponent_prepare(void) { opponent_make_tables(); }

/* Q and P of the key, the same in all runs. */
struct witness {
    uint8_t q[256], p[255];
};

static void make_witness(const struct opponent_prover *prover, struct witness *witness)
{
    make_q(&prover->set, prover->x, witness->q);
    make_p(&prover->set, prover->x, witness->q, witness->p);
}

/* Gives the root seed of the run. */
static void start_pass(struct pass *pass, const struct opponent_prover *prover, unsigned run, unsigned apart, uint64_t seed[2])
{
    pass->set = &prover->set;
    pass->apart = apart;
    pass->aux = 0;
    pass->parties = 0;
    pass->commitments = 0;
    pass->siblings = 0;
    pass->share = 0;
    salt_strings(&pass->salted, prover->salt, run);
    hash_root(&pass->salted, prover->root, seed);
}

/* What x_A, Q, P and c = a b have to sum to, less the sum of all leaves without aux. */
static void make_aux(const struct opponent_prover *prover, const struct witness *witness, const uint64_t *sum, uint8_t *aux)
{
    const struct set *set = &prover->set;
    memcpy(aux, prover->x, set->k);
    memcpy(aux + set->k, witness->q, set->w);
    memcpy(aux + set->k + set->w, witness->p, set->w);
    for (unsigned l = 0; l < set->t; l++) {
        point c = point_product(read_point(a_of(sum), l), read_point(b_of(set, sum), l));
        write_point(aux + set->k + 2 * set->w, l, c);
    }
    for (size_t i = 0; i < aux_length(set); i++) aux[i] ^= aux_of(set, sum)[i];
}

/* h of a run. */
static void commit_run(const struct opponent_prover *prover, const struct witness *witness, unsigned run, uint8_t h[DIGEST])
{
    const struct set *set = &prover->set;
    struct pass pass;
    uint8_t aux[MAX_AUX], commitments[PREFIX + DIGEST * MAX_LEAVES];
    uint64_t sum[SHARE_WORDS], seed[2];
    unsigned last = last_leaf(set);
    start_pass(&pass, prover, run, last, seed);
    pass.commitments = commitments + PREFIX;
    pass_tree(&pass, seed, sum);
    make_aux(prover, witness, sum, aux);
    hash_last_state(&pass.salted, last, pass.states[last], aux, aux_length(set), pass.commitments + DIGEST * last);
    put_prefix(commitments, 5, &pass.salted);
    hash_string(commitments, PREFIX + DIGEST * leaves(set), h);
}

unsigned opponent_begin(struct opponent_prover *prover, const struct set *set, unsigned runs, const uint8_t *x_a,
                        const uint8_t *salt, const uint8_t *root, const struct key *key, uint8_t *message1)
{
    struct witness witness;
    uint8_t x[255];
    vector(set, key, x_a, x);
    if (weight(set, x) > set->w) return 3;
    prover->set = *set;
    prover->runs = runs;
    memcpy(prover->x, x, set->m);
    memcpy(prover->salt, salt, 32);
    memcpy(prover->root, root, 16);
    make_witness(prover, &witness);
    memcpy(message1, salt, 32);
    for (unsigned run = 0; run < runs; run++) commit_run(prover, &witness, run, message1 + 32 + DIGEST * run);
    return 0;
}

/* h' of a run. Leaf n - 1 is in party 2 of every axis, so that aux is in no sum that is evaluated. Over all leaves x_A and Q sum to
   those of the key, and v to zero, since S Q = F P. */
static void answer_run(const struct opponent_prover *prover, const uint8_t *q, const struct factors *factors, unsigned run,
                       const struct key *key, uint8_t h[DIGEST])
{
    const struct set *set = &prover->set;
    struct pass pass;
    struct positions positions;
    struct blinded sums;
    struct response response;
    uint64_t parties[MAX_AXES][SHARE_WORDS] = { { 0 } }, sum[SHARE_WORDS], seed[2];
    start_pass(&pass, prover, run, last_leaf(set), seed);
    pass.parties = parties;
    pass_tree(&pass, seed, sum);
    make_positions(&positions, set, factors, prover->message2 + 8 * set->t * run);
    blind(&positions, prover->x, q, set->w + 1, sum, &sums);
    respond(&positions, key, &pass.salted, parties, pass.apart, &sums, &response);
    memcpy(h, response.h, DIGEST);
}

void opponent_points(struct opponent_prover *prover, const uint8_t *message2, const struct key *key, uint8_t *message3)
{
    struct factors factors;
    uint8_t q[256];
    memcpy(prover->message2, message2, 8 * prover->set.t * prover->runs);
    make_factors(&factors, &prover->set);
    make_q(&prover->set, prover->x, q);
    for (unsigned run = 0; run < prover->runs; run++) answer_run(prover, q, &factors, run, key, message3 + DIGEST * run);
}

/* alpha and beta of the hidden leaf, without constants. */
static void put_blinded(const struct opponent_prover *prover, const struct factors *factors, unsigned run, const struct key *key,
                        const uint64_t *share, uint8_t *to)
{
    const struct set *set = &prover->set;
    struct positions positions;
    struct blinded blinded;
    uint8_t x[255];
    make_positions(&positions, set, factors, prover->message2 + 8 * set->t * run);
    image(set, key->matrix, x_a_of(set, share), x);
    blind(&positions, x, q_of(set, share), set->w, share, &blinded);
    memcpy(to, blinded.alpha, 4 * set->t);
    memcpy(to + 4 * set->t, blinded.beta, 4 * set->t);
}

/* The opening of a run without alpha and beta; gives the hidden leaf's share. */
static void open_run(const struct opponent_prover *prover, const struct witness *witness, unsigned run, uint8_t leaf,
                     uint64_t *share, uint8_t *opening)
{
    const struct set *set = &prover->set;
    struct pass pass;
    uint8_t aux[MAX_AUX], *commitment = opening + 16 * set->D;
    uint64_t sum[SHARE_WORDS], seed[2];
    start_pass(&pass, prover, run, leaf, seed);
    pass.siblings = opening;
    pass.share = share;
    pass_tree(&pass, seed, sum);
    make_aux(prover, witness, sum, aux);
    if (leaf == last_leaf(set)) {
        memcpy((uint8_t *)share + 8 * set->t, aux, aux_length(set));
        hash_last_state(&pass.salted, leaf, pass.states[leaf], aux, aux_length(set), commitment);
    } else {
        hash_state(&pass.salted, leaf, pass.states[leaf], commitment);
        memcpy(commitment + DIGEST + 8 * set->t, aux, aux_length(set));
    }
}

void opponent_leaf(const struct opponent_prover *prover, const uint8_t *leaves, const struct key *key, uint8_t *message5)
{
    const struct set *set = &prover->set;
    struct witness witness;
    struct factors factors;
    uint64_t share[SHARE_WORDS];
    make_witness(prover, &witness);
    make_factors(&factors, set);
    for (unsigned run = 0; run < prover->runs; run++) {
        open_run(prover, &witness, run, leaves[run], share, message5);
        put_blinded(prover, &factors, run, key, share, message5 + 16 * set->D + DIGEST);
        message5 += opening_length(set, leaves[run]);
    }
}
