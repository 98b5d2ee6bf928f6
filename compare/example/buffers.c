/* Session buffers of another length: 2, at begin 1 before 2, also for the run count; sets of another length: 2 before 1; and
   nothing is written. */
#include <stdio.h>
#include <string.h>

#include "unlock.h"

static uint8_t session[UNLOCK_VERIFIER_SIZE + 1], held[sizeof session], work[UNLOCK_WORK_SIZE(1, 1, 1, 1)];
static const uint8_t x_a[1] = {5}, matrix[1] = {1}, y[1] = {5}, salt[32], root[16], message1[64], message2[8];
static const uint8_t leaves[1];
static uint8_t out[64], message5[UNLOCK_OPENING_MAX(1, 1, 1, 1, 1)];
static const uint64_t set[] = { 2, 1, 1, 1, 1, 1 }, long_m[] = { 256, 1, 1, 1, 1, 1 }, many_t[] = { 2, 1, 1, 1, 9, 1 };
static int passed = 1;

static void expect(const char *call, unsigned answer, unsigned number)
{
    int kept = memcmp(session, held, sizeof session) == 0;
    if (answer == number && kept) return;
    printf("%s: %u, expected %u; the buffer is %s\n", call, answer, number, kept ? "as it was" : "changed");
    passed = 0;
}

/* The lengths of both session buffers. */
struct lengths {
    uint64_t prover, verifier;
};

/* The call begin of both sessions, with the first so many numbers of a set. */
static void try_begins(const char *name, struct lengths of, const uint64_t *numbers, uint64_t length, uint64_t runs, unsigned number)
{
    expect(name, unlock_prover_begin(session, of.prover, numbers, length, runs, x_a, 1, salt, 32, root, 16, matrix, 1, y, 1,
                                     work, sizeof work, out, 64), number);
    expect(name, unlock_verifier_begin(session, of.verifier, numbers, length, runs, message1, 64), number);
}

static void try_sets(struct lengths of)
{
    const uint64_t lengths[] = { 0, 1, 4, 6 };
    for (int i = 0; i < 4; i++) {
        try_begins("begin, a set of another length", of, set, lengths[i], 1, 2);
        try_begins("begin, a set of another length, m 256", of, long_m, lengths[i], 1, 2);
        try_begins("begin, a set of another length, 33 runs", of, set, lengths[i], UNLOCK_RUNS_MAX + 1, 2);
    }
}

static void try_lengths(struct lengths of)
{
    const uint64_t prover = of.prover, verifier = of.verifier;
    expect("prover new", unlock_prover_new(session, prover), 2);
    expect("verifier new", unlock_verifier_new(session, verifier), 2);
    try_begins("begin, m 256", of, long_m, UNLOCK_SET_LENGTH, 1, 1);
    try_begins("begin, t 9", of, many_t, UNLOCK_SET_LENGTH, 1, 1);
    try_begins("begin, no run", of, set, UNLOCK_SET_LENGTH, 0, 1);
    try_begins("begin, 33 runs", of, set, UNLOCK_SET_LENGTH, UNLOCK_RUNS_MAX + 1, 1);
    try_begins("begin, 2^32 + 1 runs", of, set, UNLOCK_SET_LENGTH, ((uint64_t)1 << 32) + 1, 1);
    try_begins("begin", of, set, UNLOCK_SET_LENGTH, 1, 2);
    try_sets(of);
    expect("prover points", unlock_prover_points(session, prover, message2, 8, matrix, 1, y, 1, work, sizeof work, out, 32), 2);
    expect("prover leaf", unlock_prover_leaf(session, prover, leaves, 1, matrix, 1, y, 1, work, sizeof work, message5, sizeof message5), 2);
    expect("verifier points", unlock_verifier_points(session, verifier, message2, 8), 2);
    expect("verifier response", unlock_verifier_response(session, verifier, out, 32), 2);
    expect("verifier leaf", unlock_verifier_leaf(session, verifier, leaves, 1), 2);
    expect("verifier opening", unlock_verifier_opening(session, verifier, message5, sizeof message5, matrix, 1, y, 1, work, sizeof work), 2);
}

int main(void)
{
    memset(session, 0xa5, sizeof session);
    memcpy(held, session, sizeof session);
    try_lengths((struct lengths){ UNLOCK_PROVER_SIZE - 1, UNLOCK_VERIFIER_SIZE - 1 });
    try_lengths((struct lengths){ UNLOCK_PROVER_SIZE + 1, UNLOCK_VERIFIER_SIZE + 1 });
    try_sets((struct lengths){ UNLOCK_PROVER_SIZE, UNLOCK_VERIFIER_SIZE });
    return !passed;
}
