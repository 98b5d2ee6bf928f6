/*
 * One unlock exchange at the shipped set, probe and target in one program, through include/unlock.h. It runs on x86-64 (main.c)
 * and on a bare Cortex-M4 (firmware/main.c).
 *
 * The probe holds the key and is the prover, the target is the verifier. All storage is static and nothing is allocated.
 * Salt, root, points and leaves are expanded from labels, so that the program always prints the same; a product draws them fresh
 * from its random source: salt and root on the probe, points and leaves on the target.
 */
#include <stddef.h>
#include <stdint.h>

#include "exchange.h"
#include "print.h"
#include "unlock.h"

/* The shipped set. */
enum { M = 230, K = 126, W = 79, AXES = 8, T = 3 };
static const uint64_t set[UNLOCK_SET_LENGTH] = { M, K, W, AXES, T };

/* The run count. A prover without the key is accepted with a chance of 2^-(RUNS * AXES), here 2^-136. */
#ifndef RUNS
#define RUNS 17
#endif

/* Public: the matrix H', row after row, expanded from a label, and y. */
static uint8_t matrix[(M - K) * K];
static const uint8_t y[M - K] = {
    0x35, 0xa3, 0xe1, 0x98, 0x4c, 0x1d, 0xda, 0xce, 0x6a, 0x47, 0xab, 0x87, 0x4e, 0xc1, 0x0c, 0xd7, 0x11, 0x0e, 0xd7, 0x56, 0x18,
    0xcc, 0x6e, 0x27, 0xb6, 0xe2, 0x00, 0x9f, 0xb5, 0x75, 0x9a, 0x1a, 0xde, 0x7b, 0x04, 0xc9, 0x54, 0xdc, 0xc3, 0xea, 0x1d, 0xf3,
    0x01, 0xd8, 0x32, 0x33, 0x6f, 0x46, 0xb8, 0x06, 0x8a, 0x2e, 0x1d, 0x61, 0xcc, 0xff, 0x57, 0xd9, 0x3e, 0x1e, 0x1d, 0x29, 0x2e,
    0x1a, 0x12, 0xa0, 0x00, 0xcc, 0xfd, 0x9a, 0xaf, 0x93, 0x6d, 0x5e, 0x06, 0x79, 0xe7, 0xcb, 0xed, 0x12, 0xb0, 0x1a, 0xc1, 0xe5,
    0x03, 0x53, 0xaf, 0xec, 0x2d, 0x87, 0x06, 0x21, 0x70, 0x6e, 0x78, 0x32, 0xb7, 0x1c, 0x23, 0x87, 0x2b, 0xd6, 0x6f, 0x8f,
};

/* Secret: x_A. Only the probe has it. */
static const uint8_t x_a[K] = {
    0x00, 0x00, 0x00, 0x00, 0xc0, 0x00, 0xdb, 0x33, 0x61, 0x5a, 0x00, 0x00, 0x00, 0x00, 0x00, 0x00, 0x00, 0x00, 0xdd, 0x00, 0x6e,
    0x8b, 0x00, 0x00, 0xba, 0x00, 0x00, 0x00, 0x0a, 0x00, 0x00, 0x00, 0x00, 0x00, 0x00, 0x00, 0x00, 0x00, 0xc7, 0x00, 0x00, 0x00,
    0x00, 0x77, 0x00, 0x00, 0x2f, 0x00, 0x1a, 0x00, 0x2d, 0xed, 0x0c, 0x00, 0x00, 0xfc, 0x00, 0x00, 0x00, 0xfd, 0x8f, 0x0a, 0x00,
    0x00, 0x00, 0x00, 0x00, 0x00, 0x00, 0x68, 0x00, 0x00, 0xdd, 0x00, 0x00, 0xcc, 0x00, 0x00, 0x00, 0x00, 0x00, 0xe3, 0x89, 0xad,
    0x74, 0x49, 0x59, 0x00, 0x81, 0x00, 0x00, 0x00, 0x00, 0x00, 0x00, 0x00, 0x00, 0x00, 0x00, 0xb6, 0x7f, 0x0d, 0x00, 0x00, 0x00,
    0x00, 0x6d, 0x00, 0x00, 0x00, 0x00, 0x00, 0x48, 0xd1, 0x00, 0x00, 0x00, 0x00, 0x41, 0x00, 0x00, 0x00, 0x00, 0x00, 0x00, 0xe1,
};

static uint8_t prover[UNLOCK_PROVER_SIZE], verifier[UNLOCK_VERIFIER_SIZE]; /* the sessions */
static uint8_t work[UNLOCK_WORK_SIZE(K, W, AXES, T)];                      /* one is enough for both: no call keeps anything in it */
static uint8_t salt[32], root[16];
static uint8_t message1[UNLOCK_MESSAGE1_SIZE(RUNS)], message2[UNLOCK_MESSAGE2_SIZE(T, RUNS)], message3[UNLOCK_MESSAGE3_SIZE(RUNS)];
static uint8_t leaves[RUNS], message5[UNLOCK_OPENING_MAX(K, W, AXES, T, RUNS)];

/* Leaves the function with the answer of a call that was refused. */
#define TRY(call)                                    \
    do {                                             \
        uint8_t answer = (call);                     \
        if (answer != UNLOCK_DONE) return answer;    \
    } while (0)

/* Bytes from a label: stands in for a random source. */
#define LABEL(name) "Risvatey unlock: " name
#define EXPAND(name, out, length) unlock_shake256((const uint8_t *)LABEL(name), sizeof LABEL(name) - 1, out, length)

/* A message's name, its length and the digest of its bytes. */
static void report(const char *name, const uint8_t *message, uint64_t length)
{
    uint8_t digest[32];
    unlock_shake256(message, length, digest, sizeof digest);
    print(name);
    print("\t");
    print_number((uint32_t)length);
    print("\t");
    print_bytes(digest, sizeof digest);
    print("\n");
}

/* Is the library linked the one that the header's sizes are of? */
static int storage_fits(void)
{
    return unlock_prover_size() == sizeof prover && unlock_verifier_size() == sizeof verifier
        && unlock_work_size(set, UNLOCK_SET_LENGTH) == sizeof work
        && unlock_opening_size(set, UNLOCK_SET_LENGTH, leaves, sizeof leaves) == sizeof message5; /* with leaf 0 in every run */
}

/* Message 1: the probe commits to the shares of every leaf of every run. */
static uint8_t commitment(void)
{
    EXPAND("salt", salt, sizeof salt);
    EXPAND("root", root, sizeof root);
    TRY(unlock_prover_new(prover, sizeof prover));
    TRY(unlock_prover_begin(prover, sizeof prover, set, UNLOCK_SET_LENGTH, RUNS,
                            x_a, sizeof x_a, salt, sizeof salt, root, sizeof root,
                            matrix, sizeof matrix, y, sizeof y, work, sizeof work, message1, sizeof message1));
    report("1 commitment", message1, sizeof message1);
    TRY(unlock_verifier_new(verifier, sizeof verifier));
    return unlock_verifier_begin(verifier, sizeof verifier, set, UNLOCK_SET_LENGTH, RUNS, message1, sizeof message1);
}

/* Messages 2 and 3: the target asks for the values at its points, the probe answers with a digest. The points of a run have to
   differ, as these do; a product whose random source gives one twice gets UNLOCK_SAME_POINT from the target's call and draws
   again. */
static uint8_t response(void)
{
    EXPAND("points", message2, sizeof message2);
    TRY(unlock_verifier_points(verifier, sizeof verifier, message2, sizeof message2));
    report("2 points", message2, sizeof message2);
    TRY(unlock_prover_points(prover, sizeof prover, message2, sizeof message2,
                             matrix, sizeof matrix, y, sizeof y, work, sizeof work, message3, sizeof message3));
    report("3 response", message3, sizeof message3);
    return unlock_verifier_response(verifier, sizeof verifier, message3, sizeof message3);
}

/* Messages 4 and 5: the target names the leaf of each run that stays hidden, the probe opens all others, the target judges. */
static uint8_t opening(void)
{
    EXPAND("leaf", leaves, sizeof leaves); /* with D = 8 every byte is below n */
    TRY(unlock_verifier_leaf(verifier, sizeof verifier, leaves, sizeof leaves));
    report("4 leaf", leaves, sizeof leaves);
    uint64_t length = unlock_opening_size(set, UNLOCK_SET_LENGTH, leaves, sizeof leaves); /* shorter where the last leaf is hidden */
    TRY(unlock_prover_leaf(prover, sizeof prover, leaves, sizeof leaves,
                           matrix, sizeof matrix, y, sizeof y, work, sizeof work, message5, length));
    report("5 opening", message5, length);
    return unlock_verifier_opening(verifier, sizeof verifier, message5, length,
                                   matrix, sizeof matrix, y, sizeof y, work, sizeof work);
}

static void wipe(volatile uint8_t *bytes, size_t length)
{
    while (length > 0) bytes[--length] = 0;
}

static uint8_t exchange(void)
{
    TRY(commitment());
    TRY(response());
    return opening();
}

static void report_set(void)
{
    print("set");
    for (int i = 0; i < UNLOCK_SET_LENGTH; i++) {
        print("\t");
        print_number((uint32_t)set[i]);
    }
    print("\nruns\t");
    print_number(RUNS);
    print("\n");
}

static void report_verdict(uint8_t answer)
{
    print("verdict\t");
    if (answer == UNLOCK_DONE) {
        print("accepted\nchance\t2^-");
        print_number(RUNS * AXES);
        print("\tabout, that a prover without the key is accepted\n");
    } else {
        print("refused\t");
        print_number(answer);
        print("\n");
    }
}

int run_exchange(void)
{
    if (!storage_fits()) {
        print("the library asks for other lengths\n");
        return 2;
    }
    EXPAND("matrix", matrix, sizeof matrix);
    report_set();
    uint8_t answer = exchange();
    wipe(prover, sizeof prover); /* it holds x and root */
    wipe(root, sizeof root);
    report_verdict(answer);
    return answer == UNLOCK_DONE ? 0 : 1;
}
