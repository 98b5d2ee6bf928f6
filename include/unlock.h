/*
 * The hypercube unlock exchange (document 01): prover, verifier, extractor and SHAKE256. One header for the library on a Cortex-M4
 * (libunlock.a) and on x86-64 (libcapi.a).
 *
 * Slices. A slice is an address and a length, in bytes, or for a set in numbers; every length is a uint64_t, also where size_t is
 * shorter. Slices that a call writes to (session, work, out) may not overlap any other slice of the call. No address is null, not
 * even that of an empty slice. No function allocates, and none keeps an address after it returns.
 *
 * Sessions. A session lives in a buffer that the caller lends, of UNLOCK_PROVER_SIZE or UNLOCK_VERIFIER_SIZE bytes; a buffer of
 * another length gives UNLOCK_LENGTH. A refused call leaves the buffer as it was; of the verifier's opening, UNLOCK_COMMITMENT and
 * UNLOCK_RESPONSE close the exchange. Any bytes are some session, and a damaged one is closed: it answers UNLOCK_CLOSED to every
 * call but begin where its phase is none, or where it was begun and its parameters or its run count are outside their limits, its x
 * is too heavy or a leaf of its runs not below n. Its salt and root still give UNLOCK_REPEATED.
 *
 * Wiping. A prover's session holds the secret x and root: overwrite the buffer when the exchange is over. Bytes that are all 00 or
 * all ff read as a closed session; unlock_prover_new makes it fresh again. Salt and root, which UNLOCK_REPEATED goes by, go with it.
 *
 * Reentrancy. The functions keep no state of their own. Calls may run side by side, in interrupts, threads or on several cores, as
 * long as no slice that one of them writes to is used by another.
 *
 * Parameters. A set is UNLOCK_SET_LENGTH numbers in this order: length m (2 to 255), dimension k (1 to m - 1), weight w (1 to m),
 * axes D (1 to 8), positions t (1 to 8); n = 2^D leaves, numbered from 0. The shipped set is 230, 126, 79, 8, 3. A set of another
 * length gives UNLOCK_LENGTH before everything else, and changes nothing.
 *
 * Runs. An exchange has 1 to UNLOCK_RUNS_MAX runs, numbered from 0, all under one key, one salt and one root. A prover without the
 * key is accepted in one run with a chance of about 1/n, in all of them with about n^-runs. The run count is no number of the set:
 * both begins and the extractor take it, and both sides have to take the same. An exchange is accepted where all its runs are.
 *
 * Points. The t points of a run in message 2 have to differ pairwise, as four bytes: unlock_prover_points, unlock_verifier_points
 * and unlock_extract give UNLOCK_SAME_POINT otherwise. Multipliers may repeat and may equal points, and points of different runs may
 * be equal.
 *
 * Lengths. x_a k, salt 32, root 16, matrix (m - k) k, row after row, y m - k. Message 1 is the salt and a digest of 32 bytes a run,
 * message 2 for one run after another t points, then t multipliers, four bytes each, message 3 a digest of 32 bytes a run, message 4
 * a leaf of one byte a run, message 5 has unlock_opening_size() bytes. The work area has unlock_work_size() bytes or more, whatever
 * the run count; past all checks that length of it ends as zeros. A refused call writes no output. The macros give the same lengths
 * as constants, for static arrays; their parameters have to be within their limits.
 */
#ifndef UNLOCK_H
#define UNLOCK_H

#include <stdint.h>

#ifdef __cplusplus
extern "C" {
#endif

/*
 * What a call answers. A call that several refusals would fit gives the first of 12, 11, 1, 2, 14, 3, 4, 13, 8, 9, 5, 7. Without a
 * session 12 and 11 cannot be told: a session buffer of wrong length gives 2 before them, but at begin 1 before 2. Without a set 1
 * cannot be told: a set of wrong length gives 2 before it. No call answers 6, nor 10, which is the programs'.
 */
enum {
    UNLOCK_DONE = 0,        /* carried out; of an opening: accepted */
    UNLOCK_PARAMETER = 1,   /* a parameter or the run count outside its limits */
    UNLOCK_LENGTH = 2,      /* a slice of wrong length */
    UNLOCK_WEIGHT = 3,      /* x has more than w nonzero entries */
    UNLOCK_LEAF = 4,        /* a leaf number not below n */
    UNLOCK_COMMITMENT = 5,  /* the recomputed h differs, in the lowest run that is refused */
    UNLOCK_SUMS = 6,        /* unused: the sums of alpha, beta and v agree on all axes of every opening */
    UNLOCK_RESPONSE = 7,    /* the recomputed h' differs, in the lowest run that is refused */
    UNLOCK_EXCHANGE = 8,    /* extractor: salt, h, points, multipliers or h' differ */
    UNLOCK_SAME_LEAF = 9,   /* extractor: same hidden leaf in every run */
    UNLOCK_NOT_DUE = 11,    /* the call is not due */
    UNLOCK_CLOSED = 12,     /* the exchange is closed, only begin is due */
    UNLOCK_REPEATED = 13,   /* salt and root both equal those of the exchange held */
    UNLOCK_SAME_POINT = 14  /* two points of one run are equal */
};

/* ---- lengths */

/* The numbers of a set. */
#define UNLOCK_SET_LENGTH 5

/* The most runs of an exchange. */
#define UNLOCK_RUNS_MAX 32

/* The bytes of a session, for any set and run count. */
#define UNLOCK_PROVER_SIZE 2358
#define UNLOCK_VERIFIER_SIZE 4167
uint64_t unlock_prover_size(void);
uint64_t unlock_verifier_size(void);

/* The length of the work area; a longer one is taken too. 0 where a parameter is outside its limits or the set has another
   length. */
#define UNLOCK_WORK_SIZE(k, w, D, t) (2 * (D) * ((k) + 2 * (w) + 12 * (t)))
uint64_t unlock_work_size(const uint64_t *set, uint64_t set_length);

/* The lengths of messages 1 to 3. */
#define UNLOCK_MESSAGE1_SIZE(runs) (32 + 32 * (runs))
#define UNLOCK_MESSAGE2_SIZE(t, runs) (8 * (t) * (runs))
#define UNLOCK_MESSAGE3_SIZE(runs) (32 * (runs))

/* The length of message 5 where these leaves are hidden, one a run: UNLOCK_OPENING_MAX, less for each that is leaf n - 1. 0 as
   above, and for more leaves than an exchange may have runs, or none. */
#define UNLOCK_OPENING_MAX(k, w, D, t, runs) ((runs) * (16 * (D) + 32 + 8 * (t) + (k) + 2 * (w) + 4 * (t)))
uint64_t unlock_opening_size(const uint64_t *set, uint64_t set_length, const uint8_t *leaves, uint64_t leaves_length);

/* The length of the extractor's output. 0 as above, and for a run count outside its limits. */
#define UNLOCK_EXTRACT_SIZE(k, w, D, t, runs) ((runs) * ((32 << (D)) + (k) + 2 * (w) + 4 * (t)))
uint64_t unlock_extract_size(const uint64_t *set, uint64_t set_length, uint64_t runs);

/* ---- prover */

/* A fresh session, before its first begin. */
uint8_t unlock_prover_new(uint8_t *session, uint64_t session_length);

/* Begins an exchange of so many runs, dropping the one held, and gives message 1. Salt and root have to be random and fresh. */
uint8_t unlock_prover_begin(uint8_t *session, uint64_t session_length,
                            const uint64_t *set, uint64_t set_length,
                            uint64_t runs,
                            const uint8_t *x_a, uint64_t x_a_length,
                            const uint8_t *salt, uint64_t salt_length,
                            const uint8_t *root, uint64_t root_length,
                            const uint8_t *matrix, uint64_t matrix_length,
                            const uint8_t *y, uint64_t y_length,
                            uint8_t *work, uint64_t work_length,
                            uint8_t *out, uint64_t out_length);

/* Takes message 2 and gives message 3. UNLOCK_SAME_POINT where two points of one run are equal. */
uint8_t unlock_prover_points(uint8_t *session, uint64_t session_length,
                             const uint8_t *message2, uint64_t message2_length,
                             const uint8_t *matrix, uint64_t matrix_length,
                             const uint8_t *y, uint64_t y_length,
                             uint8_t *work, uint64_t work_length,
                             uint8_t *out, uint64_t out_length);

/* Takes message 4, the leaf of each run that stays hidden, gives message 5 and closes the exchange. */
uint8_t unlock_prover_leaf(uint8_t *session, uint64_t session_length,
                           const uint8_t *leaves, uint64_t leaves_length,
                           const uint8_t *matrix, uint64_t matrix_length,
                           const uint8_t *y, uint64_t y_length,
                           uint8_t *work, uint64_t work_length,
                           uint8_t *out, uint64_t out_length);

/* ---- verifier */

/* A fresh session, before its first begin. */
uint8_t unlock_verifier_new(uint8_t *session, uint64_t session_length);

/* Begins an exchange with its parameters, its run count and message 1, dropping the one held. */
uint8_t unlock_verifier_begin(uint8_t *session, uint64_t session_length,
                              const uint64_t *set, uint64_t set_length,
                              uint64_t runs,
                              const uint8_t *message1, uint64_t message1_length);

/* Takes message 2, which the verifier sends: points and multipliers have to be random. UNLOCK_SAME_POINT where two points of one run
   are equal: draw them again and repeat the call, before message 2 is sent. */
uint8_t unlock_verifier_points(uint8_t *session, uint64_t session_length,
                               const uint8_t *message2, uint64_t message2_length);

/* Takes message 3. */
uint8_t unlock_verifier_response(uint8_t *session, uint64_t session_length,
                                 const uint8_t *message3, uint64_t message3_length);

/* Takes message 4, which the verifier sends: the leaf of each run that stays hidden has to be random. */
uint8_t unlock_verifier_leaf(uint8_t *session, uint64_t session_length,
                             const uint8_t *leaves, uint64_t leaves_length);

/* Judges message 5, run after run, and closes the exchange: UNLOCK_DONE where all runs are accepted, else the number of the lowest
   that is refused. */
uint8_t unlock_verifier_opening(uint8_t *session, uint64_t session_length,
                                const uint8_t *message5, uint64_t message5_length,
                                const uint8_t *matrix, uint64_t matrix_length,
                                const uint8_t *y, uint64_t y_length,
                                uint8_t *work, uint64_t work_length);

/* ---- extractor */

/*
 * From messages 1 to 5 of two exchanges of so many runs. A refusal is its number, UNLOCK_SAME_POINT where two points of one run of
 * either exchange are equal. 65536 * layer + 256 * run + number for two unequal strings of one run, layer (4 to 7) and number that
 * have one digest: out is as it was. Else 256 * (run + 1) + axis (from 1), of the lowest run whose hidden leaves differ: out has a
 * part for each run, filled where its hidden leaves differ, with seed and rho of every leaf, then aux, and elsewhere as it was.
 */
uint32_t unlock_extract(const uint64_t *set, uint64_t set_length,
                        uint64_t runs,
                        const uint8_t *first1, uint64_t first1_length,
                        const uint8_t *first2, uint64_t first2_length,
                        const uint8_t *first3, uint64_t first3_length,
                        const uint8_t *first4, uint64_t first4_length,
                        const uint8_t *first5, uint64_t first5_length,
                        const uint8_t *second1, uint64_t second1_length,
                        const uint8_t *second2, uint64_t second2_length,
                        const uint8_t *second3, uint64_t second3_length,
                        const uint8_t *second4, uint64_t second4_length,
                        const uint8_t *second5, uint64_t second5_length,
                        const uint8_t *matrix, uint64_t matrix_length,
                        const uint8_t *y, uint64_t y_length,
                        uint8_t *work, uint64_t work_length,
                        uint8_t *out, uint64_t out_length);

/* ---- hash */

/* SHAKE256 of the message: fills out. */
void unlock_shake256(const uint8_t *message, uint64_t message_length, uint8_t *out, uint64_t out_length);

#ifdef __cplusplus
}
#endif

#endif
