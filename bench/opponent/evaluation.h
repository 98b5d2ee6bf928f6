/* S, Q and P of shares at the points of message 2. */
#ifndef OPPONENT_EVALUATION_H
#define OPPONENT_EVALUATION_H

#include "field.h"
#include "layout.h"

/*
 * By Lagrange S(r) is F(r) times the sum of x_f / (F'(f) (r + f)) over the interpolation points f, so that S, Q and P alike are
 * sums of bytes times constants of a position. These constants are kept as four bytes c0 to c3 that stand for c0 + c1 r + c2
 * r^2 + c3 r^3; so are the sums, which are made points and multiplied with F(r) and epsilon at the end.
 */
struct positions {
    const struct set *set;
    uint8_t inverses[255][4 * MAX_POSITIONS]; /* 1 / (F'(f) (r + f)), at f - 1 */
    uint8_t powers[256][4 * MAX_POSITIONS];   /* r^j */
    point s[MAX_POSITIONS][4], q[MAX_POSITIONS][4], p[MAX_POSITIONS][4]; /* 1 to r^3 times F(r), epsilon, epsilon F(r) */
};

struct values {
    point s[MAX_POSITIONS], q[MAX_POSITIONS], p[MAX_POSITIONS]; /* S(r), epsilon Q(r), epsilon F(r) P(r) */
};

/* 1 / F'(f), at f - 1: what the positions of all runs have in common. */
struct factors {
    uint8_t of[255];
};
void make_factors(struct factors *factors, const struct set *set);

/* Points, then multipliers, as a run's part of message 2 has them. */
void make_positions(struct positions *positions, const struct set *set, const struct factors *factors, const uint8_t *message2);

/* S of a vector x, and Q of some coefficients; p is left as it is. */
void evaluate_one(const struct positions *positions, const uint8_t *x, const uint8_t *q, unsigned q_length, struct values *values);

/* Those of up to eight shares; constants has ff in the byte of each share that takes y and the leading 1 of Q. */
void evaluate_shares(const struct positions *positions, const struct key *key, uint64_t (*shares)[SHARE_WORDS], unsigned count,
                     uint64_t constants, struct values *values);

#endif
