/* What the prover holds (document 01, Key and polynomials): x, Q and P. */
#ifndef OPPONENT_KEY_H
#define OPPONENT_KEY_H

#include "layout.h"

/* x_A followed by H' x_A. */
void image(const struct set *set, const uint8_t *matrix, const uint8_t *x_a, uint8_t *x);

/* x_A followed by x_B = y + H' x_A. */
void vector(const struct set *set, const struct key *key, const uint8_t *x_a, uint8_t *x);

/* The number of nonzero entries. */
unsigned weight(const struct set *set, const uint8_t *x);

/* The inverse of F'(f), the product of f + g over all other interpolation points g. */
uint8_t inverse_derivative(unsigned m, unsigned f);

/* All w + 1 coefficients of Q. */
void make_q(const struct set *set, const uint8_t *x, uint8_t *q);

/* The w coefficients of P, given Q. */
void make_p(const struct set *set, const uint8_t *x, const uint8_t *q, uint8_t *p);

#endif
