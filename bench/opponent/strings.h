/* The strings hashed, layers 1 to 8 (document 01, Strings hashed; document 02, request 01), for little-endian machines: lanes are
   bytes as they stand in memory. The strings of layers 1 to 3 and 8, and of 4 without aux, are shorter than a block and are put
   together in the lanes. */
#ifndef OPPONENT_STRINGS_H
#define OPPONENT_STRINGS_H

#include <stddef.h>
#include <stdint.h>

enum { PREFIX = 34, DIGEST = 32 };

/* What all strings of a run start with: the salt behind a byte that is left for the layer, and the run byte. */
struct salted {
    uint64_t words[4];
    uint64_t last; /* the salt's last byte and the run byte */
};

void salt_strings(struct salted *salted, const uint8_t salt[32], unsigned run);

/* Layer 8: the root seed of the run. */
void hash_root(const struct salted *salted, const uint8_t root[16], uint64_t seed[2]);

/* Layer 1: the seeds of nodes 2v and 2v + 1. */
void hash_node(const struct salted *salted, unsigned node, const uint64_t seed[2], uint64_t children[4]);

/* Layer 2: seed and rho. */
void hash_leaf(const struct salted *salted, unsigned leaf, const uint64_t seed[2], uint64_t state[4]);

/* Layer 3: words of shares. */
void hash_share(const struct salted *salted, unsigned leaf, const uint64_t state[4], uint64_t *share, size_t words);

/* Layer 4 without aux. */
void hash_state(const struct salted *salted, unsigned leaf, const uint64_t state[4], uint8_t digest[DIGEST]);

/* Layer 4 with aux. */
void hash_last_state(const struct salted *salted, unsigned leaf, const uint64_t state[4], const uint8_t *aux, size_t aux_length,
                     uint8_t digest[DIGEST]);

/* Writes layer, salt and run byte to the front of a string. */
void put_prefix(uint8_t *string, uint8_t layer, const struct salted *salted);

/* The first 32 bytes of SHAKE256. */
void hash_string(const uint8_t *string, size_t length, uint8_t digest[DIGEST]);

#endif
