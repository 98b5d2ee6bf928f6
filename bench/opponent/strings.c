#include "strings.h"

#include <string.h>

#include "keccak.h"

enum { RATE_WORDS = 17, RATE = 8 * RATE_WORDS };

/* The padding of SHAKE256: its first byte behind the string, its last at the end of the block. */
#define FIRST ((uint64_t)0x1f)
#define LAST ((uint64_t)0x80 << 56)

void salt_strings(struct salted *salted, const uint8_t salt[32], unsigned run)
{
    uint8_t bytes[32] = { 0 };
    memcpy(bytes + 1, salt, 31);
    memcpy(salted->words, bytes, 32);
    salted->last = salt[31] | (uint64_t)run << 8;
}

/* The lanes of a string but for lanes 4 to 6, which the caller fills with the salt's last byte, the run byte and what follows. The
   zeros are written out, since gcc makes a slower memset of a loop. */
static inline void start(uint64_t lanes[25], const struct salted *salted, uint8_t layer)
{
    lanes[0] = salted->words[0] | layer, lanes[1] = salted->words[1], lanes[2] = salted->words[2], lanes[3] = salted->words[3];
    lanes[7] = lanes[8] = lanes[9] = lanes[10] = lanes[11] = lanes[12] = lanes[13] = lanes[14] = lanes[15] = 0;
    lanes[16] = LAST;
    lanes[17] = lanes[18] = lanes[19] = lanes[20] = lanes[21] = lanes[22] = lanes[23] = lanes[24] = 0;
}

void hash_root(const struct salted *salted, const uint8_t root[16], uint64_t seed[2])
{
    uint64_t lanes[25], words[2];
    memcpy(words, root, 16);
    start(lanes, salted, 8);
    lanes[4] = salted->last | words[0] << 16;
    lanes[5] = words[0] >> 48 | words[1] << 16;
    lanes[6] = words[1] >> 48 | FIRST << 16;
    opponent_permute(lanes);
    memcpy(seed, lanes, 16);
}

void hash_node(const struct salted *salted, unsigned node, const uint64_t seed[2], uint64_t children[4])
{
    uint64_t lanes[25];
    start(lanes, salted, 1);
    lanes[4] = salted->last | (uint64_t)node << 16 | seed[0] << 32;
    lanes[5] = seed[0] >> 32 | seed[1] << 32;
    lanes[6] = seed[1] >> 32 | FIRST << 32;
    opponent_permute(lanes);
    memcpy(children, lanes, 32);
}

/* A leaf's number and seed, and the start of what follows. */
static inline void put_leaf(uint64_t lanes[25], const struct salted *salted, unsigned leaf, const uint64_t seed[2], uint64_t next)
{
    lanes[4] = salted->last | (uint64_t)leaf << 16 | seed[0] << 24;
    lanes[5] = seed[0] >> 40 | seed[1] << 24;
    lanes[6] = seed[1] >> 40 | next << 24;
}

void hash_leaf(const struct salted *salted, unsigned leaf, const uint64_t seed[2], uint64_t state[4])
{
    uint64_t lanes[25];
    start(lanes, salted, 2);
    put_leaf(lanes, salted, leaf, seed, FIRST);
    opponent_permute(lanes);
    memcpy(state, lanes, 32);
}

void hash_share(const struct salted *salted, unsigned leaf, const uint64_t state[4], uint64_t *share, size_t words)
{
    uint64_t lanes[25];
    start(lanes, salted, 3);
    put_leaf(lanes, salted, leaf, state, FIRST);
    for (; words > RATE_WORDS; words -= RATE_WORDS, share += RATE_WORDS) {
        opponent_permute(lanes);
        memcpy(share, lanes, RATE);
    }
    opponent_permute(lanes);
    memcpy(share, lanes, 8 * words);
}

void hash_state(const struct salted *salted, unsigned leaf, const uint64_t state[4], uint8_t digest[DIGEST])
{
    uint64_t lanes[25];
    start(lanes, salted, 4);
    put_leaf(lanes, salted, leaf, state, state[2]);
    lanes[7] = state[2] >> 40 | state[3] << 24;
    lanes[8] = state[3] >> 40 | FIRST << 24;
    opponent_permute(lanes);
    memcpy(digest, lanes, DIGEST);
}

void hash_last_state(const struct salted *salted, unsigned leaf, const uint64_t state[4], const uint8_t *aux, size_t aux_length,
                     uint8_t digest[DIGEST])
{
    uint8_t string[PREFIX + 1 + 32 + 254 + 2 * 255 + 32];
    put_prefix(string, 4, salted);
    string[PREFIX] = (uint8_t)leaf;
    memcpy(string + PREFIX + 1, state, 32);
    memcpy(string + PREFIX + 33, aux, aux_length);
    hash_string(string, PREFIX + 33 + aux_length, digest);
}

void put_prefix(uint8_t *string, uint8_t layer, const struct salted *salted)
{
    memcpy(string, salted->words, 32);
    string[0] = layer;
    string[32] = (uint8_t)salted->last;
    string[33] = (uint8_t)(salted->last >> 8);
}

static inline void absorb(uint64_t lanes[25], const uint8_t block[RATE])
{
    uint64_t words[RATE_WORDS];
    memcpy(words, block, RATE);
    for (int i = 0; i < RATE_WORDS; i++) lanes[i] ^= words[i];
    opponent_permute(lanes);
}

void hash_string(const uint8_t *string, size_t length, uint8_t digest[DIGEST])
{
    uint64_t lanes[25] = { 0 };
    uint8_t end[RATE] = { 0 };
    for (; length >= RATE; length -= RATE, string += RATE) absorb(lanes, string);
    memcpy(end, string, length);
    end[length] = 0x1f;
    end[RATE - 1] |= 0x80;
    absorb(lanes, end);
    memcpy(digest, lanes, DIGEST);
}
