// Times the permutation against the opponent's in C, and blocks absorbed and squeezed against OpenSSL.
#include <openssl/evp.h>
#include <stddef.h>
#include <stdint.h>
#include <stdio.h>
#include <stdlib.h>
#include <string.h>

#include "clock.h"
#include "keccak.h"
#include "strings.h"

void unlock_test_permute(uint64_t lanes[25]);
void unlock_test_pieces(const uint8_t *message, size_t length, const uint16_t *cuts, size_t pieces, uint8_t *output, size_t count,
                        const uint16_t *spans, size_t parts);
void unlock_test_shake256(const uint8_t *message, size_t length, uint8_t *output, size_t count);

static EVP_MD_CTX *context;

static void openssl_shake256(const uint8_t *message, size_t length, uint8_t *output, size_t count) {
    EVP_DigestInit_ex(context, NULL, NULL);
    EVP_DigestUpdate(context, message, length);
    EVP_DigestFinalXOF(context, output, count);
}

// The commonest string of the exchange: 51 bytes in four pieces, 32 bytes out.
static const uint16_t CUTS[3] = {1, 32, 2};

static void our_pieces(const uint8_t *message, size_t length, uint8_t *output, size_t count) {
    unlock_test_pieces(message, length, CUTS, 3, output, count, NULL, 0);
}

static void openssl_pieces(const uint8_t *message, size_t length, uint8_t *output, size_t count) {
    EVP_DigestInit_ex(context, NULL, NULL);
    for (int i = 0; i < 3; i++) {
        EVP_DigestUpdate(context, message, CUTS[i]);
        message += CUTS[i];
        length -= CUTS[i];
    }
    EVP_DigestUpdate(context, message, length);
    EVP_DigestFinalXOF(context, output, count);
}

typedef void (*hash)(const uint8_t *, size_t, uint8_t *, size_t);
typedef void (*permutation)(uint64_t *);

static double permutes(permutation f) {
    static uint64_t lanes[25];
    enum { TURNS = 1000 };
    double start = processor_time();
    for (int i = 0; i < TURNS; i++) f(lanes);
    return (processor_time() - start) / TURNS;
}

static uint8_t message[136 * 257], output[136 * 257];

static double hashes(hash f, size_t length, size_t count, int turns) {
    double start = processor_time();
    for (int i = 0; i < turns; i++) f(message, length, output, count);
    return (processor_time() - start) / turns;
}

// Interleaved runs, so that a busy machine hurts both sides alike.
enum { RUNS = 600 };
static double ours[RUNS], theirs[RUNS];

static void print_ratio(const char *what, const char *to) {
    printf("ratio\t%s\t%s\t%.2f\n", what, to, low_time(ours, RUNS) / low_time(theirs, RUNS));
}

static void compare_permutations(void) {
    for (int i = 0; i < RUNS; i++) {
        ours[i] = permutes(unlock_test_permute);
        theirs[i] = permutes(opponent_permute);
    }
    print_ratio("permutation", "C, lanes complemented");
}

static void compare(const char *what, hash our, hash their, size_t length, size_t count, int turns) {
    for (int i = 0; i < RUNS; i++) {
        ours[i] = hashes(our, length, count, turns);
        theirs[i] = hashes(their, length, count, turns);
    }
    print_ratio(what, "OpenSSL");
}

static void expect_equal(const void *a, const void *b, size_t length, const char *what) {
    if (!memcmp(a, b, length)) return;
    printf("%s differ\n", what);
    exit(1);
}

// What is timed gives the same: the permutations from random states, SHAKE256 of random strings of all lengths up to three blocks.
static void check_all(void) {
    uint64_t a[25], b[25];
    uint8_t digests[3][DIGEST];
    openssl_shake256((const uint8_t *)"lanes", 5, (uint8_t *)a, sizeof a);
    openssl_shake256((const uint8_t *)"message", 7, message, sizeof message);
    memcpy(b, a, sizeof a);
    for (int i = 0; i < 1000; i++) {
        unlock_test_permute(a);
        opponent_permute(b);
        expect_equal(a, b, sizeof a, "the permutations");
    }
    for (size_t length = 0; length <= 3 * 136; length++) {
        openssl_shake256(message + length, length, digests[0], DIGEST);
        unlock_test_shake256(message + length, length, digests[1], DIGEST);
        hash_string(message + length, length, digests[2]);
        expect_equal(digests[0], digests[1], DIGEST, "OpenSSL and the library");
        expect_equal(digests[0], digests[2], DIGEST, "OpenSSL and the opponent");
    }
}

int main(void) {
    context = EVP_MD_CTX_new();
    EVP_DigestInit_ex(context, EVP_shake256(), NULL);
    check_all();
    compare_permutations();
    hash our = unlock_test_shake256, their = openssl_shake256;
    compare("a block absorbed, of 256", our, their, 136 * 256, 1, 4);
    compare("a block squeezed, of 257", our, their, 1, 136 * 257, 4);
    compare("51 bytes in, 32 bytes out", our, their, 51, 32, 1000);
    compare("the same in four pieces", our_pieces, openssl_pieces, 51, 32, 1000);
    return 0;
}
