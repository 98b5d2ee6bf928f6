#include <string.h>

#include "measured.h"
#include "syndrome.h"
#include "unlock.h"

struct exchange exchange;
static uint64_t m, k, w, t;
static uint8_t work[UNLOCK_WORK_SIZE(254, 255, 8, 8)];
static uint8_t prover[UNLOCK_PROVER_SIZE], answered[sizeof prover], verifier[UNLOCK_VERIFIER_SIZE];
uint32_t answer;

#define SET exchange.set, UNLOCK_SET_LENGTH
#define MESSAGE1 exchange.message1, UNLOCK_MESSAGE1_SIZE(exchange.runs)
#define MESSAGE2 exchange.message2, UNLOCK_MESSAGE2_SIZE(t, exchange.runs)
#define MESSAGE3 exchange.message3, UNLOCK_MESSAGE3_SIZE(exchange.runs)
#define LEAVES(which) exchange.leaves[which], exchange.runs
#define KEY exchange.matrix, (m - k) * k, exchange.y, m - k
#define WORK work, unlock_work_size(SET)

void draw(const char *label, uint8_t *to, uint64_t length)
{
    uint8_t string[64];
    uint64_t string_length = 0;
    for (const char *c = label; *c; c++) string[string_length++] = (uint8_t)*c;
    for (const char *c = exchange.variant; *c; c++) string[string_length++] = (uint8_t)*c;
    unlock_shake256(string, string_length, to, length);
}

/* x has w nonzero entries, spread over x_A and x_B; y follows. */
static void make_key(void)
{
    uint64_t left = w;
    uint8_t *x = exchange.x;
    draw("matrix", exchange.matrix, (m - k) * k);
    draw("x", x, m);
    for (uint64_t i = 0; i < m; i++) {
        int take = left * 2 > m - i || (left && (i & 1));
        if (x[i] == 0) x[i] = 1;
        if (take && left) left--;
        else x[i] = 0;
    }
    syndrome(exchange.matrix, x, (uint32_t)m, (uint32_t)k, exchange.y);
}

/* Leaf 77 in run 0, as far as there are as many, and others in the next ones; the second opening hides another leaf in every run. */
static void choose_leaves(uint64_t axes)
{
    for (uint64_t run = 0; run < exchange.runs; run++) {
        exchange.leaves[0][run] = (uint8_t)((77 + 36 * run) & ((1u << axes) - 1));
        exchange.leaves[1][run] = exchange.leaves[0][run] ^ 1;
    }
}

void prepare_exchange(const uint64_t *numbers, uint64_t runs, const char *variant)
{
    exchange.variant = variant;
    exchange.runs = runs;
    memcpy(exchange.set, numbers, sizeof exchange.set);
    m = numbers[0], k = numbers[1], w = numbers[2], t = numbers[4];
    choose_leaves(numbers[3]);
    make_key();
    draw("salt", exchange.salt, sizeof exchange.salt);
    draw("root", exchange.root, sizeof exchange.root);
    draw("points", MESSAGE2);
    answer = unlock_prover_new(prover, sizeof prover);
}

static uint64_t opening_size(int which) { return unlock_opening_size(SET, LEAVES(which)); }

static void open_leaf(int which)
{
    answer = unlock_prover_leaf(prover, sizeof prover, LEAVES(which), KEY, WORK, exchange.opening[which], opening_size(which));
}

static void begin(void)
{
    answer = unlock_prover_begin(prover, sizeof prover, SET, exchange.runs, exchange.x, k, exchange.salt, 32, exchange.root, 16,
                                 KEY, WORK, MESSAGE1);
}
static void points(void)
{
    answer = unlock_prover_points(prover, sizeof prover, MESSAGE2, KEY, WORK, MESSAGE3);
}
static void open_first(void) { open_leaf(0); }
static void judge(void)
{
    answer = unlock_verifier_opening(verifier, sizeof verifier, exchange.opening[0], opening_size(0), KEY, WORK);
}
static void extract(void)
{
    answer = unlock_extract(SET, exchange.runs, MESSAGE1, MESSAGE2, MESSAGE3, LEAVES(0), exchange.opening[0], opening_size(0),
                            MESSAGE1, MESSAGE2, MESSAGE3, LEAVES(1), exchange.opening[1], opening_size(1),
                            KEY, WORK, exchange.states, unlock_extract_size(SET, exchange.runs));
}

const struct call calls[CALLS] = {
    { "begin", begin, 0 }, { "points", points, 0 }, { "leaf", open_first, 0 }, { "opening", judge, 0 }, { "extract", extract, 257 },
};

static uint32_t open_verifier(void)
{
    uint32_t answers = unlock_verifier_new(verifier, sizeof verifier);
    answers |= unlock_verifier_begin(verifier, sizeof verifier, SET, exchange.runs, MESSAGE1);
    answers |= unlock_verifier_points(verifier, sizeof verifier, MESSAGE2);
    answers |= unlock_verifier_response(verifier, sizeof verifier, MESSAGE3);
    return answers | unlock_verifier_leaf(verifier, sizeof verifier, LEAVES(0));
}

uint32_t prepare_call(int call)
{
    if (call == 2) memcpy(answered, prover, sizeof prover);
    if (call == 3) return open_verifier();
    if (call == 4) {
        memcpy(prover, answered, sizeof prover); /* the same commitment opened again: what the extractor is for */
        open_leaf(1);
        return answer;
    }
    return 0;
}

static uint8_t kept_prover[sizeof prover], kept_verifier[sizeof verifier];

void keep_sessions(void)
{
    memcpy(kept_prover, prover, sizeof prover);
    memcpy(kept_verifier, verifier, sizeof verifier);
}

void restore_sessions(void)
{
    memcpy(prover, kept_prover, sizeof prover);
    memcpy(verifier, kept_verifier, sizeof verifier);
}

struct size lent_size(int index)
{
    const struct size sizes[] = {
        { "prover's session", sizeof prover },
        { "verifier's session", sizeof verifier },
        { "work area", unlock_work_size(SET) },
        { "matrix", (m - k) * k },
        { "message 5", opening_size(0) },
        { "extractor's output", unlock_extract_size(SET, exchange.runs) },
        { 0, 0 },
    };
    return sizes[index];
}
