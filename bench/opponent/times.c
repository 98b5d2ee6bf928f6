/*
 * Times each call of the library, through its C interface, against the opponent's: the same inputs in one process, in turn, a low
 * processor time of each (clock.h). Prints lines 'time', set, call, ratio, parted by tabs. Before that it compares what both give,
 * and what they answer where a bit of message 5 is changed.
 *
 * times M K W D T RUNS      that set and run count
 * times --check COUNT SEED  only compares: sets at the limits, then COUNT random sets, each with any run count, key and exchange
 */
#define _POSIX_C_SOURCE 199309L

#include <stdio.h>
#include <stdlib.h>
#include <string.h>

#include "clock.h"
#include "measured.h"
#include "opponent.h"
#include "syndrome.h"
#include "unlock.h"

/* How often both are timed in turn, times the leaves of all runs: 200 turns at D 8 with one run, more for shorter calls. */
enum { LEAF_TURNS = 200 << 8 };

static struct set set;
static struct key key;
static struct opponent_prover prover;
static struct opponent_verifier verifiers[2];
static struct exchange ours; /* what the opponent gives */
static uint32_t our_answer;

static void begin(void)
{
    our_answer = opponent_begin(&prover, &set, (unsigned)exchange.runs, exchange.x, exchange.salt, exchange.root, &key,
                                ours.message1);
}

static void points(void)
{
    opponent_points(&prover, exchange.message2, &key, ours.message3);
    our_answer = 0;
}

static void leaf(void)
{
    opponent_leaf(&prover, exchange.leaves[0], &key, ours.opening[0]);
    our_answer = 0;
}

static void opening(void) { our_answer = opponent_opening(&verifiers[0], exchange.opening[0], &key); }

static void extract(void)
{
    our_answer = opponent_extract(&verifiers[0], exchange.opening[0], &verifiers[1], exchange.opening[1], &key, ours.states);
}

static void (*const our_calls[CALLS])(void) = { begin, points, leaf, opening, extract };

/* What the verifier's calls before the opening leave. */
static void open_verifiers(void)
{
    for (int i = 0; i < 2; i++) {
        verifiers[i].set = set;
        verifiers[i].runs = (unsigned)exchange.runs;
        memcpy(verifiers[i].message1, exchange.message1, sizeof exchange.message1);
        memcpy(verifiers[i].message2, exchange.message2, sizeof exchange.message2);
        memcpy(verifiers[i].message3, exchange.message3, sizeof exchange.message3);
        memcpy(verifiers[i].leaves, exchange.leaves[i], sizeof exchange.leaves[i]);
    }
}

static void expect(int holds, const char *call, const char *what)
{
    if (holds) return;
    printf("%s, m %u, k %u, w %u, D %u, t %u, runs %u, variant '%s': %s\n", call, set.m, set.k, set.w, set.D, set.t,
           (unsigned)exchange.runs, exchange.variant, what);
    exit(1);
}

/* Whether both have given the same up to now. */
static int same(void)
{
    return !memcmp(exchange.message1, ours.message1, sizeof ours.message1) &&
           !memcmp(exchange.message3, ours.message3, sizeof ours.message3) &&
           !memcmp(exchange.opening, ours.opening, sizeof ours.opening) &&
           !memcmp(exchange.states, ours.states, sizeof ours.states);
}

/* Both make a call from the sessions that are kept. */
static void make_both(int call)
{
    restore_sessions();
    calls[call].make();
    our_calls[call]();
}

/* The extractor's second opening is the opponent's own: the library has made it to prepare the call. */
static void prepare_both(int call)
{
    expect(prepare_call(call) == 0, calls[call].name, "what comes before is refused");
    if (call == 3) open_verifiers();
    if (call == 4) opponent_leaf(&prover, exchange.leaves[1], &key, ours.opening[1]);
    keep_sessions();
}

static unsigned lowest_axis(unsigned bits)
{
    unsigned axis = 1;
    while (!(bits >> (axis - 1) & 1)) axis++;
    return axis;
}

/* The lowest run whose leaves differ, and its axis. */
static uint32_t extracted(void)
{
    unsigned run = 0;
    while (exchange.leaves[0][run] == exchange.leaves[1][run]) run++;
    return 256 * (run + 1) + lowest_axis(exchange.leaves[0][run] ^ exchange.leaves[1][run]);
}

static void compare_call(int call)
{
    uint32_t expected = call == 4 ? extracted() : 0;
    make_both(call);
    expect(answer == expected, calls[call].name, "the library refuses");
    expect(our_answer == expected, calls[call].name, "the opponent refuses");
    expect(same(), calls[call].name, "what both give differs");
}

/* Opening or extractor with one bit changed in a message 5: both give the same number. */
static void compare_refusal(int call, int which, size_t bit)
{
    uint8_t *byte = &exchange.opening[which][bit / 8], mask = (uint8_t)(1 << bit % 8);
    *byte ^= mask;
    make_both(call);
    *byte ^= mask;
    expect(answer == UNLOCK_COMMITMENT || answer == UNLOCK_RESPONSE, calls[call].name, "the library accepts a changed message 5");
    expect(our_answer == answer, calls[call].name, "the answers to a changed message 5 differ");
    expect(same(), calls[call].name, "a refused call gives something");
}

/* The length of the first so many runs of a message 5. */
static size_t opening_length(int which, uint64_t runs)
{
    return unlock_opening_size(exchange.set, UNLOCK_SET_LENGTH, exchange.leaves[which], runs);
}

/* A bit of the siblings of some run, one of alpha and beta there, and one of all. */
static void compare_refusals(int call, int which)
{
    uint8_t drawn[16];
    uint32_t numbers[4];
    draw("bits", drawn, sizeof drawn);
    memcpy(numbers, drawn, sizeof numbers);
    uint64_t run = numbers[3] % exchange.runs;
    size_t start = run == 0 ? 0 : 8 * opening_length(which, run);
    compare_refusal(call, which, start + numbers[0] % (128 * set.D));
    compare_refusal(call, which, start + 8 * (16 * set.D + 32) + numbers[1] % (64 * set.t));
    compare_refusal(call, which, numbers[2] % (8 * opening_length(which, exchange.runs)));
}

static void prepare_opponent(void)
{
    set.m = (unsigned)exchange.set[0], set.k = (unsigned)exchange.set[1], set.w = (unsigned)exchange.set[2];
    set.D = (unsigned)exchange.set[3], set.t = (unsigned)exchange.set[4];
    key.matrix = exchange.matrix;
    key.y = exchange.y;
}

static double time_of(void (*call)(void))
{
    double start = processor_time();
    call();
    return processor_time() - start;
}

static void print_ratio(int call)
{
    static double times[2][LEAF_TURNS + 1];
    int turns = 1 + (LEAF_TURNS >> set.D) / (int)exchange.runs;
    for (int turn = 0; turn < turns; turn++) {
        restore_sessions();
        times[0][turn] = time_of(calls[call].make);
        times[1][turn] = time_of(our_calls[call]);
    }
    expect(same(), calls[call].name, "what both give differs");
    double ratio = low_time(times[0], turns) / low_time(times[1], turns);
    printf("time\t%u %u %u %u %u %u\t%s\t%.2f\n", set.m, set.k, set.w, set.D, set.t, (unsigned)exchange.runs, calls[call].name,
           ratio);
}

static void compare_and_time(int timed)
{
    prepare_opponent();
    for (int call = 0; call < CALLS; call++) {
        prepare_both(call);
        compare_call(call);
        if (call >= 3) compare_refusals(call, call - 3);
        if (timed) print_ratio(call);
    }
}

static const uint64_t LIMITS[][UNLOCK_SET_LENGTH] = {
    { 2, 1, 1, 1, 1 },      { 2, 1, 2, 1, 8 },      { 255, 254, 255, 8, 8 }, { 255, 1, 255, 8, 1 },
    { 255, 127, 255, 8, 8 }, { 255, 127, 1, 1, 1 }, { 230, 126, 79, 8, 3 },  { 120, 64, 40, 6, 3 },
    { 40, 20, 12, 4, 2 },   { 40, 20, 40, 1, 2 },   { 127, 60, 30, 2, 4 },   { 128, 60, 30, 3, 5 },
};
enum { LIMIT_SETS = sizeof LIMITS / sizeof *LIMITS };

/* Mostly one run or two, more where the set is small. */
static uint64_t draw_runs(const uint64_t *numbers)
{
    uint8_t drawn[1];
    draw("runs", drawn, sizeof drawn);
    if (numbers[3] < 4 && drawn[0] % 4 == 0) return 1 + drawn[0] / 4 % UNLOCK_RUNS_MAX;
    return 1 + drawn[0] % 3u / 2;
}

static void draw_set(uint64_t *numbers)
{
    uint8_t drawn[5];
    draw("set", drawn, sizeof drawn);
    numbers[0] = 2 + drawn[0] % 254u;
    numbers[1] = 1 + drawn[1] % (numbers[0] - 1);
    numbers[2] = 1 + drawn[2] % numbers[0];
    numbers[3] = 1 + drawn[3] % 8u;
    numbers[4] = 1 + drawn[4] % 8u;
}

/* Any leaves: the second opening hides others in a run and in some of the others too. */
static void vary_leaves(void)
{
    uint8_t chosen[2 * UNLOCK_RUNS_MAX + 1];
    unsigned n = 1u << exchange.set[3], runs = (unsigned)exchange.runs;
    draw("leaves", chosen, sizeof chosen);
    for (unsigned run = 0; run < runs; run++) {
        uint8_t first = chosen[run], second = chosen[UNLOCK_RUNS_MAX + run];
        int differs = second % 3 > 0 || run == chosen[2 * UNLOCK_RUNS_MAX] % runs;
        exchange.leaves[0][run] = (uint8_t)(first % n);
        exchange.leaves[1][run] = (uint8_t)(differs ? (first % n + 1 + second % (n - 1)) % n : first % n);
    }
}

/* Whether the point at a position of a run equals an earlier one of it. */
static int repeats(const uint8_t *points, unsigned at)
{
    for (unsigned i = 0; i < at; i++)
        if (!memcmp(points + 4 * i, points + 4 * at, 4)) return 1;
    return 0;
}

/* Points and multipliers that are bytes or pairs. A point that would then equal another one of its run stays as it was: the library
   refuses it, and the opponent looks for none. */
static void shorten_points(void)
{
    uint8_t shorter[16 * UNLOCK_RUNS_MAX], whole[4];
    unsigned t = (unsigned)exchange.set[4];
    draw("shorter", shorter, sizeof shorter);
    for (unsigned i = 0; i < 2 * t * exchange.runs; i++) {
        unsigned at = i % (2 * t);
        uint8_t *point = exchange.message2 + 4 * i;
        memcpy(whole, point, 4);
        if (shorter[i] % 8 < 2) memset(point + 2, 0, 2);
        if (shorter[i] % 8 == 0) point[1] = 0;
        if (at < t && repeats(point - 4 * at, at)) memcpy(point, whole, 4);
    }
}

/* A lighter x, shorter points, any leaves. */
static void vary_exchange(void)
{
    uint8_t lighter[256];
    draw("lighter", lighter, sizeof lighter);
    for (unsigned i = 0; i < exchange.set[0]; i++)
        if (lighter[255] % 4 == 0 && lighter[i] % 4 == 0) exchange.x[i] = 0;
    syndrome(exchange.matrix, exchange.x, (uint32_t)exchange.set[0], (uint32_t)exchange.set[1], exchange.y);
    shorten_points();
    vary_leaves();
}

static void check(unsigned long count, const char *seed)
{
    for (unsigned long i = 0; i < LIMIT_SETS + count; i++) {
        char variant[40];
        uint64_t numbers[UNLOCK_SET_LENGTH];
        snprintf(variant, sizeof variant, "%s.%lu", seed, i);
        exchange.variant = variant;
        if (i < LIMIT_SETS) memcpy(numbers, LIMITS[i], sizeof numbers);
        else draw_set(numbers);
        prepare_exchange(numbers, draw_runs(numbers), variant);
        vary_exchange();
        compare_and_time(0);
    }
    printf("%lu passed, 0 failed\n", LIMIT_SETS + count);
}

int main(int words, char **word)
{
    opponent_prepare();
    if (words == 4 && !strcmp(word[1], "--check")) {
        check(strtoul(word[2], 0, 10), word[3]);
    } else if (words == 2 + UNLOCK_SET_LENGTH) {
        uint64_t numbers[UNLOCK_SET_LENGTH + 1]; /* of the set, then the run count */
        for (int i = 0; i <= UNLOCK_SET_LENGTH; i++) numbers[i] = strtoul(word[i + 1], 0, 10);
        prepare_exchange(numbers, numbers[UNLOCK_SET_LENGTH], "");
        compare_and_time(1);
    } else {
        fprintf(stderr, "usage: times M K W D T RUNS, or times --check COUNT SEED\n");
        return 2;
    }
    return 0;
}
