/*
 * Random scripts of calls through unlock.h, the same on every core. A script is an exchange at a random set and run count and an
 * extraction from two openings of its commitment. Most have faults: parameters and run counts of up to 64 bits, lengths that are
 * off, damaged messages and sessions, repeated points, leaves out of range, calls that are not due. A line for each script has its
 * set, its run count and a digest of every answer and of every byte that a call could write; the last line says how often each
 * number was answered. SCRIPTS and SEED, how many and which, come from the compiler's command.
 */
#include <string.h>

#include "print.h"
#include "syndrome.h"
#include "unlock.h"

/* The run counts are small, but for small sets: the greatest set has two runs. */
enum { RUNS = UNLOCK_RUNS_MAX, SMALL_M = 31, SMALL_AXES = 4, SMALL_T = 4, LARGE_RUNS = 2 };
#define LARGER(a, b) ((a) > (b) ? (a) : (b))
#define ROOM(macro) (LARGER(macro(254, 255, 8, 8, LARGE_RUNS), macro(SMALL_M - 1, SMALL_M, SMALL_AXES, SMALL_T, RUNS)) + 8)

/* Longer than any set asks, so that a slice can be too long. */
static uint8_t prover[UNLOCK_PROVER_SIZE + 8], answered[sizeof prover], verifier[UNLOCK_VERIFIER_SIZE + 8];
static uint8_t matrix[128 * 127 + 8], x[255], y[254 + 8], x_a[254 + 8], salt[32 + 8], root[16 + 8];
static uint8_t work[UNLOCK_WORK_SIZE(254, 255, 8, 8) + 8], states[ROOM(UNLOCK_EXTRACT_SIZE)];
static struct transcript {
    uint8_t message1[UNLOCK_MESSAGE1_SIZE(RUNS) + 8], message2[UNLOCK_MESSAGE2_SIZE(8, RUNS) + 8];
    uint8_t message3[UNLOCK_MESSAGE3_SIZE(RUNS) + 8], leaves[RUNS + 8], message5[ROOM(UNLOCK_OPENING_MAX)];
} first, second;

/* ---- chance */

static uint64_t state = SEED;
static uint32_t odds; /* of a fault in any place: one in so many; 0: none, nowhere */

static uint32_t below(uint32_t limit)
{
    state = state * 6364136223846793005u + 1442695040888963407u;
    return (uint32_t)((state >> 32) * limit >> 32);
}

static int chance(uint32_t one_in) { return odds > 0 && below(one_in) == 0; }
static int fault(void) { return chance(odds); }

static void fill(uint8_t *to, uint64_t length)
{
    for (uint64_t i = 0; i < length; i++) to[i] = (uint8_t)below(256);
}

static void damage(uint8_t *at, uint64_t length)
{
    if (fault() && length > 0) at[below((uint32_t)length)] ^= (uint8_t)(1u << below(8));
}

/* ---- what is noted */

enum { NUMBERS = UNLOCK_SAME_POINT + 1 };
static uint64_t digest;
static uint32_t answers[NUMBERS], extractions; /* how often each number was answered, and any with which something was extracted */

static void note_number(uint64_t number)
{
    digest = (digest ^ number) * 0x100000001b3u;
    digest ^= digest >> 32;
}

/* Eight bytes at a time, low byte first: both cores have them so. */
static void note_bytes(const uint8_t *bytes, uint64_t length)
{
    uint64_t word = 0;
    for (; length > sizeof word; bytes += sizeof word, length -= sizeof word) {
        memcpy(&word, bytes, sizeof word);
        note_number(word);
    }
    word = 0;
    memcpy(&word, bytes, length);
    note_number(word);
}

static void note_answer(uint32_t answer)
{
    note_number(answer);
    if (answer < NUMBERS) answers[answer]++;
    else extractions++;
    note_bytes(prover, sizeof prover);
    note_bytes(verifier, sizeof verifier);
    note_bytes(work, sizeof work);
    note_bytes(states, sizeof states);
    note_bytes(first.message1, sizeof first.message1);
    note_bytes(first.message3, sizeof first.message3);
    note_bytes(first.message5, sizeof first.message5);
    note_bytes(second.message5, sizeof second.message5);
}

/* ---- the key */

static uint32_t m, k, w, axes, t, runs;
static uint64_t right[UNLOCK_SET_LENGTH]; /* the same, as a set */

/* x of weight w, or now and then one more. */
static void draw_key(void)
{
    uint32_t left = w < m && chance(12) ? w + 1 : w;
    fill(matrix, (m - k) * k);
    for (uint32_t i = 0; i < m; i++) {
        int chosen = left > 0 && below(m - i) < left;
        x[i] = chosen ? (uint8_t)(1 + below(255)) : 0;
        left -= (uint32_t)chosen;
    }
    memcpy(x_a, x, k);
    syndrome(matrix, x, m, k, y);
}

static void draw_set(uint32_t number)
{
    uint32_t large = number % 25 == 1;
    m = 2 + below(large ? 254 : SMALL_M - 1);
    k = 1 + below(m - 1);
    w = 1 + below(m);
    axes = 1 + below(large ? 8 : SMALL_AXES);
    t = 1 + below(large ? 8 : SMALL_T);
    runs = 1 + below(large ? LARGE_RUNS : 3);
    if (number % 50 == 0) m = 230, k = 126, w = 79, axes = 8, t = 3, runs = LARGE_RUNS;
    if (number % 50 == 3) runs = RUNS;
    right[0] = m, right[1] = k, right[2] = w, right[3] = axes, right[4] = t;
}

/* ---- what the next call is lent */

static uint64_t set[UNLOCK_SET_LENGTH + 1], run_count;
static struct {
    uint64_t prover, verifier, set, x_a, salt, root, matrix, y, work, message1, message2, message3, leaves, message5, states;
} length;

static uint64_t bent(uint64_t number)
{
    if (!fault()) return number;
    switch (below(4)) {
    case 0: return number + ((uint64_t)(1 + below(5)) << 32);
    case 1: return number | (uint64_t)1 << 63;
    case 2: return number - 1;
    default: return below(300);
    }
}

static uint64_t off(uint64_t right, uint64_t room) { return fault() ? below((uint32_t)room + 1) : right; }

static void draw_lent(const uint8_t *leaves)
{
    for (int i = 0; i < UNLOCK_SET_LENGTH; i++) set[i] = bent(right[i]);
    run_count = bent(runs);
    length.prover = off(UNLOCK_PROVER_SIZE, sizeof prover);
    length.verifier = off(UNLOCK_VERIFIER_SIZE, sizeof verifier);
    length.set = off(UNLOCK_SET_LENGTH, UNLOCK_SET_LENGTH + 1);
    length.x_a = off(k, sizeof x_a);
    length.salt = off(32, sizeof salt);
    length.root = off(16, sizeof root);
    length.matrix = off((m - k) * k, sizeof matrix);
    length.y = off(m - k, sizeof y);
    length.work = off(unlock_work_size(right, UNLOCK_SET_LENGTH), sizeof work);
    length.message1 = off(UNLOCK_MESSAGE1_SIZE(runs), sizeof first.message1);
    length.message2 = off(UNLOCK_MESSAGE2_SIZE(t, runs), sizeof first.message2);
    length.message3 = off(UNLOCK_MESSAGE3_SIZE(runs), sizeof first.message3);
    length.leaves = off(runs, sizeof first.leaves);
    length.message5 = off(unlock_opening_size(right, UNLOCK_SET_LENGTH, leaves, runs), sizeof first.message5);
    length.states = off(unlock_extract_size(right, UNLOCK_SET_LENGTH, runs), sizeof states);
    note_number(unlock_work_size(set, length.set));
    note_number(unlock_opening_size(set, length.set, leaves, length.leaves));
    note_number(unlock_extract_size(set, length.set, run_count));
}

/* ---- the calls */

#define KEY matrix, length.matrix, y, length.y
#define WORK work, length.work

static uint8_t prover_begin(void)
{
    return unlock_prover_begin(prover, length.prover, set, length.set, run_count, x_a, length.x_a, salt, length.salt,
                               root, length.root, KEY, WORK, first.message1, length.message1);
}
static uint8_t verifier_begin(void)
{
    damage(first.message1, UNLOCK_MESSAGE1_SIZE(runs));
    return unlock_verifier_begin(verifier, length.verifier, set, length.set, run_count, first.message1, length.message1);
}
/* Puts a point of a run at another position of it too, now and then but for one bit. */
static void repeat_point(uint8_t *message2)
{
    if (t < 2) return;
    uint8_t *points = message2 + UNLOCK_MESSAGE2_SIZE(t, below(runs));
    uint32_t from = below(t), to = (from + 1 + below(t - 1)) % t;
    memcpy(points + 4 * to, points + 4 * from, 4);
    if (below(4) == 0) points[4 * to + below(4)] ^= (uint8_t)(1u << below(8));
}
/* Message 2, now and then with a point that a run repeats. */
static const uint8_t *points(void)
{
    static uint8_t bent_points[sizeof first.message2];
    memcpy(bent_points, first.message2, sizeof bent_points);
    if (chance(8)) repeat_point(bent_points);
    return bent_points;
}
static uint8_t verifier_points(void)
{
    return unlock_verifier_points(verifier, length.verifier, points(), length.message2);
}
static uint8_t prover_points(void)
{
    damage(first.message2, UNLOCK_MESSAGE2_SIZE(t, runs));
    return unlock_prover_points(prover, length.prover, points(), length.message2, KEY, WORK, first.message3, length.message3);
}
static uint8_t verifier_response(void)
{
    if (chance(16)) first.message3[below(UNLOCK_MESSAGE3_SIZE(runs))] ^= 1;
    return unlock_verifier_response(verifier, length.verifier, first.message3, length.message3);
}
/* Message 4, now and then with any leaf in a run. */
static const uint8_t *leaves(void)
{
    static uint8_t bent_leaves[sizeof first.leaves];
    memcpy(bent_leaves, first.leaves, sizeof bent_leaves);
    if (chance(12)) bent_leaves[below(runs)] = (uint8_t)below(256);
    return bent_leaves;
}
static uint8_t verifier_leaf(void)
{
    return unlock_verifier_leaf(verifier, length.verifier, leaves(), length.leaves);
}
static uint8_t prover_leaf(void)
{
    memcpy(answered, prover, sizeof prover);
    return unlock_prover_leaf(prover, length.prover, leaves(), length.leaves, KEY, WORK, first.message5, length.message5);
}
static uint8_t verifier_opening(void)
{
    damage(first.message5, length.message5);
    return unlock_verifier_opening(verifier, length.verifier, first.message5, length.message5, KEY, WORK);
}

static uint8_t (*const calls[])(void) = {
    prover_begin, verifier_begin, verifier_points, prover_points, verifier_response, verifier_leaf, prover_leaf, verifier_opening,
};
enum { CALLS = sizeof calls / sizeof *calls };

/* Other leaves in some of the runs, now and then in none. */
static void draw_other_leaves(void)
{
    uint32_t none = chance(8), most = below(2);
    memcpy(second.leaves, first.leaves, sizeof second.leaves);
    for (uint32_t run = 0; run < runs && !none; run++)
        if (below(2 + most) == 0 || run == runs - 1) second.leaves[run] ^= 1;
}

/* A second opening of the same commitment, which no prover gives: from a copy of its session. */
static void open_again(void)
{
    memcpy(prover, answered, sizeof prover);
    memcpy(second.message1, first.message1, sizeof second.message1);
    memcpy(second.message2, first.message2, sizeof second.message2);
    memcpy(second.message3, first.message3, sizeof second.message3);
    draw_other_leaves();
    draw_lent(second.leaves);
    note_answer(unlock_prover_leaf(prover, length.prover, second.leaves, length.leaves, KEY, WORK,
                                   second.message5, length.message5));
}

static void extract(void)
{
    uint64_t length5 = unlock_opening_size(right, UNLOCK_SET_LENGTH, second.leaves, runs);
    if (chance(8)) second.message2[below(UNLOCK_MESSAGE2_SIZE(t, runs))] ^= 1;
    if (chance(8)) repeat_point(below(2) == 0 ? first.message2 : second.message2);
    damage(second.message1, UNLOCK_MESSAGE1_SIZE(runs));
    damage(second.message5, length5);
    draw_lent(first.leaves);
    note_answer(unlock_extract(set, length.set, run_count, first.message1, length.message1, first.message2, length.message2,
                               first.message3, length.message3, first.leaves, length.leaves, first.message5, length.message5,
                               second.message1, UNLOCK_MESSAGE1_SIZE(runs), second.message2, UNLOCK_MESSAGE2_SIZE(t, runs),
                               second.message3, UNLOCK_MESSAGE3_SIZE(runs), second.leaves, runs, second.message5, length5,
                               KEY, WORK, states, length.states));
}

/* ---- a script */

static void draw_exchange(uint32_t number)
{
    draw_set(number);
    draw_key();
    fill(salt, 32);
    fill(root, 16);
    fill(first.message2, UNLOCK_MESSAGE2_SIZE(t, runs));
    for (uint32_t run = 0; run < runs; run++) first.leaves[run] = (uint8_t)below(1u << axes);
}

static void run_script(uint32_t number)
{
    odds = number % 3 == 0 ? 0 : 48;
    digest = 0xcbf29ce484222325u;
    draw_exchange(number);
    draw_lent(first.leaves);
    note_answer(unlock_prover_new(prover, length.prover));
    note_answer(unlock_verifier_new(verifier, length.verifier));
    for (uint32_t step = 0; step < CALLS; step++) {
        uint32_t call = fault() ? below(CALLS) : step == 1 && chance(8) ? 0 : step;
        draw_lent(first.leaves);
        note_answer(calls[call]());
        damage(prover, sizeof prover);
        damage(verifier, sizeof verifier);
    }
    open_again();
    extract();
}

static void report(uint32_t number)
{
    const uint32_t numbers[] = { number, m, k, w, axes, t, runs };
    uint8_t bytes[8];
    for (int i = 0; i < 7; i++) {
        print_number(numbers[i]);
        print(i == 0 || i > 4 ? "\t" : " ");
    }
    for (int i = 0; i < 8; i++) bytes[i] = (uint8_t)(digest >> 8 * i);
    print_bytes(bytes, sizeof bytes);
    print("\n");
}

static void report_answers(void)
{
    print("answers");
    for (uint32_t i = 0; i < NUMBERS; i++) {
        print("\t");
        print_number(i);
        print(":");
        print_number(answers[i]);
    }
    print("\textractions:");
    print_number(extractions);
    print("\n");
}

int main(void)
{
    for (uint32_t i = 0; i < SCRIPTS; i++) {
        run_script(i);
        report(i);
    }
    report_answers();
    return 0;
}
