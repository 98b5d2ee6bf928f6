/* One exchange and one extraction at a parameter set and a run count, call by call, for whoever measures the calls. Needs nothing
   of a system. */
#ifndef MEASURED_H
#define MEASURED_H

#include <stdint.h>

#include "unlock.h"

/* The most runs that there is room for. */
#ifndef RUNS_ROOM
#define RUNS_ROOM UNLOCK_RUNS_MAX
#endif

enum { CALLS = 5 };

/* What the exchange is made of, and what the calls gave. Two openings, each hiding its leaves, are what the extractor takes. */
struct exchange {
    const char *variant;
    uint64_t set[UNLOCK_SET_LENGTH], runs;
    uint8_t matrix[128 * 127], y[254], x[255], salt[32], root[16];
    uint8_t message1[UNLOCK_MESSAGE1_SIZE(RUNS_ROOM)], message2[UNLOCK_MESSAGE2_SIZE(8, RUNS_ROOM)];
    uint8_t message3[UNLOCK_MESSAGE3_SIZE(RUNS_ROOM)], leaves[2][RUNS_ROOM];
    uint8_t opening[2][UNLOCK_OPENING_MAX(254, 255, 8, 8, RUNS_ROOM)], states[UNLOCK_EXTRACT_SIZE(254, 255, 8, 8, RUNS_ROOM)];
};
extern struct exchange exchange;

struct call {
    const char *name;
    void (*make)(void); /* sets answer */
    uint32_t expected;
};

/* begin, points, leaf, opening, extract: to be made in this order, each after its prepare_call. */
extern const struct call calls[CALLS];

/* What the last call answered. */
extern uint32_t answer;

/* The set, the run count, a key with x of weight w, and what is drawn in the exchange; other variants, of at most 40 characters,
   draw others. */
void prepare_exchange(const uint64_t *numbers, uint64_t runs, const char *variant);

/* Bytes that follow from a label, of at most 20 characters, and the variant. */
void draw(const char *label, uint8_t *to, uint64_t length);

/* What comes before a call: for the opening the verifier's other calls, for the extractor a second opening. 0 where they answer 0. */
uint32_t prepare_call(int call);

/* Keeps both sessions, and puts them back, so that a call can be made again. */
void keep_sessions(void);
void restore_sessions(void);

/* A length that a caller lends, and its name; the name is 0 past the last. */
struct size {
    const char *name;
    uint64_t bytes;
};
struct size lent_size(int index);

#endif
