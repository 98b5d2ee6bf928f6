/*
 * The exchange of bench/calls on the core, at the set and the run count that the compiler's command gives as NUMBERS and RUNS: of each
 * call the instructions and the stack that it touched, as lines of bench/table.py; and of SHAKE256 of a string with one permutation
 * and with two.
 *
 * Instructions: in the emulator with -icount shift=0 one takes a nanosecond, and SysTick counts the 25 MHz of the board, so a tick is
 * 40 instructions, and its 24 bits are enough for 671 million; a longer call counts modulo that. Stack: the part that is not in use is
 * painted before the call.
 */
#include <stdint.h>

#include "measured.h"
#include "print.h"
#include "stack.h"
#include "unlock.h"

#define PAINT 0xc7c7c7c7u
enum { INSTRUCTIONS_A_TICK = 40, SYSTICK_MAX = 0xffffff };

static volatile uint32_t *const systick_control = (volatile uint32_t *)0xe000e010;
static volatile uint32_t *const systick_reload = (volatile uint32_t *)0xe000e014;
static volatile uint32_t *const systick_value = (volatile uint32_t *)0xe000e018;

struct use {
    uint32_t instructions, stack;
};

/* The profile's counts begin and end here. */
__attribute__((noinline)) void mark(void) { __asm__ volatile("nop"); }

__attribute__((noinline)) static struct use measure(void (*call)(void))
{
    struct use use;
    fill_stack(PAINT);
    uint32_t unused = count_filled(PAINT);
    *systick_control = 0;
    *systick_reload = SYSTICK_MAX;
    *systick_value = 0;
    *systick_control = 5; /* runs, on the core's clock, without an interrupt */
    uint32_t before = *systick_value;
    mark();
    call();
    mark();
    use.instructions = ((before - *systick_value) & SYSTICK_MAX) * INSTRUCTIONS_A_TICK;
    use.stack = (unused - count_filled(PAINT)) * 4;
    return use;
}

static const uint64_t set[UNLOCK_SET_LENGTH] = { NUMBERS };

static void report(const char *name, struct use use)
{
    print("core\t");
    for (int i = 0; i < UNLOCK_SET_LENGTH; i++) {
        if (i > 0) print(" ");
        print_number((uint32_t)set[i]);
    }
    print(" ");
    print_number(RUNS);
    print("\t");
    print(name);
    print("\t");
    print_number(use.instructions);
    print("\t");
    print_number(use.stack);
    print("\n");
}

static uint8_t message[135], output[137];
static void nothing(void) { }
static void hash_once(void) { unlock_shake256(message, sizeof message, output, 136); }
static void hash_twice(void) { unlock_shake256(message, sizeof message, output, 137); }

int main(void)
{
    report("nothing", measure(nothing));
    report("one permutation", measure(hash_once));
    report("two permutations", measure(hash_twice));
    prepare_exchange(set, RUNS, "");
    for (int i = 0; i < CALLS; i++) {
        if (prepare_call(i) != 0) return 1;
        struct use use = measure(calls[i].make);
        if (answer != calls[i].expected) return 1;
        report(calls[i].name, use);
    }
    return 0;
}
