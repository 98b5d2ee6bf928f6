/* The exchange of measured.c at a parameter set and a run count. With a call's name as the last argument only that call is made
   between two marks, so that callgrind counts it alone; with 'stack' each call runs on a painted stack of its own and its use is
   printed; with 'sizes' what a caller lends. */
#include <inttypes.h>
#include <stdio.h>
#include <stdlib.h>
#include <string.h>
#include <ucontext.h>

#include "measured.h"
#include "unlock.h"

enum { ROOM = 256 * 1024 };

static char set_words[64]; /* set and run count, as they are printed */

/* callgrind counts from here on, to its end */
__attribute__((noinline)) void counted(void (*call)(void)) {
    call();
}

static ucontext_t home, away;
static void (*running)(void);
static void on_stack(void) { running(); }

static void use_of_stack(const struct call *call) {
    uint8_t *room = malloc(ROOM);
    memset(room, 0xc7, ROOM);
    getcontext(&away);
    away.uc_stack.ss_sp = room;
    away.uc_stack.ss_size = ROOM;
    away.uc_link = &home;
    running = call->make;
    makecontext(&away, on_stack, 0);
    swapcontext(&home, &away);
    size_t untouched = 0;
    while (untouched < ROOM && room[untouched] == 0xc7) untouched++;
    printf("stack\t%s\t%s\t%zu\n", set_words, call->name, (size_t)ROOM - untouched);
    free(room);
}

static void expect(const char *name, uint32_t given, uint32_t expected) {
    if (given != expected) {
        printf("%s answers %u\n", name, given);
        exit(1);
    }
}

static void print_sizes(void) {
    for (int i = 0; lent_size(i).name; i++)
        printf("size\t%s\t%s\t%" PRIu64 "\n", set_words, lent_size(i).name, lent_size(i).bytes);
}

static void make_calls(const char *measured) {
    for (int i = 0; i < CALLS; i++) {
        expect("what comes before", prepare_call(i), 0);
        if (!strcmp(measured, "stack")) use_of_stack(&calls[i]);
        else if (!strcmp(measured, calls[i].name)) counted(calls[i].make);
        else calls[i].make();
        expect(calls[i].name, answer, calls[i].expected);
    }
}

int main(int words, char **word) {
    uint64_t numbers[UNLOCK_SET_LENGTH + 1]; /* of the set, then the run count */
    const char *measured = word[words - 1];
    if (words != UNLOCK_SET_LENGTH + 3) {
        fprintf(stderr, "usage: calls M K W D T RUNS begin|points|leaf|opening|extract|stack|sizes\n");
        return 2;
    }
    for (int i = 0; i <= UNLOCK_SET_LENGTH; i++) {
        numbers[i] = strtoul(word[i + 1], 0, 10);
        snprintf(set_words + strlen(set_words), sizeof set_words - strlen(set_words), i > 0 ? " %s" : "%s", word[i + 1]);
    }
    prepare_exchange(numbers, numbers[UNLOCK_SET_LENGTH], "");
    if (!strcmp(measured, "sizes")) print_sizes();
    else make_calls(measured);
    return 0;
}
