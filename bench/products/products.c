/* products M K W D T RUNS: how many products of the points field the evaluations of each call make, by the count that the evaluation
   itself hands back; as lines of bench/table.py. Points and opening evaluate the shares of D + 1 parties, leaf that of the leaf,
   the extractor those of two openings; begin evaluates nothing. */
#include <inttypes.h>
#include <stdint.h>
#include <stdio.h>
#include <stdlib.h>

uint64_t evaluation_c_products(uint64_t n, const uint64_t *set, uint64_t set_length);

int main(int count, char **words) {
    uint64_t set[5], runs;
    if (count != 7) return 2;
    for (int i = 0; i < 5; i++) set[i] = strtoul(words[i + 1], NULL, 10);
    runs = strtoul(words[6], NULL, 10);
    uint64_t parties = evaluation_c_products(set[3] + 1, set, 5);
    uint64_t leaf = evaluation_c_products(1, set, 5);
    const char *names[] = { "begin", "points", "leaf", "opening", "extract" };
    uint64_t made[] = { 0, parties, leaf, parties, 2 * parties };
    for (int i = 0; i < 5; i++) {
        printf("products\t%s %s %s %s %s %s\t%s\t%" PRIu64 "\n", words[1], words[2], words[3], words[4], words[5], words[6],
               names[i], runs * made[i]);
    }
    return 0;
}
