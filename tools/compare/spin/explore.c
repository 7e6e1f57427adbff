/* explore N F T STATES: one call of explore_lock with room for so many states; prints what it found. */
#include <stdint.h>
#include <stdio.h>
#include <stdlib.h>
#include "lock_bench.h"

int main(int argc, char **argv) {
    if (argc != 5) {
        fprintf(stderr, "usage: explore N F T STATES\n");
        return 2;
    }
    size_t sizes[3];
    for (int i = 0; i < 3; i++) sizes[i] = strtoul(argv[1 + i], NULL, 10);
    size_t room = strtoul(argv[4], NULL, 10);
    size_t stored = LOCK_BENCH_STATE_NUMBERS * room, indexed = LOCK_BENCH_INDEX_NUMBERS * room;
    uint64_t *store = malloc(stored * sizeof *store), *index = malloc(indexed * sizeof *index);
    if (store == NULL || index == NULL) {
        fprintf(stderr, "explore: no memory for %zu states\n", room);
        return 1;
    }
    uint64_t states, depth;
    size_t answer = explore_lock(sizes[0], sizes[1], sizes[2], store, stored, index, indexed, &states, &depth);
    printf("answer %zu states %llu depth %llu\n", answer, (unsigned long long)states, (unsigned long long)depth);
    return answer != 0;
}
