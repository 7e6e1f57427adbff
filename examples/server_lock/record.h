/* The rows of a record file (docs/RECORDING.md): N, F and T in a byte each, then eight bytes for each step. */
#ifndef RECORD_H
#define RECORD_H

#include "goll.h"
#include "lock_bench.h"
#include "steps.h"

enum { RECORD_HEAD = 3, RECORD_ROW = 8 };

/* What a step did, to which word, and that word after it. */
struct entry {
    uint8_t kind;
    uint8_t word;
    uint64_t value;
};

/* A word as a record has it: the root as it is, of a node the count. One that no bench has is the largest number,
 * so that it is not taken for one that was not recorded. */
static inline uint32_t record_value(unsigned word, uint64_t value) {
    const uint32_t most = LOCK_BENCH_NO_VALUE - 1;
    if (word >= GOLL_NODES) {
        return LOCK_BENCH_NO_VALUE;
    }
    if (word != 0) {
        value = goll_is_closed(value) || goll_direct(value) != 0 ? most : value >> 17;
    }
    return value < most ? (uint32_t)value : most;
}

static inline void record_head(uint8_t bytes[RECORD_HEAD], unsigned nodes, unsigned fan, unsigned threads) {
    bytes[0] = (uint8_t)nodes;
    bytes[1] = (uint8_t)fan;
    bytes[2] = (uint8_t)threads;
}

static inline void record_row(uint8_t bytes[RECORD_ROW], unsigned thread, unsigned order, const struct entry *entry) {
    uint32_t value = record_value(entry->word, entry->value);
    bytes[0] = (uint8_t)thread;
    bytes[1] = (uint8_t)order;
    bytes[2] = entry->kind;
    bytes[3] = entry->word;
    for (unsigned i = 0; i < 4; i++) {
        bytes[4 + i] = (uint8_t)(value >> 8 * i);
    }
}

#endif
