/*
 * The bound of demand 3 on the real lock: no thread has more failed swaps of a word than the other
 * threads have changes of it. Each thread counts its own, in memory of its own; the sums are made when
 * all have ended. Linked with free.c, and built with COUNTED.
 */
#include "free.h"

bool step_turn(struct goll_thread *me) {
    yield_sometimes(me->tester);
    return false;
}

void step_entry(struct goll_thread *me, enum step_kind kind, unsigned word, uint64_t value) {
    (void)value;
    if (kind == KIND_FAILED) {
        me->tester->failures[word] += 1;
    } else if (kind == KIND_SWAPPED || kind == KIND_STORED) {
        me->tester->changes[word] += 1;
    }
}

void step_sleeps(struct goll_thread *me) {
    (void)me;
}

void step_rises(struct goll_thread *sleeper) {
    (void)sleeper;
}

/* What all rounds had. */
static struct {
    uint64_t changes;
    uint64_t failures;
    uint64_t pairs;     /* of a thread and a word at which it failed */
    uint64_t most;      /* failures of one thread on one word in a round, and .. */
    uint64_t most_room; /* .. the others' changes of it */
} totals;

static void add_up(uint64_t failures, uint64_t others) {
    totals.failures += failures;
    totals.pairs += failures > 0 ? 1 : 0;
    if (failures > totals.most) {
        totals.most = failures;
        totals.most_room = others;
    }
}

static bool is_bounded(const struct round *round, unsigned word) {
    uint64_t changes = 0;
    for (unsigned t = 0; t < round->site.threads; t++) {
        changes += round->testers[t].changes[word];
    }
    totals.changes += changes;
    bool good = true;
    for (unsigned t = 0; t < round->site.threads; t++) {
        uint64_t failures = round->testers[t].failures[word];
        uint64_t others = changes - round->testers[t].changes[word];
        add_up(failures, others);
        if (failures > others) {
            printf("thread %u failed %" PRIu64 " times on word %u, others changed it %" PRIu64 " times\n", t, failures,
                   word, others);
            good = fails("failed swaps are to be no more than the others' changes");
        }
    }
    return good;
}

bool round_is_good(const struct round *round) {
    bool good = true;
    for (unsigned w = 0; w < GOLL_NODES; w++) {
        good = is_bounded(round, w) && good;
    }
    return good;
}

void tell_more(void) {
    printf("%" PRIu64 " changes of words, %" PRIu64 " failed swaps, by %" PRIu64
           " pairs of thread and word, each within the bound; the most of one pair: %" PRIu64 ", with %" PRIu64
           " changes by others\n",
           totals.changes, totals.failures, totals.pairs, totals.most, totals.most_room);
}
