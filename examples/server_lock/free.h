/* A round of free.c, for what sees each step in it: counts.c with COUNTED, log.c with RECORDED. */
#ifndef FREE_H
#define FREE_H

#include "steps.h"
#include "testing.h"

struct site {
    unsigned nodes;
    unsigned fan;
    unsigned threads;
    unsigned writes;       /* of a hundred locks */
    unsigned direct;       /* of a hundred read-locks */
    unsigned yield_one_in; /* before one step of so many; never where it is 0 */
};

/* One of the threads, in memory of its own. */
struct tester {
    _Alignas(GOLL_LINE) struct round *round;
    struct goll_thread *me;
    pthread_t thread;
    uint64_t seed;
    uint64_t calls;
    uint64_t writes;
    uint64_t granted;
    uint64_t denied;
    uint64_t intrusions;           /* others seen in the critical section */
    uint64_t failures[GOLL_NODES]; /* its failed swaps of each word, counted by counts.c */
    uint64_t changes[GOLL_NODES];  /* its swaps and stores of each word, likewise */
    bool ended;                    /* guarded by the round's mutex */
};

/* What the lock guards: both counters are the number of writes, but for a writer's critical section. */
struct guarded {
    _Alignas(GOLL_LINE) volatile uint64_t before;
    _Alignas(GOLL_LINE) volatile uint64_t after;
};

struct round {
    struct goll lock;
    struct guarded guarded;
    struct site site;
    atomic_bool stop;
    pthread_mutex_t mutex;
    pthread_cond_t all_ended;
    unsigned running;
    struct tester testers[GOLL_THREADS];
};

/* Yields now and then, so that others' steps come between its own on few cores too. */
void yield_sometimes(struct tester *tester);

/* Says what is wrong, and gives false. */
bool fails(const char *what);

/* What log.c adds: what is done before a round, and how long it lasts. */
void round_begins(const struct site *site);
void round_lasts(void);

/* What counts.c and log.c add: what is checked after a round, and what is said in the end. */
bool round_is_good(const struct round *round);
void tell_more(void);

#endif
