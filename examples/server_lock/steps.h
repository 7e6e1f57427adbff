/*
 * The atomic steps of the lock, a macro for each: what the bench calls a row.
 *
 *   STEP_BEGIN(me, order)           a call begins; no word is touched
 *   STEP_READ(me, w)                the word w
 *   STEP_ASK(me, w, grants)         the word w, read for an upgrade that grants(word) allows
 *   STEP_SWAP(me, w, &seen, to)     to, if the word w still is what was seen; else seen is
 *                                   the word met: a failed swap is also the next read
 *   STEP_STORE(me, w, to)
 *   STEP_LOCK(me), STEP_RELEASE(me) the mutex of the queue
 *   STEP_QUEUE(me, change)          one change of the queue, under the mutex
 *   STEP_WAKE(me, waking)           a group is woken
 *
 * STEP_SLEEPS and STEP_RISES are no steps: a sleep begins in the row that releases the
 * mutex, and ends in the row that wakes.
 *
 * Without a flag the macros are the plain operations. With a flag a test program sees each
 * step: with STEPPED it waits for its turn and is entered in a record (turns.c), with RECORDED
 * it is entered in a log (log.c), with COUNTED its thread counts failures and changes (counts.c).
 *
 * All operations on words are sequentially consistent, and a swap fails only where the
 * word differs (strong): the bound on failed swaps rests on that.
 */
#ifndef STEPS_H
#define STEPS_H

#include <errno.h>
#include <stdio.h>
#include <stdlib.h>
#include <string.h>

#include "goll.h"

/* The kinds of the bench's journal. */
enum step_kind {
    KIND_BEGUN,
    KIND_READ,
    KIND_SWAPPED,
    KIND_FAILED,
    KIND_HELD_UP,
    KIND_STORED,
    KIND_LOCKED,
    KIND_RELEASED,
    KIND_QUEUED,
    KIND_WOKEN,
    KIND_DENIED
};

/* The words of the journal that are none of the lock's: mutex and queue, and none. */
enum { WORD_QUEUE = 32, WORD_NONE = 33 };

/* The orders of the bench's schedules: READ_LOCK + n is a read-lock by node n. */
enum step_order { GO_ON = 0, WRITE_LOCK = 1, UNLOCK = 2, UPGRADE = 3, DOWNGRADE = 4, READ_LOCK = 64 };

/* A POSIX function that must not fail. */
static inline void must(int error) {
    if (error != 0) {
        fprintf(stderr, "server_lock: %s\n", strerror(error));
        abort();
    }
}

#ifndef STEP_HOOKS

#define STEP_BEGIN(me, order) ((void)(me))
#define STEP_READ(me, w) atomic_load(&(me)->lock->words[w].value)
#define STEP_ASK(me, w, grants) STEP_READ(me, w)
#define STEP_SWAP(me, w, seen, to) atomic_compare_exchange_strong(&(me)->lock->words[w].value, seen, to)
#define STEP_STORE(me, w, to) atomic_store(&(me)->lock->words[w].value, to)
#define STEP_LOCK(me) must(pthread_mutex_lock(&(me)->lock->mutex))
#define STEP_RELEASE(me) must(pthread_mutex_unlock(&(me)->lock->mutex))
#define STEP_QUEUE(me, change) ((void)(change))
#define STEP_WAKE(me, waking) ((void)(waking))
#define STEP_SLEEPS(me) ((void)(me))
#define STEP_RISES(sleeper) ((void)(sleeper))

#else

/* Before a step. Where it gives false a thread waits for the mutex as without a flag; else it tries, and
 * each failure is a step too, held up. */
bool step_turn(struct goll_thread *me);

/* After it: what it did, to which word, and that word, where it is one of the lock's. */
void step_entry(struct goll_thread *me, enum step_kind kind, unsigned word, uint64_t value);

void step_sleeps(struct goll_thread *me);
void step_rises(struct goll_thread *sleeper);

static inline void step_begin(struct goll_thread *me, unsigned order) {
    step_turn(me);
    me->order = order;
    step_entry(me, KIND_BEGUN, WORD_NONE, 0);
}

static inline uint64_t step_read(struct goll_thread *me, unsigned w) {
    step_turn(me);
    uint64_t found = atomic_load(&me->lock->words[w].value);
    step_entry(me, KIND_READ, w, found);
    return found;
}

static inline uint64_t step_ask(struct goll_thread *me, unsigned w, bool (*grants)(uint64_t)) {
    step_turn(me);
    uint64_t found = atomic_load(&me->lock->words[w].value);
    step_entry(me, grants(found) ? KIND_READ : KIND_DENIED, w, found);
    return found;
}

static inline bool step_swap(struct goll_thread *me, unsigned w, uint64_t *seen, uint64_t to) {
    step_turn(me);
    bool done = atomic_compare_exchange_strong(&me->lock->words[w].value, seen, to);
    step_entry(me, done ? KIND_SWAPPED : KIND_FAILED, w, done ? to : *seen);
    return done;
}

static inline void step_store(struct goll_thread *me, unsigned w, uint64_t to) {
    step_turn(me);
    atomic_store(&me->lock->words[w].value, to);
    step_entry(me, KIND_STORED, w, to);
}

static inline void step_lock(struct goll_thread *me) {
    while (step_turn(me)) {
        int error = pthread_mutex_trylock(&me->lock->mutex);
        if (error == 0) {
            step_entry(me, KIND_LOCKED, WORD_QUEUE, 0);
            return;
        }
        must(error == EBUSY ? 0 : error);
        step_entry(me, KIND_HELD_UP, WORD_QUEUE, 0);
    }
    must(pthread_mutex_lock(&me->lock->mutex));
}

static inline void step_release(struct goll_thread *me) {
    step_turn(me);
    must(pthread_mutex_unlock(&me->lock->mutex));
    step_entry(me, KIND_RELEASED, WORD_QUEUE, 0);
}

#define STEP_BEGIN(me, order) step_begin(me, order)
#define STEP_READ(me, w) step_read(me, w)
#define STEP_ASK(me, w, grants) step_ask(me, w, grants)
#define STEP_SWAP(me, w, seen, to) step_swap(me, w, seen, to)
#define STEP_STORE(me, w, to) step_store(me, w, to)
#define STEP_LOCK(me) step_lock(me)
#define STEP_RELEASE(me) step_release(me)
#define STEP_QUEUE(me, change) ((void)step_turn(me), (void)(change), step_entry(me, KIND_QUEUED, WORD_QUEUE, 0))
#define STEP_WAKE(me, waking) ((void)step_turn(me), (void)(waking), step_entry(me, KIND_WOKEN, WORD_QUEUE, 0))
#define STEP_SLEEPS(me) step_sleeps(me)
#define STEP_RISES(sleeper) step_rises(sleeper)

#endif

#endif
