/*
 * The GOLL reader-writer lock of "Scalable Reader-Writer Locks" (2009), in C11 over
 * POSIX threads: figures 2 and 3, the upgrade of section 3.2.1, a downgrade, and the
 * hand-over of section 5, in which readers hand over to writers and writers to
 * readers. goll.c is to be read beside the figures, and beside the bench's
 * definitions in crates/lock/specs/Call.antt.
 *
 * A thread takes one of the lock's 64 places, lock->threads[t], and makes its calls
 * with it; no two threads have the same. A call that does not suit what the thread
 * holds is an error of the program, and an assertion ends it.
 */
#ifndef GOLL_H
#define GOLL_H

#include <pthread.h>
#include <stdatomic.h>
#include <stdbool.h>
#include <stdint.h>

/* Test programs see each step, by one of these flags: steps.h. */
#if defined(STEPPED) || defined(RECORDED) || defined(COUNTED)
#define STEP_HOOKS
#endif

enum { GOLL_NODES = 32, GOLL_FAN = 16, GOLL_THREADS = 64, GOLL_LINE = 64 };

/* A word has a cache line of its own: threads at different nodes are not to meet. */
struct goll_word {
    _Alignas(GOLL_LINE) _Atomic uint64_t value;
};

/* Who waits, guarded by the lock's mutex: the readers as a set with a bit for each
 * thread, the writers as a ring, the one who has waited longest first. */
struct goll_queue {
    uint64_t readers;
    uint8_t writers[GOLL_THREADS];
    unsigned first;
    unsigned waiting; /* the number of waiting writers */
};

enum goll_hold { GOLL_NOTHING, GOLL_READING, GOLL_WRITING };

struct goll;

/* What belongs to one thread. */
struct goll_thread {
    _Alignas(GOLL_LINE) struct goll *lock;
    unsigned number;
    enum goll_hold hold;
    unsigned ticket; /* while it reads: the node at which it arrived, 0 for the root */
    pthread_mutex_t sleep_mutex;
    pthread_cond_t sleep_end;
    bool woken; /* guarded by sleep_mutex */
#ifdef STEP_HOOKS
    struct tester *tester; /* what a test program keeps of the thread */
    unsigned order;        /* of its latest call */
#endif
};

struct goll {
    struct goll_word words[GOLL_NODES]; /* word 0 is the root, word n node n */
    unsigned nodes;
    unsigned fan;
    _Alignas(GOLL_LINE) pthread_mutex_t mutex;
    struct goll_queue queue;
    struct goll_thread threads[GOLL_THREADS];
};

/* Makes the lock: nodes 1 to 32, the root among them, and the fan-out 1 to 16. Its memory is aligned to
 * GOLL_LINE, as static memory and aligned_alloc give it. */
void goll_init(struct goll *lock, unsigned nodes, unsigned fan);

/* No thread may hold the lock, wait for it or be in a call. */
void goll_destroy(struct goll *lock);

/* Node 0 goes straight to the root. Which node a thread takes is up to the program:
 * one of its own where there are many readers. */
void goll_read_lock(struct goll_thread *me, unsigned node);
void goll_read_unlock(struct goll_thread *me);
void goll_write_lock(struct goll_thread *me);
void goll_write_unlock(struct goll_thread *me);

/* From reading to writing, where nobody else reads; else false, and it goes on
 * reading. It never sleeps. */
bool goll_upgrade(struct goll_thread *me);

/* From writing to reading. It never sleeps. */
void goll_downgrade(struct goll_thread *me);

/* The parts of a word: see goll.c. */
unsigned goll_direct(uint64_t word);
unsigned goll_tree(uint64_t word);
bool goll_is_closed(uint64_t word);

#endif
