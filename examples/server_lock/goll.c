/*
 * The lock. Behind each step stands the phase of crates/lock/specs/Call.antt whose row it is, above
 * each function the procedure of figures 2 and 3.
 */
#include "goll.h"

#include <assert.h>
#include <string.h>

#include "steps.h"

/* ---- the words: whether the root is closed, its direct arrivals, its arrivals from nodes. A node has
 * one count, in the place of the last. */

#define CLOSED UINT64_C(1)
#define DIRECT UINT64_C(2)
#define TREE (UINT64_C(1) << 17)

enum { ROOT = 0 };

bool goll_is_closed(uint64_t word) {
    return (word & CLOSED) != 0;
}

unsigned goll_direct(uint64_t word) {
    return (unsigned)(word % TREE / DIRECT);
}

unsigned goll_tree(uint64_t word) {
    return (unsigned)(word / TREE);
}

static bool is_zero(uint64_t word) {
    return goll_direct(word) == 0 && goll_tree(word) == 0;
}

/* The lock is free, and the lock is write-locked. */
static bool is_zero_open(uint64_t word) {
    return is_zero(word) && !goll_is_closed(word);
}

static bool is_zero_closed(uint64_t word) {
    return is_zero(word) && goll_is_closed(word);
}

/* Who arrived directly is alone. */
static bool is_sole(uint64_t word) {
    return goll_direct(word) == 1 && goll_tree(word) == 0;
}

static uint64_t direct_word(unsigned direct, bool closed) {
    return direct * DIRECT + (closed ? CLOSED : 0);
}

static unsigned parent(const struct goll *lock, unsigned node) {
    return (node - 1) / lock->fan;
}

/* ---- the queue, under the mutex. Section 5: readers hand over to writers and writers to readers. */

/* A writer alone, or readers; nobody where there are no members. */
struct group {
    uint64_t members; /* a bit for each thread */
    bool writer;
};

static uint64_t only(unsigned thread) {
    return UINT64_C(1) << thread;
}

static unsigned size(uint64_t members) {
    unsigned count = 0;
    for (; members != 0; members >>= 1) {
        count += (unsigned)(members & 1);
    }
    return count;
}

/* All queued readers are one group, which a reader joins even behind a writer. */
static void join_reader(struct goll_queue *queue, unsigned thread) {
    queue->readers |= only(thread);
}

static void join_writer(struct goll_queue *queue, unsigned thread) {
    queue->writers[(queue->first + queue->waiting) % GOLL_THREADS] = (uint8_t)thread;
    queue->waiting += 1;
}

static uint64_t take_readers(struct goll_queue *queue) {
    uint64_t members = queue->readers;
    queue->readers = 0;
    return members;
}

/* The writer who has waited longest. */
static struct group take_writer(struct goll_queue *queue) {
    struct group group = {.members = 0, .writer = true};
    if (queue->waiting > 0) {
        group.members = only(queue->writers[queue->first]);
        queue->first = (queue->first + 1) % GOLL_THREADS;
        queue->waiting -= 1;
    }
    return group;
}

/* A leaving writer takes the readers if there are any, else that writer. */
static struct group take_next(struct goll_queue *queue) {
    if (queue->readers != 0) {
        return (struct group){.members = take_readers(queue), .writer = false};
    }
    return take_writer(queue);
}

/* ---- sleep. A wake-up that comes before the sleep is not lost: `woken` keeps it. */

static void sleep_until_woken(struct goll_thread *me) {
    must(pthread_mutex_lock(&me->sleep_mutex));
    while (!me->woken) {
        STEP_SLEEPS(me);
        must(pthread_cond_wait(&me->sleep_end, &me->sleep_mutex));
    }
    me->woken = false;
    must(pthread_mutex_unlock(&me->sleep_mutex));
}

static void wake(struct goll *lock, uint64_t members) {
    for (struct goll_thread *sleeper = lock->threads; members != 0; sleeper++, members >>= 1) {
        if ((members & 1) != 0) {
            must(pthread_mutex_lock(&sleeper->sleep_mutex));
            sleeper->woken = true;
            STEP_RISES(sleeper);
            must(pthread_cond_signal(&sleeper->sleep_end));
            must(pthread_mutex_unlock(&sleeper->sleep_mutex));
        }
    }
}

/* ---- figure 2: the closable scalable nonzero indicator */

/* TreeArrive at the root; false where the lock is write-locked. A root that is closed
 * with readers still takes a late arrival. */
static bool arrive_at_root(struct goll_thread *me) {
    uint64_t seen = STEP_READ(me, ROOT); /* Climb */
    do {
        if (is_zero_closed(seen)) {
            return false;
        }
    } while (!STEP_SWAP(me, ROOT, &seen, seen + TREE)); /* ClimbSwap */
    return true;
}

static bool tree_depart(struct goll_thread *me, unsigned node);

/* TreeArrive. A node at 0 is not raised before its parent is, so that an arrival that
 * fails above leaves nothing behind. */
static bool tree_arrive(struct goll_thread *me, unsigned node) {
    if (node == ROOT) {
        return arrive_at_root(me);
    }
    bool arrived_above = false;
    uint64_t seen = STEP_READ(me, node); /* Climb */
    do {
        if (is_zero(seen) && !arrived_above) {
            if (!tree_arrive(me, parent(me->lock, node))) {
                return false;
            }
            arrived_above = true;
        }
    } while (!STEP_SWAP(me, node, &seen, seen + TREE)); /* ClimbSwap; arrived above: Descend, then AgainSwap */
    if (arrived_above && !is_zero(seen)) {
        /* Another has raised the node, and arrived above for it: one arrival there is enough, and stays. */
        tree_depart(me, parent(me->lock, node));
    }
    return true;
}

/* TreeDepart; true where the departure is the last from a closed root. */
static bool tree_depart(struct goll_thread *me, unsigned node) {
    uint64_t seen = STEP_READ(me, node);               /* Depart */
    while (!STEP_SWAP(me, node, &seen, seen - TREE)) { /* DepartSwap */
    }
    if (node == ROOT) {
        return is_zero_closed(seen - TREE);
    }
    return is_zero(seen - TREE) && tree_depart(me, parent(me->lock, node));
}

/* The departure of who arrived directly; true where it is the last from a closed root. */
static bool direct_depart(struct goll_thread *me) {
    uint64_t seen = STEP_READ(me, ROOT);                 /* Leave */
    while (!STEP_SWAP(me, ROOT, &seen, seen - DIRECT)) { /* LeaveSwap */
    }
    return is_zero_closed(seen - DIRECT);
}

/* Arrive; false where the root is closed. */
static bool arrive(struct goll_thread *me, unsigned node) {
    uint64_t seen = STEP_READ(me, ROOT); /* Look */
    if (node != ROOT) {
        return !goll_is_closed(seen) && tree_arrive(me, node);
    }
    do {
        if (goll_is_closed(seen)) {
            return false;
        }
    } while (!STEP_SWAP(me, ROOT, &seen, seen + DIRECT)); /* Enter */
    return true;
}

/* CloseIfEmpty; true where the lock was free and is now write-locked. */
static bool close_if_empty(struct goll_thread *me) {
    uint64_t seen = STEP_READ(me, ROOT); /* WriteLook */
    do {
        if (!is_zero_open(seen)) {
            return false;
        }
    } while (!STEP_SWAP(me, ROOT, &seen, CLOSED)); /* WriteEnter */
    return true;
}

/* Close, under the mutex; true where the lock was free and is now write-locked. */
static bool close_root(struct goll_thread *me) {
    uint64_t seen = STEP_READ(me, ROOT); /* WriteRead */
    do {
        if (goll_is_closed(seen)) {
            return false;
        }
    } while (!STEP_SWAP(me, ROOT, &seen, seen | CLOSED)); /* WriteClose */
    return is_zero(seen);
}

/* ---- figure 3: the lock */

static void reads(struct goll_thread *me, unsigned ticket) {
    me->hold = GOLL_READING;
    me->ticket = ticket;
}

/* ReaderLock */
void goll_read_lock(struct goll_thread *me, unsigned node) {
    assert(me->hold == GOLL_NOTHING && node < me->lock->nodes);
    STEP_BEGIN(me, READ_LOCK + node);
    while (!arrive(me, node)) {
        STEP_LOCK(me);                                                 /* QueueTake */
        if (goll_is_closed(STEP_READ(me, ROOT))) {                     /* QueueRead */
            STEP_QUEUE(me, join_reader(&me->lock->queue, me->number)); /* QueueJoin */
            STEP_RELEASE(me);                                          /* Sleep */
            sleep_until_woken(me);                                     /* Asleep */
            /* DirectTicket: whoever woke it has arrived at the root for it. */
            reads(me, ROOT);
            return;
        }
        STEP_RELEASE(me); /* QueueBack */
    }
    reads(me, node);
}

/* WriterLock */
void goll_write_lock(struct goll_thread *me) {
    assert(me->hold == GOLL_NOTHING);
    STEP_BEGIN(me, WRITE_LOCK);
    if (!close_if_empty(me)) {
        STEP_LOCK(me); /* WriteTake */
        if (close_root(me)) {
            STEP_RELEASE(me); /* WriteHold */
        } else {
            STEP_QUEUE(me, join_writer(&me->lock->queue, me->number)); /* WriteJoin */
            STEP_RELEASE(me);                                          /* Sleep */
            sleep_until_woken(me);                                     /* Asleep */
        }
    }
    me->hold = GOLL_WRITING;
}

/* Hands the write-locked lock over to a group that was taken from the queue, or opens it where there is
 * none. The mutex is held until the root says who holds, so that the number of waiting writers stays. */
static void hand_over(struct goll_thread *me, struct group group) {
    if (group.members == 0) {
        STEP_STORE(me, ROOT, direct_word(0, false)); /* UnlockOpen */
        STEP_RELEASE(me);                            /* UnlockEnd */
        return;
    }
    if (!group.writer) {
        bool writer_queued = me->lock->queue.waiting > 0;
        STEP_STORE(me, ROOT, direct_word(size(group.members), writer_queued)); /* UnlockStore */
    }
    STEP_RELEASE(me);                             /* HandRelease */
    STEP_WAKE(me, wake(me->lock, group.members)); /* HandWake */
}

/* WriterUnlock */
void goll_write_unlock(struct goll_thread *me) {
    assert(me->hold == GOLL_WRITING);
    me->hold = GOLL_NOTHING;
    STEP_BEGIN(me, UNLOCK);
    STEP_LOCK(me); /* UnlockTake */
    struct group group;
    STEP_QUEUE(me, group = take_next(&me->lock->queue)); /* UnlockNext */
    hand_over(me, group);
}

/* ReaderUnlock */
void goll_read_unlock(struct goll_thread *me) {
    assert(me->hold == GOLL_READING);
    me->hold = GOLL_NOTHING;
    STEP_BEGIN(me, UNLOCK);
    bool last = me->ticket == ROOT ? direct_depart(me) : tree_depart(me, me->ticket);
    if (last) {
        STEP_LOCK(me); /* LastTake */
        struct group group;
        STEP_QUEUE(me, group = take_writer(&me->lock->queue)); /* LastNext; there always is one */
        hand_over(me, group);
    }
}

/* ---- section 3.2.1, and the way back */

bool goll_upgrade(struct goll_thread *me) {
    assert(me->hold == GOLL_READING);
    STEP_BEGIN(me, UPGRADE);
    if (me->ticket != ROOT) {
        /* Trades its arrival at a node for a direct one, which comes first: the departure is never the last. */
        uint64_t seen = STEP_READ(me, ROOT);                 /* UpgradeTrade */
        while (!STEP_SWAP(me, ROOT, &seen, seen + DIRECT)) { /* UpgradeEnter */
        }
        tree_depart(me, me->ticket);
        me->ticket = ROOT;
    }
    uint64_t seen = STEP_ASK(me, ROOT, is_sole); /* UpgradeLook */
    do {
        if (!is_sole(seen)) {
            return false;
        }
    } while (!STEP_SWAP(me, ROOT, &seen, CLOSED)); /* UpgradeSwap */
    me->hold = GOLL_WRITING;
    return true;
}

void goll_downgrade(struct goll_thread *me) {
    assert(me->hold == GOLL_WRITING);
    STEP_BEGIN(me, DOWNGRADE);
    STEP_LOCK(me); /* DowngradeTake */
    uint64_t members;
    STEP_QUEUE(me, members = take_readers(&me->lock->queue)); /* DowngradeNext */
    bool writer_queued = me->lock->queue.waiting > 0;
    STEP_STORE(me, ROOT, direct_word(1 + size(members), writer_queued)); /* DowngradeStore */
    STEP_RELEASE(me);                                                    /* DowngradeRelease */
    if (members != 0) {
        STEP_WAKE(me, wake(me->lock, members)); /* DowngradeWake */
    }
    reads(me, ROOT);
}

/* ---- the lock as it is made */

void goll_init(struct goll *lock, unsigned nodes, unsigned fan) {
    assert(nodes >= 1 && nodes <= GOLL_NODES && fan >= 1 && fan <= GOLL_FAN);
    memset(lock, 0, sizeof *lock);
    lock->nodes = nodes;
    lock->fan = fan;
    for (unsigned w = 0; w < GOLL_NODES; w++) {
        atomic_init(&lock->words[w].value, 0);
    }
    must(pthread_mutex_init(&lock->mutex, NULL));
    for (unsigned t = 0; t < GOLL_THREADS; t++) {
        struct goll_thread *thread = &lock->threads[t];
        thread->lock = lock;
        thread->number = t;
        must(pthread_mutex_init(&thread->sleep_mutex, NULL));
        must(pthread_cond_init(&thread->sleep_end, NULL));
    }
}

void goll_destroy(struct goll *lock) {
    for (unsigned t = 0; t < GOLL_THREADS; t++) {
        must(pthread_cond_destroy(&lock->threads[t].sleep_end));
        must(pthread_mutex_destroy(&lock->threads[t].sleep_mutex));
    }
    must(pthread_mutex_destroy(&lock->mutex));
}
