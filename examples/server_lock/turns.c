#include "turns.h"

#include <stdarg.h>

#include "record.h"
#include "steps.h"
#include "testing.h"

/* Where a thread is, for whoever gives the turns. */
enum place {
    AT_REST,  /* between calls */
    AT_STEP,  /* in a call, before a step */
    SLEEPING, /* in a call, asleep */
    MOVING,   /* it has the turn, or was woken, or there are no more turns */
    GONE
};

/* What belongs to one thread. */
struct tester {
    struct turns *run;
    pthread_t thread;
    pthread_cond_t given;
    bool has_turn;
    enum place place;
    unsigned order;
    unsigned failures;
};

struct turns {
    struct goll lock;
    unsigned threads;
    pthread_mutex_t mutex; /* guards what follows, and each struct tester */
    pthread_cond_t settled;
    unsigned moving; /* the threads that are MOVING */
    bool over;       /* no more turns */
    unsigned entries;
    struct entry entry;
    int mutex_of; /* the thread that has the queue's mutex, or -1 */
    struct tester testers[GOLL_THREADS];
};

static void fatal(const char *what) {
    fprintf(stderr, "server_lock: %s\n", what);
    exit(3);
}

/* ---- the threads' side; run->mutex is held where a function has a struct tester */

static void settle(struct tester *tester, enum place place) {
    tester->place = place;
    tester->run->moving -= 1;
    if (tester->run->moving == 0) {
        must(pthread_cond_signal(&tester->run->settled));
    }
}

static void set_moving(struct tester *tester) {
    tester->place = MOVING;
    tester->run->moving += 1;
}

/* Waits for the turn; false where there are no more. */
static bool await_turn(struct tester *tester, enum place place) {
    if (!tester->has_turn && !tester->run->over) {
        settle(tester, place);
        do {
            must(pthread_cond_wait(&tester->given, &tester->run->mutex));
        } while (!tester->has_turn && !tester->run->over);
    }
    return tester->has_turn;
}

bool step_turn(struct goll_thread *me) {
    must(pthread_mutex_lock(&me->tester->run->mutex));
    bool has_turn = await_turn(me->tester, AT_STEP);
    me->tester->has_turn = false;
    must(pthread_mutex_unlock(&me->tester->run->mutex));
    return has_turn;
}

void step_entry(struct goll_thread *me, enum step_kind kind, unsigned word, uint64_t value) {
    struct turns *run = me->tester->run;
    must(pthread_mutex_lock(&run->mutex));
    run->entries += 1;
    run->entry = (struct entry){.kind = (uint8_t)kind, .word = (uint8_t)word, .value = value};
    if (kind == KIND_FAILED) {
        me->tester->failures += 1;
    } else if (kind == KIND_LOCKED) {
        run->mutex_of = (int)me->number;
    } else if (kind == KIND_RELEASED) {
        run->mutex_of = -1;
    }
    must(pthread_mutex_unlock(&run->mutex));
}

void step_sleeps(struct goll_thread *me) {
    must(pthread_mutex_lock(&me->tester->run->mutex));
    if (me->tester->place != SLEEPING) {
        settle(me->tester, SLEEPING);
    }
    must(pthread_mutex_unlock(&me->tester->run->mutex));
}

void step_rises(struct goll_thread *sleeper) {
    must(pthread_mutex_lock(&sleeper->tester->run->mutex));
    if (sleeper->tester->place == SLEEPING) {
        set_moving(sleeper->tester);
    }
    must(pthread_mutex_unlock(&sleeper->tester->run->mutex));
}

static void unlock(struct goll_thread *me) {
    if (me->hold == GOLL_READING) {
        goll_read_unlock(me);
    } else if (me->hold == GOLL_WRITING) {
        goll_write_unlock(me);
    }
}

static void call(struct goll_thread *me, unsigned order) {
    if (order == WRITE_LOCK) {
        goll_write_lock(me);
    } else if (order == UNLOCK) {
        unlock(me);
    } else if (order == UPGRADE) {
        goll_upgrade(me);
    } else if (order == DOWNGRADE) {
        goll_downgrade(me);
    } else {
        goll_read_lock(me, order - READ_LOCK);
    }
}

/* One of the threads: makes the calls that it is given. The turn of an order is used by
 * the call's first step, its beginning. */
static void *make_calls(void *argument) {
    struct goll_thread *me = argument;
    struct tester *tester = me->tester;
    must(pthread_mutex_lock(&tester->run->mutex));
    while (await_turn(tester, AT_REST)) {
        unsigned order = tester->order;
        must(pthread_mutex_unlock(&tester->run->mutex));
        call(me, order);
        must(pthread_mutex_lock(&tester->run->mutex));
    }
    must(pthread_mutex_unlock(&tester->run->mutex));
    unlock(me);
    must(pthread_mutex_lock(&tester->run->mutex));
    settle(tester, GONE);
    must(pthread_mutex_unlock(&tester->run->mutex));
    return NULL;
}

/* ---- the side that gives the turns */

/* Waits until no thread moves, with run->mutex held. */
static void await_settled(struct turns *run) {
    struct timespec end = end_of_patience();
    while (run->moving > 0) {
        if (pthread_cond_timedwait(&run->settled, &run->mutex, &end) == ETIMEDOUT) {
            fatal("a thread neither ends its step nor sleeps");
        }
    }
}

struct turns *turns_start(unsigned nodes, unsigned fan, unsigned threads) {
    struct turns *run = aligned_alloc(GOLL_LINE, sizeof *run);
    if (run == NULL) {
        fatal("no memory");
    }
    memset(run, 0, sizeof *run);
    goll_init(&run->lock, nodes, fan);
    run->threads = threads;
    run->mutex_of = -1;
    must(pthread_mutex_init(&run->mutex, NULL));
    must(pthread_cond_init(&run->settled, NULL));
    must(pthread_mutex_lock(&run->mutex));
    for (unsigned t = 0; t < threads; t++) {
        struct tester *tester = &run->testers[t];
        tester->run = run;
        must(pthread_cond_init(&tester->given, NULL));
        set_moving(tester);
        run->lock.threads[t].tester = tester;
        must(pthread_create(&tester->thread, NULL, make_calls, &run->lock.threads[t]));
    }
    await_settled(run);
    must(pthread_mutex_unlock(&run->mutex));
    return run;
}

/* The lock's state is read with run->mutex held and no thread moving. */
static enum standing standing_of(const struct turns *run, unsigned thread) {
    switch (run->testers[thread].place) {
    case AT_REST:
        return (enum standing)run->lock.threads[thread].hold;
    case SLEEPING:
        return ASLEEP;
    default:
        return CALLING;
    }
}

enum standing turns_standing(struct turns *run, unsigned thread) {
    must(pthread_mutex_lock(&run->mutex));
    enum standing standing = standing_of(run, thread);
    must(pthread_mutex_unlock(&run->mutex));
    return standing;
}

static bool is_order(const struct turns *run, unsigned order) {
    return order <= DOWNGRADE || (order >= READ_LOCK && order < READ_LOCK + run->lock.nodes);
}

static bool suits(unsigned order, enum standing standing) {
    switch (order) {
    case GO_ON:
        return standing == CALLING || standing == ASLEEP;
    case UNLOCK:
        return standing == READING || standing == WRITING;
    case UPGRADE:
        return standing == READING;
    case DOWNGRADE:
        return standing == WRITING;
    default:
        return standing == IDLE;
    }
}

static void give_turn(struct tester *tester, unsigned order) {
    struct turns *run = tester->run;
    tester->has_turn = true;
    tester->order = order;
    run->entries = 0;
    set_moving(tester);
    must(pthread_cond_signal(&tester->given));
    await_settled(run);
    if (run->entries != 1) {
        fatal("a turn was not used for exactly one step");
    }
}

unsigned turns_row(struct turns *run, unsigned thread, unsigned order, struct entry *entry) {
    if (thread >= run->threads) {
        return 5;
    }
    if (!is_order(run, order)) {
        return 6;
    }
    must(pthread_mutex_lock(&run->mutex));
    enum standing standing = standing_of(run, thread);
    unsigned refusal = suits(order, standing) ? 0 : 7;
    if (refusal == 0 && standing == ASLEEP) {
        /* It really sleeps, and has no use for the turn. */
        *entry = (struct entry){.kind = KIND_HELD_UP, .word = WORD_QUEUE};
    } else if (refusal == 0) {
        give_turn(&run->testers[thread], order);
        *entry = run->entry;
    }
    must(pthread_mutex_unlock(&run->mutex));
    return refusal;
}

/* ---- the sheet */

struct text {
    char *bytes;
    size_t length;
};

static void put(struct text *text, const char *format, ...) {
    va_list values;
    va_start(values, format);
    int length = vsnprintf(text->bytes + text->length, SHEET_SIZE - text->length, format, values);
    va_end(values);
    if (length < 0 || (size_t)length >= SHEET_SIZE - text->length) {
        fatal("the sheet does not fit");
    }
    text->length += (size_t)length;
}

static void put_words(struct text *text, struct goll *lock) {
    uint64_t root = atomic_load(&lock->words[0].value);
    put(text, "root %u %u %s\n", goll_direct(root), goll_tree(root), goll_is_closed(root) ? "closed" : "open");
    for (unsigned n = 1; n < lock->nodes; n++) {
        put(text, "node %u %u\n", n, goll_tree(atomic_load(&lock->words[n].value)));
    }
}

static void put_queue(struct text *text, const struct turns *run) {
    const struct goll_queue *queue = &run->lock.queue;
    if (run->mutex_of < 0) {
        put(text, "queue free");
    } else {
        put(text, "queue %d", run->mutex_of);
    }
    put(text, " %u %u\n", queue->waiting + (queue->readers != 0 ? 1 : 0), queue->waiting);
}

static void put_thread(struct text *text, const struct turns *run, unsigned thread) {
    static const char *const names[] = {"idle", "reading", "writing", "calling", "asleep"};
    enum standing standing = standing_of(run, thread);
    put(text, "thread %u %s ", thread, names[standing]);
    if (standing == READING) {
        put(text, "%u", run->lock.threads[thread].ticket);
    } else {
        put(text, "-");
    }
    put(text, " %u\n", run->testers[thread].failures);
}

size_t turns_sheet(struct turns *run, unsigned answer, unsigned rows, char bytes[SHEET_SIZE]) {
    struct text text = {.bytes = bytes, .length = 0};
    must(pthread_mutex_lock(&run->mutex));
    put(&text, "answer %u at %u\n", answer, rows);
    put_words(&text, &run->lock);
    put_queue(&text, run);
    for (unsigned t = 0; t < run->threads; t++) {
        put_thread(&text, run, t);
    }
    must(pthread_mutex_unlock(&run->mutex));
    return text.length;
}

/* ---- the end */

/* What is wrong with a lock that every thread has left. */
static const char *left_behind(struct turns *run) {
    for (unsigned t = 0; t < run->threads; t++) {
        if (run->testers[t].place != GONE) {
            return "a thread is left asleep";
        }
    }
    for (unsigned w = 0; w < run->lock.nodes; w++) {
        uint64_t word = atomic_load(&run->lock.words[w].value);
        if (goll_direct(word) != 0 || goll_tree(word) != 0 || goll_is_closed(word)) {
            return "a word is not as it was made";
        }
    }
    if (run->lock.queue.readers != 0 || run->lock.queue.waiting != 0) {
        return "the queue is not empty";
    }
    if (pthread_mutex_trylock(&run->lock.mutex) != 0) {
        return "the mutex is not free";
    }
    must(pthread_mutex_unlock(&run->lock.mutex));
    return NULL;
}

const char *turns_end(struct turns *run) {
    must(pthread_mutex_lock(&run->mutex));
    run->over = true;
    for (unsigned t = 0; t < run->threads; t++) {
        struct tester *tester = &run->testers[t];
        if (tester->place != SLEEPING) {
            set_moving(tester);
            must(pthread_cond_signal(&tester->given));
        }
    }
    await_settled(run);
    const char *wrong = left_behind(run);
    must(pthread_mutex_unlock(&run->mutex));
    if (wrong != NULL) {
        return wrong; /* threads may be left, so nothing is freed */
    }
    for (unsigned t = 0; t < run->threads; t++) {
        must(pthread_join(run->testers[t].thread, NULL));
        must(pthread_cond_destroy(&run->testers[t].given));
    }
    must(pthread_cond_destroy(&run->settled));
    must(pthread_mutex_destroy(&run->mutex));
    goll_destroy(&run->lock);
    free(run);
    return NULL;
}
