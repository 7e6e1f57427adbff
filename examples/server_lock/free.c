/*
 * free ROUNDS SEED [THREADS]: the lock under real threads that nobody gives turns. The rounds differ in the
 * site: nodes, fan-out, threads, how many write; with THREADS it is one of so many threads. In each round
 * threads lock, unlock, upgrade and downgrade at will for a second, and it is checked
 *
 * - that nobody is in the critical section beside a writer, on two plain counters in it;
 * - that nobody is left asleep, and the lock is as it was made, when all have left;
 * - with COUNTED and counts.c, the bound of demand 3;
 * - with RECORDED and log.c, that the proved library holds the record of the steps.
 *
 * Exit status: 0; 2 for wrong arguments; 4 where a check fails.
 */
#include "free.h"

#include <sched.h>

void yield_sometimes(struct tester *tester) {
    unsigned one_in = tester->round->site.yield_one_in;
    if (one_in != 0 && below(&tester->seed, one_in) == 0) {
        sched_yield();
    }
}

bool fails(const char *what) {
    printf("FAILED: %s\n", what);
    return false;
}

#ifndef RECORDED

void round_begins(const struct site *site) {
    (void)site;
}

void round_lasts(void) {
    nanosleep(&(struct timespec){.tv_sec = 0, .tv_nsec = 999999999}, NULL);
}

#endif

#ifndef STEP_HOOKS

bool round_is_good(const struct round *round) {
    (void)round;
    return true;
}

void tell_more(void) {
}

#endif

/* ---- what the threads do */

static void read_inside(struct tester *tester) {
    const struct guarded *guarded = &tester->round->guarded;
    uint64_t before = guarded->before;
    yield_sometimes(tester);
    if (guarded->after != before || guarded->before != before) {
        tester->intrusions += 1;
    }
}

static void write_inside(struct tester *tester) {
    struct guarded *guarded = &tester->round->guarded;
    uint64_t count = guarded->after;
    guarded->before = count + 1;
    yield_sometimes(tester);
    if (guarded->before != count + 1 || guarded->after != count) {
        tester->intrusions += 1;
    }
    guarded->after = count + 1;
    tester->writes += 1;
}

/* Reads; and now and then wants to write after all. Its node is mostly its own. */
static void lock_to_read(struct tester *tester) {
    const struct site *site = &tester->round->site;
    unsigned node = chance(&tester->seed, 90) ? tester->me->number % site->nodes : below(&tester->seed, site->nodes);
    goll_read_lock(tester->me, chance(&tester->seed, site->direct) ? 0 : node);
    read_inside(tester);
    if (chance(&tester->seed, 20)) {
        tester->calls += 1;
        if (goll_upgrade(tester->me)) {
            tester->granted += 1;
            write_inside(tester);
        } else {
            tester->denied += 1;
            read_inside(tester);
        }
    }
}

static void use_lock(struct tester *tester) {
    struct goll_thread *me = tester->me;
    tester->calls += 2;
    if (chance(&tester->seed, tester->round->site.writes)) {
        goll_write_lock(me);
        write_inside(tester);
    } else {
        lock_to_read(tester);
    }
    if (me->hold == GOLL_WRITING && chance(&tester->seed, 30)) {
        tester->calls += 1;
        goll_downgrade(me);
        read_inside(tester);
    }
    if (me->hold == GOLL_WRITING) {
        goll_write_unlock(me);
    } else {
        goll_read_unlock(me);
    }
}

static void *work(void *argument) {
    struct tester *tester = argument;
    struct round *round = tester->round;
    while (!atomic_load_explicit(&round->stop, memory_order_relaxed)) {
        use_lock(tester);
    }
    must(pthread_mutex_lock(&round->mutex));
    tester->ended = true;
    round->running -= 1;
    if (round->running == 0) {
        must(pthread_cond_signal(&round->all_ended));
    }
    must(pthread_mutex_unlock(&round->mutex));
    return NULL;
}

/* ---- what is checked after a round */

static bool all_ended(struct round *round) {
    struct timespec end = end_of_patience();
    bool waits = true;
    must(pthread_mutex_lock(&round->mutex));
    while (round->running > 0 && waits) {
        waits = pthread_cond_timedwait(&round->all_ended, &round->mutex, &end) == 0;
    }
    for (unsigned t = 0; t < round->site.threads && !waits; t++) {
        if (!round->testers[t].ended) {
            printf("thread %u is left asleep or in a call\n", t);
        }
    }
    must(pthread_mutex_unlock(&round->mutex));
    return waits || fails("nobody is to be left asleep");
}

static bool as_it_was_made(struct round *round) {
    for (unsigned w = 0; w < round->site.nodes; w++) {
        if (atomic_load(&round->lock.words[w].value) != 0) {
            return fails("every word is to be 0 when all have left");
        }
    }
    if (pthread_mutex_trylock(&round->lock.mutex) != 0) {
        return fails("the mutex is to be free when all have left");
    }
    must(pthread_mutex_unlock(&round->lock.mutex));
    if (round->lock.queue.readers != 0 || round->lock.queue.waiting != 0) {
        return fails("the queue is to be empty when all have left");
    }
    return true;
}

static bool excluded(const struct round *round) {
    uint64_t writes = 0;
    uint64_t intrusions = 0;
    for (unsigned t = 0; t < round->site.threads; t++) {
        writes += round->testers[t].writes;
        intrusions += round->testers[t].intrusions;
    }
    if (intrusions != 0 || round->guarded.before != writes || round->guarded.after != writes) {
        printf("%" PRIu64 " writes, counted as %" PRIu64 " and %" PRIu64 "; others seen inside %" PRIu64 " times\n",
               writes, round->guarded.before, round->guarded.after, intrusions);
        return fails("nobody is to be inside beside a writer");
    }
    return true;
}

/* ---- the rounds */

static struct site draw_site(uint64_t *seed) {
    static const unsigned threads[] = {2, 3, 4, 8, 16, 64};
    static const unsigned writes[] = {0, 1, 10, 50, 100};
    static const unsigned direct[] = {0, 10, 100};
    static const unsigned yields[] = {0, 1000, 50, 5};
    return (struct site){.nodes = 1 + below(seed, chance(seed, 50) ? 4 : GOLL_NODES),
                         .fan = 1 + below(seed, chance(seed, 50) ? 2 : GOLL_FAN),
                         .threads = threads[below(seed, 6)],
                         .writes = writes[below(seed, 5)],
                         .direct = direct[below(seed, 3)],
                         .yield_one_in = yields[below(seed, 4)]};
}

/* A site of so many threads, in which there is something of everything. */
static struct site site_of(unsigned threads) {
    unsigned nodes = threads / 2 + 1;
    return (struct site){.nodes = nodes < GOLL_NODES ? nodes : GOLL_NODES,
                         .fan = 3,
                         .threads = threads,
                         .writes = 10,
                         .direct = 10,
                         .yield_one_in = 5};
}

static struct round *start_round(struct site site, uint64_t *seed) {
    struct round *round = aligned_alloc(GOLL_LINE, sizeof *round);
    if (round == NULL) {
        perror("free");
        exit(2);
    }
    memset(round, 0, sizeof *round);
    round->site = site;
    atomic_init(&round->stop, false);
    goll_init(&round->lock, site.nodes, site.fan);
    must(pthread_mutex_init(&round->mutex, NULL));
    must(pthread_cond_init(&round->all_ended, NULL));
    round->running = site.threads;
    round_begins(&site);
    for (unsigned t = 0; t < site.threads; t++) {
        struct tester *tester = &round->testers[t];
        tester->round = round;
        tester->me = &round->lock.threads[t];
        tester->seed = draw(seed);
#ifdef STEP_HOOKS
        tester->me->tester = tester;
#endif
    }
    for (unsigned t = 0; t < site.threads; t++) {
        must(pthread_create(&round->testers[t].thread, NULL, work, &round->testers[t]));
    }
    return round;
}

static void end_round(struct round *round) {
    goll_destroy(&round->lock);
    must(pthread_cond_destroy(&round->all_ended));
    must(pthread_mutex_destroy(&round->mutex));
    free(round);
}

/* What all rounds did. */
struct totals {
    uint64_t rounds;
    uint64_t calls;
    uint64_t writes;
    uint64_t granted;
    uint64_t denied;
};

static void add_up(struct totals *totals, const struct round *round) {
    totals->rounds += 1;
    for (unsigned t = 0; t < round->site.threads; t++) {
        totals->calls += round->testers[t].calls;
        totals->writes += round->testers[t].writes;
        totals->granted += round->testers[t].granted;
        totals->denied += round->testers[t].denied;
    }
}

static bool play(struct site site, uint64_t *seed, struct totals *totals) {
    struct round *round = start_round(site, seed);
    round_lasts();
    atomic_store(&round->stop, true);
    if (!all_ended(round)) {
        return false; /* those that are left use the round still */
    }
    for (unsigned t = 0; t < site.threads; t++) {
        must(pthread_join(round->testers[t].thread, NULL));
    }
    add_up(totals, round);
    bool good = excluded(round);
    good = as_it_was_made(round) && good;
    good = round_is_good(round) && good;
    end_round(round);
    return good;
}

int main(int argc, char **argv) {
    uint64_t threads = argc == 4 ? number(argv[3]) : 0;
    if ((argc != 3 && argc != 4) || threads > GOLL_THREADS) {
        fprintf(stderr, "usage: free ROUNDS SEED [THREADS]\n");
        return 2;
    }
    uint64_t rounds = number(argv[1]);
    uint64_t seed = number(argv[2]);
    struct totals totals = {.rounds = 0};
    while (totals.rounds < rounds) {
        struct site site = threads == 0 ? draw_site(&seed) : site_of((unsigned)threads);
        if (!play(site, &seed, &totals)) {
            printf("nodes %u, fan %u, threads %u, %u%% write, %u%% direct, yields one in %u\n", site.nodes, site.fan,
                   site.threads, site.writes, site.direct, site.yield_one_in);
            return 4;
        }
    }
    printf("%" PRIu64 " rounds, %" PRIu64 " calls, %" PRIu64 " writes, upgrades %" PRIu64 " granted and %" PRIu64
           " denied: nobody beside a writer, nobody left asleep\n",
           totals.rounds, totals.calls, totals.writes, totals.granted, totals.denied);
    tell_more();
    return 0;
}
