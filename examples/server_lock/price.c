/*
 * price [THREADS]: what a failed swap costs on this machine, in swaps that nobody disturbs. The swaps are the
 * lock's own, of the root's word.
 *
 * - An undisturbed swap: one thread alone swaps the word, and each swap is done.
 * - A failed swap: the others change the word without end, and the first tries to swap from a value that
 *   it never has. So each of its swaps fails, on a word that is in another core's cache.
 *
 * Both are timed in batches. A batch in which the others hardly ran beside the first, since the system gave
 * the cores to somebody else, tells nothing: another is made in its place, for ten seconds at most.
 *
 * Exit status: 0; 2 for wrong arguments; 4 where no batch was disturbed, as with one core alone.
 */
#include "steps.h"
#include "testing.h"

#include <unistd.h>

enum { BATCHES = 400, SWAPS = 5000, LEAST_CHANGES = SWAPS / 20, LEAST_BATCHES = BATCHES / 10, MOST_SECONDS = 10 };

/* No word of the lock has this value. */
static const uint64_t NEVER = UINT64_MAX;

struct disturber {
    _Alignas(GOLL_LINE) struct goll_thread *me;
    pthread_t thread;
    _Atomic uint64_t changes;
};

static struct goll lock;
static struct disturber disturbers[GOLL_THREADS];
static atomic_bool stop;

static double seconds(clockid_t of) {
    struct timespec now;
    clock_gettime(of, &now);
    return (double)now.tv_sec + 1e-9 * (double)now.tv_nsec;
}

static void *disturb(void *given) {
    struct disturber *disturber = given;
    uint64_t seen = STEP_READ(disturber->me, 0);
    uint64_t changes = 0;
    while (!atomic_load_explicit(&stop, memory_order_relaxed)) {
        if (STEP_SWAP(disturber->me, 0, &seen, (seen + 1) % NEVER)) {
            seen = (seen + 1) % NEVER;
            atomic_store_explicit(&disturber->changes, ++changes, memory_order_relaxed);
        }
    }
    return NULL;
}

static uint64_t changes_of(unsigned count) {
    uint64_t changes = 0;
    for (unsigned i = 0; i < count; i++) {
        changes += atomic_load_explicit(&disturbers[i].changes, memory_order_relaxed);
    }
    return changes;
}

/* Nanoseconds of a swap in a batch, or 0 where the thread was interrupted in it; where it is disturbed each
 * swap fails. */
static double batch(struct goll_thread *me, bool disturbed) {
    uint64_t seen = STEP_READ(me, 0);
    unsigned done = 0;
    double begun = seconds(CLOCK_MONOTONIC);
    double used = -seconds(CLOCK_THREAD_CPUTIME_ID);
    for (unsigned i = 0; i < SWAPS; i++) {
        uint64_t from = disturbed ? NEVER : seen;
        if (STEP_SWAP(me, 0, &from, seen + 1)) {
            seen += 1;
            done += 1;
        }
    }
    used += seconds(CLOCK_THREAD_CPUTIME_ID);
    double took = seconds(CLOCK_MONOTONIC) - begun;
    if (done != (disturbed ? 0 : SWAPS)) {
        fprintf(stderr, "price: %u of %u swaps were done\n", done, (unsigned)SWAPS);
        exit(4);
    }
    return took > 1.2 * used ? 0 : 1e9 * used / SWAPS;
}

static int by_size(const void *one, const void *other) {
    double left = *(const double *)one;
    double right = *(const double *)other;
    return (left > right) - (left < right);
}

/* The median of batches, printed with the quartiles. */
static double told(const char *what, double *batches, unsigned count) {
    qsort(batches, count, sizeof *batches, by_size);
    double median = batches[count / 2];
    printf("%-17s %7.1f ns (half of %u batches: %.1f to %.1f)\n", what, median, count, batches[count / 4],
           batches[3 * count / 4]);
    return median;
}

int main(int count, char **arguments) {
    long cores = sysconf(_SC_NPROCESSORS_ONLN);
    uint64_t threads = count > 1 ? number(arguments[1]) : (uint64_t)(cores < GOLL_THREADS ? cores : GOLL_THREADS);
    if (count > 2 || threads < 2 || threads > GOLL_THREADS) {
        fprintf(stderr, "usage: price [THREADS], 2 to 64 of them; without, one for each core\n");
        return 2;
    }
    unsigned others = (unsigned)threads - 1;
    double alone[BATCHES];
    double failed[BATCHES];
    unsigned undisturbed = 0;
    unsigned disturbed = 0;
    goll_init(&lock, 1, 1);
    double end = seconds(CLOCK_MONOTONIC) + MOST_SECONDS;
    while (undisturbed < BATCHES && seconds(CLOCK_MONOTONIC) < end) {
        alone[undisturbed] = batch(&lock.threads[0], false);
        undisturbed += alone[undisturbed] > 0;
    }
    for (unsigned i = 0; i < others; i++) {
        disturbers[i].me = &lock.threads[i + 1];
        must(pthread_create(&disturbers[i].thread, NULL, disturb, &disturbers[i]));
    }
    end = seconds(CLOCK_MONOTONIC) + MOST_SECONDS;
    while (disturbed < BATCHES && seconds(CLOCK_MONOTONIC) < end) {
        uint64_t before = changes_of(others);
        failed[disturbed] = batch(&lock.threads[0], true);
        disturbed += failed[disturbed] > 0 && changes_of(others) - before >= LEAST_CHANGES;
    }
    atomic_store(&stop, true);
    for (unsigned i = 0; i < others; i++) {
        must(pthread_join(disturbers[i].thread, NULL));
    }
    if (undisturbed < LEAST_BATCHES || disturbed < LEAST_BATCHES) {
        fprintf(stderr, "price: too few threads ran at once: %u batches were disturbed\n", disturbed);
        return 4;
    }
    double swap = told("undisturbed swap", alone, undisturbed);
    double price = told("failed swap", failed, disturbed) / swap;
    printf("price %.1f with %u threads\n", price, (unsigned)threads);
    return 0;
}
