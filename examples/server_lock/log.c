/*
 * The steps of threads that nobody gives turns, recorded and held to the bench (docs/RECORDING.md, "A log with
 * a mutex"). Each step is made and entered under the mutex of one log, so that the log has the steps in the
 * order in which they took effect, with the value of the word. The log is a record file, of any length: each
 * entry is written to it at once, so that it is there also when the lock hangs or the program is killed. After
 * a round the proved library must hold it. Linked with free.c and the library, and built with RECORDED.
 *
 * LOG names the file, which has the latest round; LOG_ROWS is the least number of entries of a round.
 */
#include <sched.h>
#include <sys/mman.h>
#include <unistd.h>

#include "free.h"
#include "record.h"

/* The log of the round under way. */
static struct {
    pthread_mutex_t mutex;
    FILE *file;
    uint64_t rows;
} record = {.mutex = PTHREAD_MUTEX_INITIALIZER};

static struct {
    uint64_t rows;
    uint64_t failed;
    uint64_t woken;
} totals;

static void enter(const uint8_t *bytes, size_t length) {
    must(fwrite(bytes, 1, length, record.file) == length ? 0 : errno);
}

void round_begins(const struct site *site) {
    if (record.file == NULL) {
        const char *path = getenv("LOG");
        record.file = path != NULL ? fopen(path, "w+b") : tmpfile();
        must(record.file != NULL ? 0 : errno);
        setvbuf(record.file, NULL, _IONBF, 0);
    }
    rewind(record.file);
    must(ftruncate(fileno(record.file), 0) == 0 ? 0 : errno);
    record.rows = 0;
    uint8_t head[RECORD_HEAD];
    record_head(head, site->nodes, site->fan, site->threads);
    enter(head, sizeof head);
}

bool step_turn(struct goll_thread *me) {
    yield_sometimes(me->tester);
    must(pthread_mutex_lock(&record.mutex));
    return true;
}

/* A step held up changes nothing, and is left out: the thread tries again. */
void step_entry(struct goll_thread *me, enum step_kind kind, unsigned word, uint64_t value) {
    if (kind != KIND_HELD_UP) {
        struct entry entry = {.kind = (uint8_t)kind, .word = (uint8_t)word, .value = value};
        uint8_t row[RECORD_ROW];
        record_row(row, me->number, kind == KIND_BEGUN ? me->order : GO_ON, &entry);
        enter(row, sizeof row);
        record.rows += 1;
        totals.failed += kind == KIND_FAILED ? 1 : 0;
        totals.woken += kind == KIND_WOKEN ? 1 : 0;
    }
    must(pthread_mutex_unlock(&record.mutex));
    if (kind == KIND_HELD_UP) {
        sched_yield();
    }
}

void step_sleeps(struct goll_thread *me) {
    (void)me;
}

void step_rises(struct goll_thread *sleeper) {
    (void)sleeper;
}

static uint64_t rows_now(void) {
    must(pthread_mutex_lock(&record.mutex));
    uint64_t rows = record.rows;
    must(pthread_mutex_unlock(&record.mutex));
    return rows;
}

/* Until it has the rows that are wanted, or no more come: then who is left in the lock is seen when the round ends. */
void round_lasts(void) {
    const struct timespec some = {.tv_sec = 0, .tv_nsec = 30000000};
    const char *wanted = getenv("LOG_ROWS");
    uint64_t least = wanted != NULL ? number(wanted) : 0;
    struct timespec end = end_of_patience();
    struct timespec now = {.tv_sec = 0};
    uint64_t rows = 0;
    do {
        nanosleep(&some, NULL);
        clock_gettime(CLOCK_REALTIME, &now);
        uint64_t before = rows;
        rows = rows_now();
        if (rows > before) {
            end = end_of_patience();
        }
    } while (rows < least && now.tv_sec < end.tv_sec);
}

/* The library's sheet of the log says that all rows are held. */
static bool is_held(const struct site *site, size_t length) {
    static char sheet[LOCK_BENCH_LEAST_SHEET];
    char due[64];
    uint8_t *bytes = mmap(NULL, length, PROT_READ, MAP_SHARED, fileno(record.file), 0);
    must(bytes != MAP_FAILED ? 0 : errno);
    size_t written = record_sheet(bytes, length, (uint8_t *)sheet, sizeof sheet);
    must(munmap(bytes, length) == 0 ? 0 : errno);
    int first = snprintf(due, sizeof due, "answer 0 at %" PRIu64 "\nroot 0 0 open\n", record.rows);
    if (written < (size_t)first || memcmp(sheet, due, (size_t)first) != 0) {
        printf("of %" PRIu64 " rows of %u threads the bench says:\n%.*s", record.rows, site->threads, (int)written,
               sheet);
        return fails("the bench is to hold the record");
    }
    return true;
}

bool round_is_good(const struct round *round) {
    totals.rows += record.rows;
    return is_held(&round->site, RECORD_HEAD + RECORD_ROW * (size_t)record.rows);
}

void tell_more(void) {
    printf("%" PRIu64 " rows recorded, %" PRIu64 " of them failed swaps and %" PRIu64
           " wakings: the library holds every record, values too\n",
           totals.rows, totals.failed, totals.woken);
}
