/*
 * held COUNT SEED [RECORD]: draws random schedules, runs each on the real lock by turns, and has the
 * proved library hold its record: each row's kind, word and value, and in the end each line of the
 * lock's sheet. After each schedule the threads finish freely, and the lock must be as it was made.
 * Ends at the first difference, with exit status 4, and writes that record to the file, for
 * `./bench hold`.
 */
#include <string.h>

#include "goll.h"
#include "record.h"
#include "testing.h"
#include "turns.h"

enum { KINDS = 11, STANDINGS = 5 };

/* ---- a schedule, drawn row by row as the lock goes */

struct shape {
    unsigned nodes;
    unsigned fan;
    unsigned threads;
    unsigned rows;
    unsigned writes;  /* of a hundred locks */
    unsigned direct;  /* of a hundred read-locks */
    unsigned keeps;   /* of a hundred rows a holder goes on holding */
    unsigned sticks;  /* of a hundred rows the same thread goes on */
    unsigned strange; /* of a thousand rows any bytes, mostly refused */
};

static struct shape draw_shape(uint64_t *seed) {
    static const unsigned writes[] = {3, 10, 30, 60, 100};
    static const unsigned direct[] = {0, 20, 100};
    static const unsigned keeps[] = {0, 50, 90};
    static const unsigned sticks[] = {0, 50, 90};
    struct shape shape = {.nodes = 1 + below(seed, GOLL_NODES),
                          .fan = 1 + below(seed, GOLL_FAN),
                          .threads = 1 + below(seed, 16),
                          .rows = below(seed, 301),
                          .writes = writes[below(seed, 5)],
                          .direct = direct[below(seed, 3)],
                          .keeps = keeps[below(seed, 3)],
                          .sticks = sticks[below(seed, 3)],
                          .strange = chance(seed, 20) ? 10 : 0};
    if (chance(seed, 30)) {
        shape.fan = 1 + below(seed, 2); /* deep trees */
    }
    if (chance(seed, 30)) {
        shape.nodes = 1 + below(seed, 4); /* few nodes, at which threads meet */
    }
    if (below(seed, 500) == 0) {
        shape.threads = GOLL_THREADS;
        shape.rows = MOST_ROWS;
        shape.strange = 0;
    }
    return shape;
}

static unsigned draw_order(const struct shape *shape, enum standing standing, uint64_t *seed) {
    switch (standing) {
    case IDLE:
        if (chance(seed, shape->writes)) {
            return WRITE_LOCK;
        }
        return chance(seed, shape->direct) ? READ_LOCK : READ_LOCK + below(seed, shape->nodes);
    case READING:
        return chance(seed, 40) ? UPGRADE : UNLOCK;
    case WRITING:
        return chance(seed, 40) ? DOWNGRADE : UNLOCK;
    default:
        return GO_ON;
    }
}

/* Whether a thread that was drawn is passed over: sleepers and who was held up mostly, holders sometimes. */
static bool passed_over(const struct shape *shape, enum standing standing, bool held_up, uint64_t *seed) {
    if (standing == ASLEEP || held_up) {
        return chance(seed, 90);
    }
    return (standing == READING || standing == WRITING) && chance(seed, shape->keeps);
}

struct row {
    uint8_t thread;
    uint8_t order;
};

/* Any row, suitable or not: also a thread that is not there. The orders from 129 on are the second lock's. */
static struct row draw_strange(const struct shape *shape, uint64_t *seed) {
    static const uint8_t orders[] = {GO_ON, WRITE_LOCK, UNLOCK, UPGRADE, DOWNGRADE, READ_LOCK};
    unsigned order = chance(seed, 60) ? orders[below(seed, sizeof orders)] : below(seed, 129);
    return (struct row){.thread = (uint8_t)below(seed, shape->threads + 1), .order = (uint8_t)order};
}

/* The next row, mostly a suitable one. `held_up` says whether each thread's latest row was. */
static struct row draw_row(const struct shape *shape, struct turns *run, unsigned previous, const bool *held_up,
                           uint64_t *seed) {
    if (below(seed, 1000) < shape->strange) {
        return draw_strange(shape, seed);
    }
    unsigned next = chance(seed, shape->sticks) ? previous : below(seed, shape->threads);
    for (unsigned tries = 0; tries < 20 && passed_over(shape, turns_standing(run, next), held_up[next], seed);
         tries++) {
        next = below(seed, shape->threads);
    }
    return (struct row){.thread = (uint8_t)next, .order = (uint8_t)draw_order(shape, turns_standing(run, next), seed)};
}

/* ---- one schedule on both */

struct sheet {
    char text[LOCK_BENCH_LEAST_SHEET];
    size_t length;
};

struct pair {
    uint8_t record[RECORD_HEAD + RECORD_ROW * MOST_ROWS];
    size_t length;
    unsigned answer;
    unsigned taken;
    struct sheet real;
    struct sheet bench;
};

/* What was run, summed up. */
struct totals {
    uint64_t schedules;
    uint64_t rows;
    uint64_t kinds[KINDS];
    uint64_t refusals[8];
    uint64_t standings[STANDINGS];
};

/* A refused row is the last of the record. */
static void run_real(struct pair *pair, const struct shape *shape, struct turns *run, uint64_t *seed) {
    bool held_up[GOLL_THREADS] = {false};
    unsigned previous = 0;
    *pair = (struct pair){.length = RECORD_HEAD};
    record_head(pair->record, shape->nodes, shape->fan, shape->threads);
    for (unsigned i = 0; i < shape->rows && pair->answer == 0; i++) {
        struct row row = draw_row(shape, run, previous, held_up, seed);
        struct entry entry = {.word = WORD_NONE};
        pair->answer = turns_row(run, row.thread, row.order, &entry);
        record_row(pair->record + pair->length, row.thread, row.order, &entry);
        pair->length += RECORD_ROW;
        if (pair->answer == 0) {
            pair->taken = i + 1;
            held_up[row.thread] = entry.kind == KIND_HELD_UP;
            previous = row.thread;
        }
    }
    pair->real.length = turns_sheet(run, pair->answer, pair->taken, pair->real.text);
}

/* The library's sheet goes on with the lines of the second lock, from its root on. */
static bool same_sheet(struct pair *pair) {
    static const char second[] = "root ";
    struct sheet *bench = &pair->bench;
    size_t length = pair->real.length;
    bench->length = record_sheet(pair->record, pair->length, (uint8_t *)bench->text, sizeof bench->text);
    return bench->length >= length + strlen(second) && memcmp(pair->real.text, bench->text, length) == 0
           && memcmp(bench->text + length, second, strlen(second)) == 0;
}

/* ---- the report */

static void add_up(struct totals *totals, const struct pair *pair, struct turns *run, unsigned threads) {
    totals->schedules += 1;
    totals->rows += pair->taken;
    totals->refusals[pair->answer] += 1;
    for (unsigned i = 0; i < pair->taken; i++) {
        totals->kinds[pair->record[RECORD_HEAD + RECORD_ROW * i + 2]] += 1;
    }
    for (unsigned t = 0; t < threads; t++) {
        totals->standings[turns_standing(run, t)] += 1;
    }
}

static void tell_totals(const struct totals *totals) {
    static const char *const kinds[KINDS] = {"begun",  "read",     "swapped", "failed", "held up", "stored",
                                             "locked", "released", "queued",  "woken",  "denied"};
    static const char *const standings[STANDINGS] = {"idle", "reading", "writing", "calling", "asleep"};
    printf("%" PRIu64 " schedules, %" PRIu64 " rows: records and sheets are the library's\n", totals->schedules,
           totals->rows);
    printf("rows by kind:");
    for (unsigned k = 0; k < KINDS; k++) {
        printf(" %s %" PRIu64 "%s", kinds[k], totals->kinds[k], k + 1 < KINDS ? "," : "\n");
    }
    printf("threads at the end:");
    for (unsigned s = 0; s < STANDINGS; s++) {
        printf(" %s %" PRIu64 "%s", standings[s], totals->standings[s], s + 1 < STANDINGS ? "," : "\n");
    }
    printf("refused: 5 %" PRIu64 ", 6 %" PRIu64 ", 7 %" PRIu64 "\n", totals->refusals[5], totals->refusals[6],
           totals->refusals[7]);
}

/* Draws the next schedule and runs it on both; false, with what is wrong told, where they differ. */
static bool hold_next(uint64_t *seed, struct totals *totals, const char *path) {
    static struct pair pair;
    struct shape shape = draw_shape(seed);
    struct turns *run = turns_start(shape.nodes, shape.fan, shape.threads);
    run_real(&pair, &shape, run, seed);
    if (!same_sheet(&pair)) {
        printf("schedule %" PRIu64 " differs\nthe lock's sheet:\n%.*sthe bench's of its record:\n%.*s",
               totals->schedules, (int)pair.real.length, pair.real.text, (int)pair.bench.length, pair.bench.text);
        if (path != NULL) {
            write_file(path, pair.record, pair.length);
        }
        return false;
    }
    add_up(totals, &pair, run, shape.threads);
    const char *wrong = turns_end(run);
    if (wrong != NULL) {
        printf("schedule %" PRIu64 ", left to run freely after its last row: %s\n", totals->schedules - 1, wrong);
        return false;
    }
    return true;
}

int main(int argc, char **argv) {
    if (argc != 3 && argc != 4) {
        fprintf(stderr, "usage: held COUNT SEED [RECORD]\n");
        return 2;
    }
    uint64_t count = number(argv[1]);
    uint64_t seed = number(argv[2]);
    struct totals totals = {.schedules = 0};
    while (totals.schedules < count) {
        if (!hold_next(&seed, &totals, argc == 4 ? argv[3] : NULL)) {
            return 4;
        }
    }
    tell_totals(&totals);
    return 0;
}
