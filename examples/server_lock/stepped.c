/*
 * stepped SCHEDULE RECORD: runs the rows of a schedule file on the real lock, by real
 * threads, and writes the record of the rows that were made. It prints the lines that the
 * bench's sheet has of the first lock: who holds, who sleeps, every word.
 *
 * Exit status: 0 where the sheet is printed, refused or not; 2 for wrong arguments, files
 * that cannot be read or written, and rows of the second lock or of a till, which it has
 * not; 3 where the lock itself fails.
 */
#include <stdbool.h>
#include <stdio.h>
#include <string.h>

#include "goll.h"
#include "record.h"
#include "testing.h"
#include "turns.h"

enum { LONGEST_FILE = 5 + 2 * MOST_ROWS };

struct schedule {
    unsigned nodes;
    unsigned fan;
    unsigned threads;
    unsigned rows;
    const uint8_t *thread; /* of each row */
    const uint8_t *order;
};

static bool in_range(unsigned size, unsigned most) {
    return size >= 1 && size <= most;
}

/* Refusals 1 to 3, or 0 and the schedule. */
static unsigned parse(const uint8_t *file, size_t length, struct schedule *schedule) {
    if (length < 5) {
        return 1;
    }
    unsigned rows = file[3] + 256U * file[4];
    if (!in_range(file[0], GOLL_NODES) || !in_range(file[1], GOLL_FAN) || !in_range(file[2], GOLL_THREADS)
        || rows > MOST_ROWS) {
        return 2;
    }
    if (length != 5 + 2 * (size_t)rows) {
        return 3;
    }
    *schedule = (struct schedule){.nodes = file[0],
                                  .fan = file[1],
                                  .threads = file[2],
                                  .rows = rows,
                                  .thread = file + 5,
                                  .order = file + 5 + rows};
    return 0;
}

/* The first row of the second lock or of a till, or the number of rows. */
static unsigned beyond(const struct schedule *schedule) {
    unsigned i = 0;
    while (i < schedule->rows && (schedule->order[i] < 96 || schedule->order[i] == 128)) {
        i += 1;
    }
    return i;
}

/* Runs the rows and enters each; gives the answer and the number of rows taken. */
static unsigned run_rows(struct turns *run, const struct schedule *schedule, uint8_t *rows, unsigned *taken) {
    for (unsigned i = 0; i < schedule->rows; i++) {
        struct entry entry;
        unsigned refusal = turns_row(run, schedule->thread[i], schedule->order[i], &entry);
        if (refusal != 0) {
            *taken = i;
            return refusal;
        }
        record_row(rows + RECORD_ROW * i, schedule->thread[i], schedule->order[i], &entry);
    }
    *taken = schedule->rows;
    return 0;
}

static int fail(const char *name) {
    perror(name);
    return 2;
}

static int run_schedule(const struct schedule *schedule, const char *path) {
    static uint8_t record[RECORD_HEAD + RECORD_ROW * MOST_ROWS];
    static char sheet[SHEET_SIZE];
    record_head(record, schedule->nodes, schedule->fan, schedule->threads);
    struct turns *run = turns_start(schedule->nodes, schedule->fan, schedule->threads);
    unsigned taken = 0;
    unsigned answer = run_rows(run, schedule, record + RECORD_HEAD, &taken);
    fwrite(sheet, 1, turns_sheet(run, answer, taken, sheet), stdout);
    /* The threads are left where they are, in the middle of their calls; the program's end is theirs. */
    return write_file(path, record, RECORD_HEAD + RECORD_ROW * (size_t)taken) ? 0 : 2;
}

int main(int argc, char **argv) {
    static uint8_t file[LONGEST_FILE + 1];
    if (argc != 3) {
        fprintf(stderr, "usage: stepped SCHEDULE RECORD\n");
        return 2;
    }
    FILE *input = fopen(argv[1], "rb");
    if (input == NULL) {
        return fail(argv[1]);
    }
    size_t length = fread(file, 1, sizeof file, input);
    bool unread = ferror(input) != 0;
    fclose(input);
    if (unread) {
        return fail(argv[1]);
    }

    struct schedule schedule;
    unsigned refusal = parse(file, length, &schedule);
    int status = 0;
    if (refusal != 0) {
        printf("answer %u at 0\n", refusal);
        status = write_file(argv[2], file, 0) ? 0 : 2;
    } else if (beyond(&schedule) < schedule.rows) {
        fprintf(stderr, "%s: row %u has an order of the second lock or of a till, which are not run here\n", argv[1],
                beyond(&schedule));
        return 2;
    } else {
        status = run_schedule(&schedule, argv[2]);
    }
    return fflush(stdout) == 0 && ferror(stdout) == 0 ? status : fail("standard output");
}
