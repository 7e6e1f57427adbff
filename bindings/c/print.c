/*
 * Prints the sheet of a schedule file: print FILE, print --till TILL FILE with a
 * till beside it, print --plain FILE for the plain engine's, or print --dispatch
 * FILE for the dispatcher's; or that of a ticket file: print --ticket FILE.
 *
 * From the repository's root:
 *
 *   make -C bindings/c
 *   target/c/print examples/worked-example.schedule
 *   target/c/print --till examples/one-song-charged-once.till examples/one-song-charged-once.bookings
 */
#include <stdio.h>
#include <string.h>

#include "lock_bench.h"

/* Reads a file into a buffer; 0 and a message where it cannot be read. */
static int read_file(const char *path, uint8_t *buffer, size_t size, size_t *length) {
    FILE *input = fopen(path, "rb");
    if (input == NULL) {
        perror(path);
        return 0;
    }
    *length = fread(buffer, 1, size, input);
    int failed = ferror(input);
    if (failed) {
        perror(path);
    }
    fclose(input);
    return !failed;
}

int main(int argc, char **argv) {
    /* A byte more than the longest file and till, so that a longer one is refused. */
    static uint8_t file[LOCK_BENCH_LONGEST_FILE + 1];
    static uint8_t till[LOCK_BENCH_LONGEST_TILL + 1];
    static uint8_t journal[LOCK_BENCH_LONGEST_JOURNAL];
    static uint8_t schedule[LOCK_BENCH_LEAST_SCHEDULE];
    static uint8_t sheet[LOCK_BENCH_LEAST_SHEET];

    int plain = argc == 3 && strcmp(argv[1], "--plain") == 0;
    int dispatch = argc == 3 && strcmp(argv[1], "--dispatch") == 0;
    int ticket = argc == 3 && strcmp(argv[1], "--ticket") == 0;
    int credit = argc == 4 && strcmp(argv[1], "--till") == 0;
    if (argc != 2 && !plain && !dispatch && !ticket && !credit) {
        fprintf(stderr, "usage: print [--till TILL | --plain | --dispatch | --ticket] FILE\n");
        return 2;
    }
    size_t file_length = 0;
    size_t till_length = 0;
    if (!read_file(argv[argc - 1], file, sizeof file, &file_length)
        || (credit && !read_file(argv[2], till, sizeof till, &till_length))) {
        return 2;
    }

    size_t length =
        plain      ? plain_sheet(file, file_length, sheet, sizeof sheet)
        : dispatch ? dispatch_sheet(file, file_length, schedule, sizeof schedule, sheet, sizeof sheet)
        : ticket   ? ticket_sheet(file, file_length, sheet, sizeof sheet)
        : credit   ? credit_sheet(file, file_length, till, till_length, journal, sizeof journal, sheet, sizeof sheet)
                   : bench_sheet(file, file_length, journal, sizeof journal, sheet, sizeof sheet);
    if (fwrite(sheet, 1, length, stdout) != length || fflush(stdout) != 0) {
        perror("standard output");
        return 2;
    }
    return 0;
}
