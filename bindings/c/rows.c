/*
 * Prints what each row of a schedule file did: its number, its thread, its order, and
 * the kind and the word of its entry. The last line is the sheet's first.
 *
 * From the repository's root:
 *
 *   make -C bindings/c
 *   target/c/rows examples/worked-example.schedule
 */
#include <stdio.h>

#include "lock_bench.h"

int main(int argc, char **argv) {
    static uint8_t file[LOCK_BENCH_LONGEST_FILE + 1];
    static uint8_t journal[LOCK_BENCH_LONGEST_JOURNAL];
    static uint8_t sheet[LOCK_BENCH_LEAST_SHEET];

    if (argc != 2) {
        fprintf(stderr, "usage: rows FILE\n");
        return 2;
    }
    FILE *input = fopen(argv[1], "rb");
    if (input == NULL) {
        perror(argv[1]);
        return 2;
    }
    size_t file_length = fread(file, 1, sizeof file, input);
    if (ferror(input)) {
        perror(argv[1]);
        return 2;
    }
    fclose(input);

    size_t length = bench_sheet(file, file_length, journal, sizeof journal, sheet, sizeof sheet);
    struct lock_bench_answer answer = {0, 0};
    if (!lock_bench_read_answer(sheet, length, &answer)) {
        fprintf(stderr, "rows: the library gave no sheet\n");
        return 1;
    }
    struct lock_bench_rows rows = lock_bench_rows_of(file, file_length);
    struct lock_bench_entries entries = lock_bench_entries_of(journal, sizeof journal, rows.left, answer.taken);
    struct lock_bench_row row;
    struct lock_bench_entry entry;
    for (size_t i = 0; lock_bench_next_row(&rows, &row) && lock_bench_next_entry(&entries, &entry); i++) {
        printf("%zu %d %d %d %d\n", i, row.thread, row.order, entry.kind, entry.word);
    }
    printf("answer %u at %u\n", (unsigned) answer.refusal, (unsigned) answer.taken);
    if (fflush(stdout) != 0) {
        perror("standard output");
        return 2;
    }
    return 0;
}
