/* What the programs that test the lock share. */
#ifndef TESTING_H
#define TESTING_H

#include <inttypes.h>
#include <stdbool.h>
#include <stdint.h>
#include <stdio.h>
#include <stdlib.h>
#include <time.h>

/* The most rows of a schedule. */
enum { MOST_ROWS = 4096 };

/* Writes a file whole; what is wrong is said. */
static inline bool write_file(const char *path, const uint8_t *bytes, size_t length) {
    FILE *output = fopen(path, "wb");
    bool written = output != NULL && fwrite(bytes, 1, length, output) == length;
    if (output == NULL || fclose(output) != 0 || !written) {
        perror(path);
        return false;
    }
    return true;
}

/* A number from the command line; ends the program with status 2 where it is none. */
static inline uint64_t number(const char *text) {
    char *end = NULL;
    uint64_t value = strtoull(text, &end, 10);
    if (*text < '0' || *text > '9' || *end != '\0') {
        fprintf(stderr, "'%s' is no number\n", text);
        exit(2);
    }
    return value;
}

/* splitmix64: the next number of a seed. */
static inline uint64_t draw(uint64_t *seed) {
    uint64_t z = (*seed += UINT64_C(0x9e3779b97f4a7c15));
    z = (z ^ (z >> 30)) * UINT64_C(0xbf58476d1ce4e5b9);
    z = (z ^ (z >> 27)) * UINT64_C(0x94d049bb133111eb);
    return z ^ (z >> 31);
}

static inline unsigned below(uint64_t *seed, unsigned limit) {
    return (unsigned)(draw(seed) % limit);
}

static inline bool chance(uint64_t *seed, unsigned percent) {
    return below(seed, 100) < percent;
}

/* Threads that take longer than this to come to rest never do. */
#ifndef PATIENCE_SECONDS
#define PATIENCE_SECONDS 60
#endif

static inline struct timespec end_of_patience(void) {
    struct timespec end;
    clock_gettime(CLOCK_REALTIME, &end);
    end.tv_sec += PATIENCE_SECONDS;
    return end;
}

#endif
