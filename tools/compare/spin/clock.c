/* Linked into a program: at its end it prints its processor time from its start on, in nanoseconds, on standard error. */
#include <stdio.h>
#include <time.h>

static long long passed(void) {
    struct timespec now;
    clock_gettime(CLOCK_PROCESS_CPUTIME_ID, &now);
    return now.tv_sec * 1000000000LL + now.tv_nsec;
}

static long long begun;

__attribute__((constructor)) static void start(void) { begun = passed(); }
__attribute__((destructor)) static void stop(void) { fprintf(stderr, "nanoseconds %lld\n", passed() - begun); }
