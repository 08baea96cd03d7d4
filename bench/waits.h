/* What clib_waits.c and lttng_waits.c share: a million records a second, and how long each takes by the clock. The program
 * says how a record is made: `record`. */
#define _GNU_SOURCE
#include <pthread.h>
#include <sched.h>
#include <stdint.h>
#include <stdio.h>
#include <stdlib.h>
#include <string.h>
#include <time.h>

enum { BYTES = 32, PACE = 1000 };

static void record(uint64_t moment);

static inline uint64_t now_by(clockid_t clock) {
    struct timespec now;
    clock_gettime(clock, &now);
    return 1000000000 * (uint64_t)now.tv_sec + (uint64_t)now.tv_nsec;
}

static int by_size(const void *one, const void *other) {
    uint64_t a = *(const uint64_t *)one, b = *(const uint64_t *)other;
    return (a > b) - (a < b);
}

/* Prints how many nanoseconds 50, 99, 99.9, 99.99 and 99.999 % of the records took at most, the longest, and how many there
 * were. As root this thread goes before all others, so that what it waits for isn't a processor. */
static void print_records(uint64_t milliseconds) {
    static const double shares[] = {50, 99, 99.9, 99.99, 99.999};
    uint64_t most = milliseconds * 1000000 / PACE, made = 0;
    uint64_t *took = malloc(most * sizeof *took);
    if (!took) exit(1);
    memset(took, 1, most * sizeof *took); /* its pages are there before the first record */
    (void)pthread_setschedparam(pthread_self(), SCHED_FIFO, &(struct sched_param){1});
    uint64_t begin = now_by(CLOCK_MONOTONIC), next = begin;
    while (made < most && next < begin + 1000000 * milliseconds) {
        uint64_t from = now_by(CLOCK_MONOTONIC);
        if (from < next) continue;
        record(from);
        took[made++] = now_by(CLOCK_MONOTONIC) - from;
        next = from + PACE;
    }
    qsort(took, made, sizeof *took, by_size);
    for (size_t i = 0; i < sizeof shares / sizeof *shares; i++)
        printf("%llu ", (unsigned long long)took[(uint64_t)((double)(made - 1) * shares[i] / 100)]);
    printf("%llu %llu\n", (unsigned long long)took[made - 1], (unsigned long long)made);
    free(took);
}
