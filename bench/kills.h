/* What clib_kills.c and lttng_kills.c share: four threads, each on a processor of its own, that make numbered records until the
 * program is killed. The program says how a record is made: `record`.
 *
 * How many records of each thread have returned is in a file, which outlives the program; so is whether a thread has made all that
 * its ring has room for, after which it makes no more. */
#define _GNU_SOURCE
#include <fcntl.h>
#include <pthread.h>
#include <sched.h>
#include <stdatomic.h>
#include <stdint.h>
#include <stdio.h>
#include <stdlib.h>
#include <string.h>
#include <sys/mman.h>
#include <time.h>
#include <unistd.h>

enum { THREADS = 4, MOST = 120000, GAP = 1000 }; /* records of a thread, and the nanoseconds from one to the next at least */

/* Of a thread how many records have returned: apart from what others write. */
typedef struct { _Alignas(128) _Atomic uint64_t returned; } progress;

typedef struct { void *by; uint32_t number; progress *of; } thread;

static inline void record(const thread *it, uint64_t number);

static inline uint64_t nanoseconds(void) {
    struct timespec now;
    clock_gettime(CLOCK_MONOTONIC, &now);
    return (uint64_t)now.tv_sec * 1000000000 + (uint64_t)now.tv_nsec;
}

static void *make_records(void *given) {
    thread *it = given;
    cpu_set_t own;
    CPU_ZERO(&own);
    CPU_SET(it->number % (uint32_t)sysconf(_SC_NPROCESSORS_ONLN), &own);
    if (pthread_setaffinity_np(pthread_self(), sizeof own, &own)) exit(1);
    for (uint64_t number = 0; number < MOST; number++) {
        uint64_t begun = nanoseconds();
        record(it, number);
        atomic_store_explicit(&it->of->returned, number + 1, memory_order_release);
        while (nanoseconds() - begun < GAP) continue;
    }
    for (;;) pause();
}

/* Makes the file of this path, and the records; it never returns. A line says that they are made. */
static void make_all(thread *threads, const char *path) {
    pthread_t running;
    int file = open(path, O_RDWR | O_CREAT | O_TRUNC, 0600);
    if (file < 0 || ftruncate(file, THREADS * sizeof(progress))) exit(1);
    progress *all = mmap(NULL, THREADS * sizeof *all, PROT_READ | PROT_WRITE, MAP_SHARED, file, 0);
    if (all == MAP_FAILED) exit(1);
    for (uint32_t i = 0; i < THREADS; i++) {
        threads[i].number = i;
        threads[i].of = &all[i];
        if (pthread_create(&running, NULL, make_records, &threads[i])) exit(1);
    }
    puts("records");
    fflush(stdout);
    for (;;) pause();
}
