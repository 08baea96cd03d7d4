/* What clib_offers.c and lttng_offers.c share: threads that make rounds of 20,000 records, each beginning with its number.
 * The program says how a record is made: `record`, of a thread that it made a `job` for. */
#define _POSIX_C_SOURCE 200809L
#include <pthread.h>
#include <stdint.h>
#include <stdio.h>
#include <stdlib.h>
#include <string.h>
#include <time.h>

enum { MOST = 64, RECORDS = 20000, ROOM = 256 };

typedef struct { void *by; int rounds; size_t bytes; double best; } job;

static inline void record(const job *it, uint64_t moment, const uint8_t *payload);

/* The nanoseconds that this thread was on a processor. */
static double spent(void) {
    struct timespec now;
    clock_gettime(CLOCK_THREAD_CPUTIME_ID, &now);
    return 1e9 * (double)now.tv_sec + (double)now.tv_nsec;
}

static void *make_rounds(void *given) {
    job *it = given;
    uint8_t payload[ROOM];
    uint64_t moment = 0;
    memset(payload, 'a', sizeof payload);
    for (int round = 0; round < it->rounds; round++) {
        double begin = spent();
        for (int k = 0; k < RECORDS; k++, moment++) {
            memcpy(payload, &moment, sizeof moment);
            record(it, moment, payload);
        }
        double ns = (spent() - begin) / RECORDS;
        if (!round || ns < it->best) it->best = ns;
    }
    return NULL;
}

/* Of the slowest of these threads the best round: nanoseconds a record. */
static double slowest(job *jobs, int threads) {
    pthread_t running[MOST];
    double most = 0;
    for (int i = 0; i < threads; i++)
        if (pthread_create(&running[i], NULL, make_rounds, &jobs[i])) exit(1);
    for (int i = 0; i < threads; i++) {
        pthread_join(running[i], NULL);
        if (jobs[i].best > most) most = jobs[i].best;
    }
    return most;
}
