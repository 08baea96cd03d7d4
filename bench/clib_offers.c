/* Measures offers of libtracerd: threads with a producer each, in overwrite mode.
 *
 *     clib_offers MODE THREADS BYTES ROUNDS     MODE is offer; trace, which reads the clock; or event, which does so too, of a typed
 *                                               event of 32 bytes
 *
 * Prints the nanoseconds of an offer, and how many there were. */
#include "offers.h"
#include <tracerd_events.h>

#define EVENTS(E) E(job_done, 7, (u64, number), (u32, worker), (u32, depth), (f64, took), (i64, result))
TRACERD_EVENTS(EVENTS)

static enum { OFFER, TRACE, EVENT } mode;

static void must(tracerd_status status) {
    if (status == TRACERD_OK) return;
    fprintf(stderr, "clib_offers: %s\n", tracerd_status_name(status));
    exit(1);
}

static inline void record(const job *it, uint64_t moment, const uint8_t *payload) {
    tracerd_offered offered;
    if (mode == EVENT)
        TRACERD_EVENT(job_done, it->by, moment, (uint32_t)it->rounds, (uint32_t)moment, it->best, (int64_t)it->bytes);
    else
        must(mode == TRACE ? tracerd_trace(it->by, 7, payload, it->bytes)
                           : tracerd_offer(it->by, moment, 7, payload, it->bytes, &offered));
}

int main(int count, char **words) {
    static const uint8_t uuid[16] = {1};
    if (count != 5) return 2;
    int threads = atoi(words[2]);
    job jobs[MOST];
    tracerd_session *session;
    tracerd_producer *producer;
    tracerd_counts counts;
    mode = !strcmp(words[1], "event") ? EVENT : !strcmp(words[1], "trace") ? TRACE : OFFER;
    must(tracerd_new(&session, "b", uuid, 0, TRACERD_LOCAL));
    if (mode == EVENT) must(tracerd_declare(session, tracerd_declarations, NULL));
    must(tracerd_channel(session, "c", 65536, 64, TRACERD_OVERWRITE));
    for (int i = 0; i < threads; i++) {
        must(tracerd_producer_new(session, "c", &producer));
        jobs[i] = (job){producer, atoi(words[4]), (size_t)atoi(words[3]), 0};
    }
    must(tracerd_start(session, 0));
    double ns = slowest(jobs, threads);
    must(tracerd_counts_sum(session, &counts));
    printf("%.2f %llu\n", ns, (unsigned long long)counts.offered);
    tracerd_free(session);
    return 0;
}
