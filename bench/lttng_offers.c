/* The same by a tracepoint of liblttng-ust, which reads the clock itself.
 *
 *     lttng_offers THREADS BYTES ROUNDS */
#include "offers.h"
#define LTTNG_UST_TRACEPOINT_CREATE_PROBES
#define LTTNG_UST_TRACEPOINT_DEFINE
#include "lttng_offers.h"

static inline void record(const job *it, uint64_t moment, const uint8_t *payload) {
    (void)moment;
    lttng_ust_tracepoint(tracerd_bench, record, 7, payload, it->bytes);
}

int main(int count, char **words) {
    if (count != 4) return 2;
    int threads = atoi(words[1]);
    job jobs[MOST];
    if (!lttng_ust_tracepoint_enabled(tracerd_bench, record)) {
        fprintf(stderr, "lttng_offers: the tracepoint is off\n");
        return 1;
    }
    for (int i = 0; i < threads; i++) jobs[i] = (job){NULL, atoi(words[3]), (size_t)atoi(words[2]), 0};
    printf("%.2f\n", slowest(jobs, threads));
    return 0;
}
