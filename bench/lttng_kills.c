/* The same by a tracepoint of liblttng-ust.
 *
 *     lttng_kills RETURNED     the file of kills.h */
#include "kills.h"
#define LTTNG_UST_TRACEPOINT_CREATE_PROBES
#define LTTNG_UST_TRACEPOINT_DEFINE
#include "lttng_kills.h"

static inline void record(const thread *it, uint64_t number) { lttng_ust_tracepoint(tracerd_kills, record, it->number, number); }

int main(int count, char **words) {
    static thread threads[THREADS];
    if (count != 2) return 2;
    if (!lttng_ust_tracepoint_enabled(tracerd_kills, record)) {
        fprintf(stderr, "lttng_kills: the tracepoint is off\n");
        return 1;
    }
    make_all(threads, words[1]);
}
