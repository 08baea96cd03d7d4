/* The same records by a tracepoint of liblttng-ust.
 *
 *     lttng_waits MILLISECONDS */
#include "waits.h"
#define LTTNG_UST_TRACEPOINT_CREATE_PROBES
#define LTTNG_UST_TRACEPOINT_DEFINE
#include "lttng_offers.h"

static void record(uint64_t moment) {
    uint8_t payload[BYTES] = {0};
    memcpy(payload, &moment, sizeof moment);
    lttng_ust_tracepoint(tracerd_bench, record, 7, payload, BYTES);
}

int main(int words, char **word) {
    if (words != 2) return 2;
    if (!lttng_ust_tracepoint_enabled(tracerd_bench, record)) {
        fprintf(stderr, "lttng_waits: the tracepoint is off\n");
        return 1;
    }
    print_records(strtoull(word[1], NULL, 10));
    return 0;
}
