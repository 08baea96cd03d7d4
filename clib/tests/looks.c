/* A thread offers while another takes snapshots: each shows the ring as it was at one step, with every record since its first.
 *
 *     looks SNAPSHOTS DIR     a folder that is there, in which files are written */
#define _POSIX_C_SOURCE 200809L
#include "testing.h"
#include <pthread.h>
#include <stdatomic.h>

/* sub-buffers of 4 KiB have room for 71 records of 24 + 32 bytes beside the packet's 80 */
enum { SIZE = 4096, SUB_BUFFERS = 64, BYTES = 32, EACH_HAS = (SIZE - 80) / (24 + BYTES) };

static tracerd_producer *producer;
static _Atomic uint64_t offered; /* what was answered so far */
static atomic_int is_over, is_wrong;

static void *offer_on(void *nothing) {
    tracerd_offered o;
    for (uint64_t k = 0; !is_over; k++) {
        uint8_t payload[BYTES] = {0};
        memcpy(payload, &k, sizeof k);
        if (tracerd_offer(producer, k, 7, payload, sizeof payload, &o) || o.serial != k) is_wrong = 1;
        offered = k + 1;
    }
    return nothing;
}

/* The last record was offered while the snapshot was taken, or is the last one before. All missing packets are before the first
 * one, which has the records from its number times EACH_HAS on. */
static void shows_one_step(tracerd_session *s, const char *folder) {
    tracerd_audited a;
    uint64_t before = offered;
    answers(OK, tracerd_snapshot(s, 0, folder));
    uint64_t after = offered + 1; /* that one may be in the ring, and not be counted yet */
    answers(OK, tracerd_audit(folder, "s", "c", 0, ONE, &a));
    is(before <= a.last_serial + 1 && a.last_serial + 1 <= after);
    is(a.records == a.last_serial + 1 - a.absent * EACH_HAS);
    is(a.discarded == 0 && a.packets == (a.absent ? SUB_BUFFERS : a.last_packet + 1));
}

int main(int count, char **words) {
    tracerd_session *s;
    pthread_t thread;
    char folder[4200];
    if (count != 3) return 2;
    answers(OK, tracerd_new(&s, "s", ONE, 0, TRACERD_SNAPSHOT));
    answers(OK, tracerd_channel(s, "c", SIZE, SUB_BUFFERS, TRACERD_OVERWRITE));
    answers(OK, tracerd_producer_new(s, "c", &producer));
    answers(OK, tracerd_start(s, 0));
    if (pthread_create(&thread, NULL, offer_on, NULL)) return 1;
    while (offered < 10) {}
    for (int k = 0; k < atoi(words[1]); k++) {
        snprintf(folder, sizeof folder, "%s/%d", words[2], k);
        shows_one_step(s, folder);
        counts_as_one();
    }
    is_over = 1;
    pthread_join(thread, NULL);
    is(!is_wrong);
    tracerd_free(s);
    counts_as_one();
    return closing();
}
