/* Producers, drainers, an operator and readers at once; then what producers were answered is what the session counts.
 *
 *     threads THREADS RECORDS [DIR]     with DIR each archive is written below it, else it is released */
#define _POSIX_C_SOURCE 200809L
#include "testing.h"
#include <pthread.h>
#include <sched.h>
#include <stdatomic.h>
#include <time.h>

enum { MOST = 64, OPERATORS = 4 };

typedef struct {
    tracerd_producer *producer;
    uint64_t records, stored, gone, discarded;
} job;

static tracerd_session *session;
static job jobs[MOST];
static atomic_int is_over;
static const char *dir;
static int threads;

static void must(tracerd_status status, const char *what) {
    if (status == TRACERD_OK) return;
    printf("%s: %s\n", what, tracerd_status_name(status));
    exit(1);
}

static void *offer_all(void *given) {
    job *it = given;
    tracerd_offered o;
    for (uint64_t k = 0; k < it->records; k++) {
        uint64_t payload[3] = {k, k * k, ~k};
        tracerd_status status;
        while ((status = tracerd_offer(it->producer, k, 7, payload, sizeof payload, &o)) == TRACERD_INACTIVE) sched_yield();
        must(status, "offer");
        if (o.serial != k) must(TRACERD_MISSING, "serial");
        it->discarded += o.outcome == TRACERD_DISCARDED;
        it->stored += o.outcome != TRACERD_DISCARDED;
        it->gone += o.gone_count;
    }
    return NULL;
}

static void *drain(void *given) {
    uint64_t packets;
    (void)given;
    while (!is_over) must(tracerd_drain(session, &packets), "drain");
    return NULL;
}

static void *operate(void *given) {
    uint64_t archive, round = 0;
    (void)given;
    while (!is_over) {
        must(tracerd_rotate(session, 0, &archive), "rotate");
        must(dir ? tracerd_write(session, archive, dir) : tracerd_release(session, archive), "write or release");
        if (round++ % 8 == 7) must(tracerd_stop(session), "stop"), must(tracerd_start(session, 0), "start");
        nanosleep(&(struct timespec){0, 2000000}, NULL);
    }
    return NULL;
}

static void *read_counts(void *given) {
    tracerd_counts c;
    tracerd_fate f;
    tracerd_cause cause;
    tracerd_about about;
    tracerd_archive it;
    uint64_t archive, stream;
    (void)given;
    for (uint64_t k = 0; !is_over; k++) {
        must(tracerd_counts_of(jobs[k % (uint64_t)threads].producer, &c), "counts_of");
        if (c.offered != c.discarded + c.overwritten + c.cleared + c.in_ring + c.in_chunks) must(TRACERD_MISSING, "counts");
        must(tracerd_fate_of(jobs[k % (uint64_t)threads].producer, k % 1000, &f), "fate");
        TRACERD_TRACE(jobs[threads].producer, 9, &k, sizeof k);
        if (k % 16) continue;
        must(tracerd_about_of(session, &about), "about_of");
        if (about.archives) must(tracerd_archive_of(session, about.archives - 1, &it), "archive_of");
        must(tracerd_tick(session, 0, &cause, &archive), "tick");
        must(tracerd_settle(session, &c, &stream) == TRACERD_DRAINING ? TRACERD_OK : TRACERD_MISSING, "settle");
    }
    return NULL;
}

static void totals_agree(tracerd_counts traced) {
    tracerd_counts c;
    uint64_t stored = 0, gone = 0, discarded = 0, offered = 0, stream;
    for (int i = 0; i < threads; i++) {
        stored += jobs[i].stored, gone += jobs[i].gone, discarded += jobs[i].discarded, offered += jobs[i].records;
        answers(OK, tracerd_producer_done(jobs[i].producer));
    }
    answers(MISSING, tracerd_settle(session, &c, &stream));
    is(stream == (uint64_t)threads);
    answers(OK, tracerd_producer_done(jobs[threads].producer));
    answers(OK, tracerd_settle(session, &c, &stream));
    is(c.offered == offered + traced.offered && c.discarded == discarded + traced.discarded && c.overwritten == gone);
    is(!c.in_ring && stored + traced.offered - traced.discarded == c.overwritten + c.in_chunks);
    fprintf(stderr, "threads: offered %" PRIu64 " discarded %" PRIu64, c.offered, c.discarded);
    fprintf(stderr, " overwritten %" PRIu64 " in chunks %" PRIu64 "\n", c.overwritten, c.in_chunks);
}

int main(int count, char **words) {
    if (count < 3) return 2;
    pthread_t offering[MOST], operating[OPERATORS];
    uint64_t archive;
    tracerd_counts traced;
    threads = atoi(words[1]);
    dir = count > 3 ? words[3] : NULL;
    must(tracerd_new(&session, "many", ONE, 60, TRACERD_LOCAL), "new");
    must(tracerd_channel(session, "lossy", 4096, 4, TRACERD_DISCARD), "channel");
    must(tracerd_channel(session, "over", 4096, 4, TRACERD_OVERWRITE), "channel");
    must(tracerd_channel(session, "large", 1048576, 64, TRACERD_DISCARD), "channel");
    for (int i = 0; i <= threads; i++) {
        jobs[i].records = (uint64_t)atol(words[2]);
        const char *channel = i == threads ? "large" : i & 1 ? "over" : "lossy";
        must(tracerd_producer_new(session, channel, &jobs[i].producer), "producer_new");
    }
    must(tracerd_start(session, 0), "start");
    must(tracerd_drainer_start(session, 1000000), "drainer_start");
    void *(*const calls[OPERATORS])(void *) = {drain, drain, operate, read_counts};
    for (int i = 0; i < OPERATORS; i++) is(!pthread_create(&operating[i], NULL, calls[i], NULL));
    for (int i = 0; i < threads; i++) is(!pthread_create(&offering[i], NULL, offer_all, &jobs[i]));
    for (int i = 0; i < threads; i++) pthread_join(offering[i], NULL);
    is_over = 1;
    for (int i = 0; i < OPERATORS; i++) pthread_join(operating[i], NULL);
    answers(OK, tracerd_drainer_stop(session));
    answers(OK, tracerd_counts_of(jobs[threads].producer, &traced));
    answers(OK, tracerd_stop(session));
    answers(OK, tracerd_rotate(session, 0, &archive));
    if (dir) answers(OK, tracerd_write(session, archive, dir));
    totals_agree(traced);
    tracerd_free(session);
    counts_as_one();
    return closing();
}
