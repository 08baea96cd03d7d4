/* Each two calls at once, with nothing that orders them: ThreadSanitizer sees a lock that one of them forgets.
 *
 *     locks DIR     a folder that is there, in which files are written */
#include "turns.h"
#include <pthread.h>
#include <stdatomic.h>

enum { LEAST = 2, MOST = 2000, BURST = 16, MOST_PRODUCERS = 1000, ENDED = 300, EACH_TURN = 10 };

/* One that is never started, to which producers are added; one whose producers are given back; one that records; one of
 * snapshots; and one with a keeper. */
static tracerd_session *planned, *ended, *local, *shown, *kept;
/* Each thread offers by its own producers, and asks of the other's. */
static tracerd_producer *waiting[2], *recording[2], *looked_at[2], *of_kept[2];
static _Thread_local int me;
static tracerd_producer *of_ended[ENDED];
static atomic_int added, given_back;
static const char *dir;

/* The test needn't wait for a disk. */
int __wrap_fsync(int file) { return (void)file, 0; }
int __wrap_fdatasync(int file) { return (void)file, 0; }

/* How often each thread made its call. (Nothing here orders what the threads do.) */
static atomic_int made[2];

static int times(int whose) { return atomic_load_explicit(&made[whose], memory_order_relaxed); }

/* ---- What is planned ---- */

static void add_channel(void) { MAY(NAME_TAKEN, NAME_TAKEN, tracerd_channel(planned, "c", 256, 2, TRACERD_DISCARD)); }

static void add_producer(void) {
    tracerd_producer *p;
    if (times(me) < EACH_TURN && added++ < MOST_PRODUCERS) MUST(tracerd_producer_new(planned, "c", &p));
}

static void give_back(void) {
    if (times(me) >= EACH_TURN) return;
    int next = given_back++;
    if (next < ENDED) MUST(tracerd_producer_done(of_ended[next]));
}

/* It goes through all that were given back, and the first that was not. */
static void settle(void) {
    tracerd_counts c;
    uint64_t n;
    MAY(OK, MISSING, tracerd_settle(ended, &c, &n));
}

static void count_planned(void) {
    tracerd_counts c;
    MUST(tracerd_counts_of(waiting[!me], &c));
    MUST(tracerd_counts_sum(planned, &c));
}

static void offer_too_early(void) {
    tracerd_offered o;
    MAY(INACTIVE, INACTIVE, tracerd_offer(waiting[me], 0, 1, "a", 1, &o));
}

static void ask_of_planned(void) {
    tracerd_about about;
    MUST(tracerd_about_of(planned, &about));
}

static void declare(void) {
    if (times(me) >= EACH_TURN) return;
    MUST(tracerd_declare(planned, "event 7 field:u8", NULL));
    MUST(tracerd_record_refused(planned));
}

static void lend(void) {
    tracerd_pool *p;
    if (times(me) >= EACH_TURN || added++ >= MOST_PRODUCERS) return;
    MUST(tracerd_pool_new(&p, planned, "c", 1));
    MAY(INACTIVE, INACTIVE, tracerd_trace(tracerd_here(p), 1, "a", 1));
    MUST(tracerd_pool_free(p));
}

static void schedule_planned(void) { MUST(tracerd_schedule(planned, TRACERD_NEVER, 1000)); }

/* ---- What is recorded ---- */

static void offer(void) {
    tracerd_offered o;
    for (int k = 0; k < 8; k++) MAY(OK, INACTIVE, tracerd_offer(recording[me], 0, 1, "a record of some bytes", 22, &o));
    MAY(TOO_BIG, INACTIVE, tracerd_offer(recording[me], 0, 1, "", SIZE_MAX, &o));
}

static void trace(void) { TRACERD_TRACE(recording[me], 1, "a record of some bytes", 22); }

static void start(void) { MAY(OK, ALREADY_ACTIVE, tracerd_start(local, 0)); }

static void stop(void) { MAY(OK, NOT_ACTIVE, tracerd_stop(local)); }

static void drain(void) {
    uint64_t n;
    MUST(tracerd_drain(local, &n));
}

static void run_drainer(void) {
    MAY(OK, DRAINING, tracerd_drainer_start(local, 1000000));
    MAY(OK, NOT_DRAINING, tracerd_drainer_stop(local));
}

static void rotate(void) {
    uint64_t n;
    MAY(OK, ALREADY_ROTATED, tracerd_rotate(local, 0, &n));
}

static void rotate_on(void) {
    uint64_t n;
    MAY(NOT_PENDING, NOT_PENDING, tracerd_rotate_on(local, &n));
}

static void tick(void) {
    tracerd_cause cause;
    uint64_t n;
    MUST(tracerd_schedule(local, TRACERD_NEVER, 1000000));
    MUST(tracerd_tick(local, 0, &cause, &n));
}

static void clear(void) {
    uint64_t n;
    MUST(tracerd_clear(local, &n));
}

static void count(void) {
    tracerd_counts c;
    MUST(tracerd_counts_of(recording[!me], &c));
    MUST(tracerd_counts_sum(local, &c));
}

static void ask_fate(void) {
    tracerd_fate f;
    MUST(tracerd_fate_of(recording[!me], 0, &f));
}

static void ask_about(void) {
    tracerd_about about;
    MUST(tracerd_about_of(local, &about));
}

static void ask_archive(void) {
    tracerd_archive archive;
    MUST(tracerd_archive_of(local, 0, &archive));
}

static void ask_name(void) {
    char name[TRACERD_ARCHIVE_NAME];
    MUST(tracerd_archive_name(local, 0, name));
}

static void write_first(void) { MUST(tracerd_write(local, 0, dir)); }

static void write_and_release(void) {
    tracerd_about about;
    MUST(tracerd_about_of(local, &about));
    if (about.archives < 2) return;
    MAY(OK, RELEASED, tracerd_write(local, about.archives - 1, dir));
    MAY(OK, RELEASED, tracerd_release(local, about.archives - 1));
}

/* (The first is never released.) */
static void forget(void) { MAY(HELD, HELD, tracerd_forget(local, tracerd_forget(local, 0) ? 0 : 1)); }

/* ---- What is shown ---- */

static void offer_shown(void) {
    tracerd_offered o;
    MAY(OK, TOO_BIG, tracerd_offer(looked_at[me], 0, 1, "a record of some bytes", times(me) % 4 ? 22 : SIZE_MAX, &o));
}

static void show(void) {
    static atomic_int number;
    char folder[4200];
    snprintf(folder, sizeof folder, "%s/shown/%d", dir, number++);
    MUST(tracerd_snapshot(shown, 0, folder));
}

static void ask_of_shown(void) {
    tracerd_about about;
    MUST(tracerd_about_of(shown, &about));
}

/* ---- What is kept ---- */

static void keep(void) {
    tracerd_keeper *k;
    tracerd_keeping state = {0};
    if (times(me) >= 3 * LEAST || tracerd_keeper_start(&k, kept, dir, 1, TRACERD_NEVER, 2) == TRACERD_DRAINING) return;
    for (int i = 0; i < 20000 && !state.written; i++) {
        MUST(tracerd_keeper_state(k, &state));
        nap(200);
    }
    must_be(state.written > 0 && !state.refused, "a keeper writes");
    MUST(tracerd_keeper_stop(k));
}

static void offer_kept(void) { MUST(tracerd_trace(of_kept[me], 1, "a record of some bytes", 22)); }

static void ask_of_kept(void) {
    tracerd_about about;
    MUST(tracerd_about_of(kept, &about));
}

static void rotate_kept(void) {
    uint64_t n;
    if (times(me) < EACH_TURN) MUST(tracerd_rotate(kept, 0, &n));
}

/* ---- */

typedef void step(void);
static step *const plans[] = {add_channel,    add_producer,     give_back, settle, count_planned, offer_too_early,
                              ask_of_planned, schedule_planned, declare,   lend,   NULL};
static step *const records[] = {
    offer,    trace,     start,       stop,     drain,       run_drainer,       rotate, rotate_on, tick, clear, count,
    ask_fate, ask_about, ask_archive, ask_name, write_first, write_and_release, forget, NULL};
static step *const shows[] = {offer_shown, show, ask_of_shown, NULL};
static step *const keeps[] = {keep, offer_kept, rotate_kept, ask_of_kept, NULL};

static step *both[2];
static pthread_barrier_t begins, ends;

/* Makes a call again and again, until the other thread's was made as well. Whether there was one to make. */
static bool take_turn(void) {
    atomic_store(&made[me], 0);
    pthread_barrier_wait(&begins);
    step *turn = both[me];
    for (int k = 0; turn && (k < LEAST || (k < MOST && times(!me) < LEAST)); k++) {
        turn();
        atomic_store_explicit(&made[me], k + 1, memory_order_relaxed);
        if (k % BURST == BURST - 1) nap(1); /* for a thread that waits to get a lock */
    }
    pthread_barrier_wait(&ends);
    return turn != NULL;
}

static void *take_turns(void *nothing) {
    me = 1;
    while (take_turn()) {}
    return nothing;
}

static void try_pair(step *one, step *other) {
    both[0] = one;
    both[1] = other;
    take_turn();
}

static void try_pairs(step *const steps[]) {
    for (int i = 0; steps[i]; i++) {
        for (int j = 0; j <= i; j++) {
            start(); /* another pair may have stopped it */
            try_pair(steps[i], steps[j]);
        }
    }
}

static tracerd_session *opened(const char *name, tracerd_kind kind, tracerd_producer *of_threads[2]) {
    tracerd_session *s;
    MUST(tracerd_new(&s, name, ONE, 0, kind));
    MUST(tracerd_channel(s, "c", 256, 4, TRACERD_OVERWRITE));
    for (int i = 0; i < 2; i++) MUST(tracerd_producer_new(s, "c", &of_threads[i]));
    MUST(tracerd_record_refused(s));
    return s;
}

int main(int count_of_words, char **words) {
    pthread_t thread;
    uint64_t n;
    if (count_of_words != 2) return 2;
    dir = words[1];
    planned = opened("planned", TRACERD_LOCAL, waiting);
    local = opened("local", TRACERD_LOCAL, recording);
    shown = opened("shown", TRACERD_SNAPSHOT, looked_at);
    MUST(tracerd_new(&ended, "ended", ONE, 0, TRACERD_LOCAL));
    MUST(tracerd_channel(ended, "c", 256, 2, TRACERD_DISCARD));
    for (int i = 0; i < ENDED; i++) MUST(tracerd_producer_new(ended, "c", &of_ended[i]));
    MUST(tracerd_start(local, 0));
    MUST(tracerd_rotate(local, 0, &n));
    MUST(tracerd_start(shown, 0));
    kept = opened("kept", TRACERD_LOCAL, of_kept);
    MUST(tracerd_start(kept, 0));
    is(!pthread_barrier_init(&begins, NULL, 2) && !pthread_barrier_init(&ends, NULL, 2));
    is(!pthread_create(&thread, NULL, take_turns, NULL));
    try_pairs(plans);
    try_pairs(records);
    try_pairs(shows);
    try_pairs(keeps);
    try_pair(NULL, NULL);
    pthread_join(thread, NULL);
    is(given_back > 10 && given_back < ENDED);
    tracerd_session *const all[] = {planned, ended, local, shown, kept};
    for (int i = 0; i < 5; i++) tracerd_free(all[i]);
    counts_as_one();
    return closing();
}
