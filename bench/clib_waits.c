/* Measures how long libtracerd holds a stream's lock, and how long an offer takes beside what others do.
 *
 *     clib_waits holds COUNT SIZE ROUNDS FOLDER     rings of COUNT sub-buffers of SIZE bytes, full of records of 32 bytes
 *     clib_waits offers COUNT SIZE MILLISECONDS FOLDER BESIDE     BESIDE is nothing, rotations or snapshots
 *
 * holds prints for each operation the nanoseconds of a processor for which it holds the lock at a time: the longest hold of
 * each round, and of these the middle one. offers prints what waits.h says.
 * Archives and snapshots go below FOLDER. It is linked with --wrap=pthread_mutex_lock and --wrap=pthread_mutex_unlock. */
#include "waits.h"
#include <stdatomic.h>
#include <tracerd.h>
#include <unistd.h>

enum { MOST_ROUNDS = 1000, NEAR = 4096 };
static const char *folder;

static void must(tracerd_status status) {
    if (status == TRACERD_OK) return;
    fprintf(stderr, "clib_waits: %s\n", tracerd_status_name(status));
    exit(1);
}

/* ---- Holds of one stream's lock, which lies after its producer in one block ---- */

static tracerd_producer *watched;
static uint64_t begun, longest;

static int is_watched(const pthread_mutex_t *lock) {
    uintptr_t at = (uintptr_t)lock, from = (uintptr_t)watched;
    return watched && at > from && at < from + NEAR;
}

int __real_pthread_mutex_lock(pthread_mutex_t *lock);
int __real_pthread_mutex_unlock(pthread_mutex_t *lock);
int __wrap_pthread_mutex_lock(pthread_mutex_t *lock);
int __wrap_pthread_mutex_unlock(pthread_mutex_t *lock);

int __wrap_pthread_mutex_lock(pthread_mutex_t *lock) {
    int status = __real_pthread_mutex_lock(lock);
    if (is_watched(lock)) begun = now_by(CLOCK_THREAD_CPUTIME_ID);
    return status;
}

int __wrap_pthread_mutex_unlock(pthread_mutex_t *lock) {
    if (is_watched(lock)) {
        uint64_t held = now_by(CLOCK_THREAD_CPUTIME_ID) - begun;
        if (held > longest) longest = held;
    }
    return __real_pthread_mutex_unlock(lock);
}

/* ---- A session with one producer ---- */

static tracerd_session *session;
static tracerd_producer *producer;

static void make_session(uint64_t count, uint64_t size, tracerd_kind kind) {
    static const uint8_t uuid[16] = {1};
    must(tracerd_new(&session, "waits", uuid, 0, kind));
    must(tracerd_channel(session, "c", size, count, TRACERD_OVERWRITE));
    must(tracerd_producer_new(session, "c", &producer));
    must(tracerd_start(session, 0));
}

static uint32_t offer(uint64_t moment) {
    uint8_t payload[BYTES] = {0};
    tracerd_offered offered;
    memcpy(payload, &moment, sizeof moment);
    must(tracerd_offer(producer, moment, 7, payload, BYTES, &offered));
    return offered.outcome;
}

static void record(uint64_t moment) { (void)offer(moment); }

/* Offers until the oldest sub-buffer gives way, and then for half a sub-buffer. */
static void fill(uint64_t size) {
    uint64_t moment = 0;
    while (offer(moment) != TRACERD_STORED_OVER) moment++;
    for (uint64_t left = size / (2 * (BYTES + 24)); left; left--) (void)offer(++moment);
}

/* ---- holds ---- */

static uint64_t archive;

static void take(void) { must(tracerd_drain(session, &(uint64_t){0})); }
static void rotate(void) { must(tracerd_rotate(session, 0, &archive)); }
static void clear(void) { must(tracerd_clear(session, &(uint64_t){0})); }
static void tick(void) { must(tracerd_tick(session, 0, &(tracerd_cause){0}, &archive)); }
static void count(void) { must(tracerd_counts_of(producer, &(tracerd_counts){0})); }
static void release(void) { must(tracerd_release(session, archive)); }
static void forget(void) { must(tracerd_forget(session, archive + 1)); }

/* A folder of its own for each archive and snapshot: none is written over another. */
static const char *own_folder(void) {
    static char path[4096];
    static int number;
    snprintf(path, sizeof path, "%s/%d-%d", folder, (int)getpid(), number++);
    return path;
}

static void write_archive(void) { must(tracerd_write(session, archive, own_folder())); }
static void snapshot(void) { must(tracerd_snapshot(session, 0, own_folder())); }

/* The fate of a record in the middle of the archive. */
static void fate(void) {
    tracerd_counts counts;
    must(tracerd_counts_of(producer, &counts));
    must(tracerd_fate_of(producer, counts.offered - counts.in_chunks / 2, &(tracerd_fate){0}));
}

static const struct {
    const char *name;
    void (*call)(void);
    tracerd_kind kind;
    enum { OF_RING, OF_ARCHIVE, OF_RELEASED } of;
} operations[] = {
    {"take", take, TRACERD_LOCAL, OF_RING},          {"rotation", rotate, TRACERD_LOCAL, OF_RING},
    {"clear", clear, TRACERD_LOCAL, OF_RING},        {"snapshot", snapshot, TRACERD_SNAPSHOT, OF_RING},
    {"tick", tick, TRACERD_LOCAL, OF_RING},          {"counts", count, TRACERD_LOCAL, OF_RING},
    {"fate", fate, TRACERD_LOCAL, OF_ARCHIVE},       {"write", write_archive, TRACERD_LOCAL, OF_ARCHIVE},
    {"release", release, TRACERD_LOCAL, OF_ARCHIVE}, {"forget", forget, TRACERD_LOCAL, OF_RELEASED},
};

static void print_holds(uint64_t count_of, uint64_t size, int rounds) {
    uint64_t held[MOST_ROUNDS];
    for (size_t i = 0; i < sizeof operations / sizeof *operations; i++) {
        for (int round = 0; round < rounds; round++) {
            make_session(count_of, size, operations[i].kind);
            fill(size);
            if (operations[i].of != OF_RING) rotate();
            if (operations[i].of == OF_RELEASED) release();
            longest = 0;
            watched = producer;
            operations[i].call();
            watched = NULL;
            held[round] = longest;
            tracerd_free(session);
        }
        qsort(held, (size_t)rounds, sizeof *held, by_size);
        printf("%s %llu\n", operations[i].name, (unsigned long long)held[rounds / 2]);
    }
}

/* ---- offers ---- */

static _Atomic int ended;

/* Drains each millisecond; each 16th time it also rotates, writes the archive and releases it. */
static void *rotate_on(void *nothing) {
    for (int round = 1; !ended; round++) {
        nanosleep(&(struct timespec){0, 1000000}, NULL);
        take();
        if (round % 16) continue;
        rotate();
        write_archive();
        release();
    }
    return nothing;
}

/* Takes a snapshot each 16 milliseconds. */
static void *snapshot_on(void *nothing) {
    while (!ended) {
        nanosleep(&(struct timespec){0, 16000000}, NULL);
        snapshot();
    }
    return nothing;
}

static void print_offers(uint64_t count_of, uint64_t size, uint64_t milliseconds, const char *beside) {
    int rotates = !strcmp(beside, "rotations"), looks = !strcmp(beside, "snapshots");
    pthread_t other;
    make_session(count_of, size, looks ? TRACERD_SNAPSHOT : TRACERD_LOCAL);
    fill(size);
    if ((rotates || looks) && pthread_create(&other, NULL, rotates ? rotate_on : snapshot_on, NULL)) exit(1);
    print_records(milliseconds);
    ended = 1;
    if (rotates || looks) pthread_join(other, NULL);
    tracerd_free(session);
}

int main(int words, char **word) {
    if (words < 6) return 2;
    uint64_t count_of = strtoull(word[2], NULL, 10), size = strtoull(word[3], NULL, 10);
    folder = word[5];
    if (!strcmp(word[1], "holds") && atoi(word[4]) <= MOST_ROUNDS) print_holds(count_of, size, atoi(word[4]));
    else if (!strcmp(word[1], "offers") && words == 7) print_offers(count_of, size, strtoull(word[4], NULL, 10), word[6]);
    else return 2;
    return 0;
}
