/* A program under load, for bench/soak: eight threads at a time come and go, over four producers of a session `s` with a keeper
 * and over four of a snapshot session `z`, and a shell may ask both.
 *
 *     soak DIR
 *
 * Archives are kept below DIR/kept, snapshots below DIR/shown; the sockets are DIR/s and DIR/z. It prints `folder PATH`, of its
 * archives. When it is sent a line `at` it prints one of names and numbers. Sent any other, it ends its threads, has all on disk,
 * and prints a line `end` of these; then it waits until it is sent one more, or nothing any more. */
#define _GNU_SOURCE
#include <inttypes.h>
#include <pthread.h>
#include <semaphore.h>
#include <stdatomic.h>
#include <stdbool.h>
#include <stdio.h>
#include <stdlib.h>
#include <string.h>
#include <time.h>
#include <tracerd.h>

enum { AT_ONCE = 8, PRODUCERS = 4, BURST = 25, MOST_BURSTS = 200, KEEP = 12, SECOND = 1000000000 };
enum { TOO_LONG = 70000, ONE_IN = 512 }; /* a payload that is refused, and how often one is offered */

static const uint8_t UUID[16] = {1};
static tracerd_session *kept, *shown;
static tracerd_pool *pools[2];
static tracerd_keeper *keeper;
static sem_t places;
static _Atomic uint64_t threads;
static _Atomic bool is_over;
static const char *dir;

static void must(tracerd_status status, const char *what) {
    if (status == TRACERD_OK) return;
    fprintf(stderr, "soak: %s: %s\n", what, tracerd_status_name(status));
    exit(1);
}

static void nap(long nanoseconds) { nanosleep(&(struct timespec){nanoseconds / SECOND, nanoseconds % SECOND}, NULL); }

static const char *below(const char *name) {
    static _Thread_local char path[4096];
    snprintf(path, sizeof path, "%s/%s", dir, name);
    return path;
}

/* ---- Threads that record ---- */

static uint64_t next(uint64_t *chance) {
    *chance ^= *chance << 13;
    *chance ^= *chance >> 7;
    return *chance ^= *chance << 17;
}

static void record(uint64_t number, uint64_t k, uint64_t *chance) {
    static const uint8_t long_one[TOO_LONG];
    uint64_t payload[8] = {number, k};
    bool is_refused = next(chance) % ONE_IN == 0;
    size_t size = is_refused ? TOO_LONG : 16 + next(chance) % 49;
    for (int i = 0; i < 2; i++) {
        tracerd_status status = tracerd_trace(tracerd_here(pools[i]), 1, is_refused ? (const void *)long_one : payload, size);
        if (status != (is_refused ? TRACERD_TOO_BIG : TRACERD_OK)) must(status ? status : TRACERD_TOO_BIG, "trace");
    }
}

static void *come_and_go(void *given) {
    uint64_t number = (uintptr_t)given, chance = (number + 1) * 0x9E3779B97F4A7C15, k = 0;
    for (uint64_t bursts = 1 + next(&chance) % MOST_BURSTS; bursts; bursts--) {
        for (int i = 0; i < BURST; i++) record(number, k++, &chance);
        nap(2000000);
    }
    sem_post(&places);
    return NULL;
}

static void wait_for_a_place(void) {
    while (sem_wait(&places)) {}
}

static void *send_all(void *nothing) {
    pthread_t thread;
    while (!is_over) {
        wait_for_a_place();
        must(pthread_create(&thread, NULL, come_and_go, (void *)(uintptr_t)threads++) ? TRACERD_NO_MEMORY : TRACERD_OK, "thread");
        pthread_detach(thread);
    }
    for (int i = 0; i < AT_ONCE; i++) wait_for_a_place();
    return nothing;
}

/* ---- What it says ---- */

static void say(const char *when, uint64_t archives, uint64_t waiting, uint64_t steps_refused) {
    tracerd_counts c;
    must(tracerd_counts_sum(kept, &c), "counts_sum");
    printf("%s threads %" PRIu64 " offered %" PRIu64 " discarded %" PRIu64, when, threads, c.offered, c.discarded);
    printf(" cleared %" PRIu64 " in_ring %" PRIu64 " in_chunks %" PRIu64 " overwritten %" PRIu64, c.cleared, c.in_ring, c.in_chunks,
           c.overwritten);
    printf(" inactive %" PRIu64 " too_big %" PRIu64 " bad_moment %" PRIu64 " spent %" PRIu64 " other_layout %" PRIu64,
           c.refused_inactive, c.refused_too_big, c.refused_bad_moment, c.refused_spent, c.refused_other_layout);
    printf(" archives %" PRIu64 " waiting %" PRIu64 " steps_refused %" PRIu64 "\n", archives, waiting, steps_refused);
    fflush(stdout);
}

/* The first byte of the line that it is sent next, or EOF. */
static int next_line(void) {
    int first = getchar();
    for (int byte = first; byte != '\n' && byte != EOF;) byte = getchar();
    return first;
}

static void say_each_time(void) {
    tracerd_keeping k;
    tracerd_about about;
    while (next_line() == 'a') {
        must(tracerd_keeper_state(keeper, &k), "keeper_state");
        must(tracerd_about_of(kept, &about), "about_of");
        say("at", about.archives, k.waiting, k.refused);
    }
}

/* ---- Sessions ---- */

static void open_one(int i, tracerd_session **s, const char *name, tracerd_kind kind, uint64_t size, tracerd_mode mode) {
    must(tracerd_new(s, name, UUID, 0, kind), "new");
    must(tracerd_channel(*s, "c", size, 16, mode), "channel");
    must(tracerd_record_refused(*s), "record_refused");
    must(tracerd_pool_new(&pools[i], *s, "c", PRODUCERS), "pool_new");
    must(tracerd_start(*s, tracerd_now_of(*s)), "start");
}

static void free_pool(tracerd_pool *it) {
    tracerd_status status;
    while ((status = tracerd_pool_free(it)) == TRACERD_MISSING) nap(1000000); /* a thread ends a little after its last record */
    must(status, "pool_free");
}

int main(int count, char **words) {
    pthread_t sender;
    tracerd_listener *asked[2];
    tracerd_about about;
    if (count != 2) return 2;
    dir = words[1];
    open_one(0, &kept, "s", TRACERD_LOCAL, 65536, TRACERD_DISCARD);
    open_one(1, &shown, "z", TRACERD_SNAPSHOT, 16384, TRACERD_OVERWRITE);
    must(tracerd_keeper_start(&keeper, kept, below("kept"), SECOND / 2, TRACERD_NEVER, KEEP), "keeper_start");
    must(tracerd_listen(&asked[0], kept, below("s"), NULL), "listen");
    char own[4096];
    snprintf(own, sizeof own, "%s/shown", dir);
    must(tracerd_listen(&asked[1], shown, below("z"), own), "listen");
    printf("folder %s\n", tracerd_keeper_folder(keeper));
    fflush(stdout);
    sem_init(&places, 0, AT_ONCE);
    if (pthread_create(&sender, NULL, send_all, NULL)) return 1;
    say_each_time();
    is_over = true;
    pthread_join(sender, NULL);
    for (int i = 0; i < 2; i++) must(tracerd_listener_stop(asked[i]), "listener_stop");
    for (int i = 0; i < 2; i++) free_pool(pools[i]);
    must(tracerd_keeper_stop(keeper), "keeper_stop");
    must(tracerd_about_of(kept, &about), "about_of");
    say("end", about.archives, 0, 0);
    (void)next_line();
    tracerd_free(kept);
    tracerd_free(shown);
    return 0;
}
