/* Threads that come and go, eight at once, over a pool of four, while another rotates, writes and takes snapshots: each record is
 * read back, and is of a thread that has its stream then.
 *
 *     crowds THREADS DIR     a folder that is there, in which files are written */
#include "reading.h"
#include <pthread.h>
#include <semaphore.h>
#include <stdatomic.h>
#include <sys/syscall.h>
#include <time.h>
#include <unistd.h>

enum { AT_ONCE = 8, PRODUCERS = 4, EACH = 3, MOST = 10000 };

/* The test needn't wait for a disk. */
int __wrap_fsync(int file) { return (void)file, 0; }
int __wrap_fdatasync(int file) { return (void)file, 0; }

static tracerd_session *local, *shown;
static tracerd_pool *pool, *pool_shown;
static sem_t places;
static atomic_int is_over;
static uint32_t tids[MOST], seen[MOST];
static int threads;
static const char *dir;

static void must(tracerd_status status, const char *what) {
    if (status == TRACERD_OK) return;
    printf("%s: %s\n", what, tracerd_status_name(status));
    exit(1);
}

/* ---- Recording ---- */

static void nap(long milliseconds) { nanosleep(&(struct timespec){0, milliseconds * 1000000}, NULL); }

static void *come_and_go(void *given) {
    uint32_t number = (uint32_t)(uintptr_t)given;
    tids[number] = (uint32_t)syscall(SYS_gettid);
    for (uint32_t k = 0; k < EACH; k++) {
        uint32_t payload[2] = {number, k};
        must(tracerd_trace(tracerd_here(pool), 1, payload, sizeof payload), "trace");
        TRACERD_TRACE(tracerd_here(pool_shown), 1, payload, sizeof payload);
        if (!k && number < AT_ONCE - 2) nap(200); /* so that others find none free */
    }
    sem_post(&places);
    return NULL;
}

static void *send_all(void *nothing) {
    for (int k = 0; k < threads; k++) {
        pthread_t thread;
        while (sem_wait(&places)) {}
        must(pthread_create(&thread, NULL, come_and_go, (void *)(uintptr_t)k) ? TRACERD_NO_MEMORY : TRACERD_OK, "a thread");
        pthread_detach(thread);
    }
    for (int k = 0; k < AT_ONCE; k++)
        while (sem_wait(&places)) {} /* until all have recorded */
    is_over = 1;
    return nothing;
}

static uint64_t rotate_and_write(void) {
    uint64_t archive = 0;
    must(tracerd_rotate(local, tracerd_now_of(local), &archive), "rotate");
    must(tracerd_write(local, archive, dir), "write");
    must(tracerd_release(local, archive), "release");
    return archive;
}

/* A snapshot is whole, whatever was offered meanwhile. */
static void show(int number) {
    char folder[4096];
    tracerd_audited a;
    snprintf(folder, sizeof folder, "%s/shown/%d", dir, number);
    must(tracerd_snapshot(shown, tracerd_now_of(shown), folder), "snapshot");
    for (uint64_t k = 0; k < PRODUCERS; k++) must(tracerd_audit(folder, "s", "c", k, ONE, &a), "audit");
}

static void free_pool(tracerd_pool *it) {
    tracerd_status status;
    while ((status = tracerd_pool_free(it)) == TRACERD_MISSING) nap(1); /* a thread ends a little after its last record */
    must(status, "pool_free");
}

/* ---- Reading back ---- */

/* Who has a stream: the one that it is lent to, or 0, and those that share it. */
typedef struct {
    uint32_t lent, sharing[MOST];
    int sharers, said, shared;
    uint64_t serials, together; /* records, and those of them that were made while several had the stream */
} holders;

static int place_of(const holders *h, uint32_t tid) {
    for (int k = 0; k < h->sharers; k++)
        if (h->sharing[k] == tid) return k;
    return -1;
}

static void ends(holders *h, uint32_t tid) {
    int place = place_of(h, tid);
    if (h->lent == tid) {
        h->lent = 0;
        return;
    }
    is(place >= 0);
    if (place >= 0) h->sharing[place] = h->sharing[--h->sharers];
}

static void count_together(holders *h) { h->together += h->sharers + (h->lent != 0) > 1; }

static void is_of_a_holder(holders *h, const record *it) {
    uint32_t number = (uint32_t)number_at(it->payload, 4), k = (uint32_t)number_at(it->payload + 4, 4);
    is(it->id == 1 && it->size == 8 && number < (uint32_t)threads && k == seen[number]);
    if (wrong) return;
    is(h->lent == tids[number] || place_of(h, tids[number]) >= 0);
    count_together(h);
    seen[number]++;
}

static void follow(void *with, const record *it) {
    holders *h = with;
    uint32_t tid = it->size < 4 ? 0 : (uint32_t)number_at(it->payload + it->size - 4, 4);
    is(it->serial == h->serials++); /* none is missing */
    if (it->id == TRACERD_THREAD_BEGIN) {
        is(!h->lent && h->said++ >= 0);
        h->lent = tid;
        count_together(h);
    } else if (it->id == TRACERD_THREAD_SHARED) {
        is(h->sharers < MOST && h->said++ >= 0 && h->shared++ >= 0);
        h->sharing[h->sharers++] = tid;
        count_together(h);
    } else if (it->id == TRACERD_THREAD_END) {
        count_together(h);
        ends(h, tid);
    } else {
        is_of_a_holder(h, it);
    }
}

static void read_back(uint64_t archives, uint64_t counted) {
    int said = 0, shared = 0;
    uint64_t read = 0, together = 0;
    for (uint64_t k = 0; k < PRODUCERS; k++) {
        holders *h = calloc(1, sizeof *h);
        for (uint64_t archive = 0; archive < archives && !wrong; archive++)
            each_record(file_of(local, dir, archive, k), follow, h);
        is(!h->lent && !h->sharers);
        said += h->said;
        shared += h->shared;
        read += h->serials;
        together += h->together;
        free(h);
    }
    is(said == threads && shared && read == (uint64_t)threads * (EACH + 2) && together && together == counted);
    for (int k = 0; k < threads; k++) is(seen[k] == EACH);
    fprintf(stderr, "crowds: %d threads, %d of them sharing, ", threads, shared);
    fprintf(stderr, "%" PRIu64 " records in %" PRIu64 " archives\n", read, archives);
}

static void opens(tracerd_session **s, tracerd_kind kind, tracerd_mode mode, tracerd_pool **p) {
    must(tracerd_new(s, "s", ONE, 0, kind), "new");
    must(tracerd_channel(*s, "c", kind == TRACERD_LOCAL ? 65536 : 4096, kind == TRACERD_LOCAL ? 64 : 4, mode), "channel");
    must(tracerd_pool_new(p, *s, "c", PRODUCERS), "pool_new");
    must(tracerd_start(*s, tracerd_now_of(*s)), "start");
}

int main(int count, char **words) {
    pthread_t sender;
    tracerd_counts c;
    uint64_t stream;
    if (count != 3) return 2;
    threads = atoi(words[1]) < MOST ? atoi(words[1]) : MOST;
    dir = words[2];
    alarm(100); /* a thread may not come to its end */
    opens(&local, TRACERD_LOCAL, TRACERD_DISCARD, &pool);
    opens(&shown, TRACERD_SNAPSHOT, TRACERD_OVERWRITE, &pool_shown);
    sem_init(&places, 0, AT_ONCE);
    is(!pthread_create(&sender, NULL, send_all, NULL));
    for (int k = 0; !is_over; k++) {
        rotate_and_write();
        if (k % 8 == 0) show(k);
        nap(1);
    }
    is(!pthread_join(sender, NULL));
    free_pool(pool);
    free_pool(pool_shown);
    uint64_t last = rotate_and_write();
    answers(OK, tracerd_settle(local, &c, &stream));
    is(!c.discarded && c.offered == c.in_chunks && c.offered == (uint64_t)threads * (EACH + 2));
    read_back(last + 1, c.shared);
    tracerd_free(local);
    tracerd_free(shown);
    counts_as_one();
    return closing();
}
