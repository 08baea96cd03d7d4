/* A work queue that traces itself: workers take jobs from a queue, and each thread records what it does.
 *
 *     work_queue         the jobs alone: tracepoints cost a branch each
 *     work_queue DIR     the same, and the trace below DIR */
#include <tracerd_events.h>
#include <pthread.h>
#include <stdint.h>
#include <stdio.h>
#include <stdlib.h>
#include <sys/random.h>

enum { WORKERS = 4, JOBS = 1000, ROOM = 64 };

/* What is recorded: of each event a name, an id and fields. */
#define EVENTS(E)                                   \
    E(job_queued, 1, (u32, number), (u32, waiting)) \
    E(job_begun, 2, (u32, number))                  \
    E(job_ended, 3, (u32, number), (x32, result))   \
    E(queue_closed, 4)
TRACERD_EVENTS(EVENTS)

typedef struct { uint32_t number, result; } job;

static struct {
    pthread_mutex_t lock;
    pthread_cond_t has_room, has_jobs;
    job jobs[ROOM];
    size_t first, count;
    int is_closed;
} queue = {.lock = PTHREAD_MUTEX_INITIALIZER, .has_room = PTHREAD_COND_INITIALIZER, .has_jobs = PTHREAD_COND_INITIALIZER};

/* Every call that is refused here is a mistake in this program, or there is no memory. */
static void must(tracerd_status status, const char *what) {
    if (status == TRACERD_OK) return;
    fprintf(stderr, "work_queue: %s: %s\n", what, tracerd_status_name(status));
    exit(1);
}

static void put(tracerd_producer *producer, job it) {
    pthread_mutex_lock(&queue.lock);
    while (queue.count == ROOM) pthread_cond_wait(&queue.has_room, &queue.lock);
    queue.jobs[(queue.first + queue.count++) % ROOM] = it;
    TRACERD_EVENT(job_queued, producer, it.number, (uint32_t)queue.count);
    pthread_cond_signal(&queue.has_jobs);
    pthread_mutex_unlock(&queue.lock);
}

static int get(job *it) {
    pthread_mutex_lock(&queue.lock);
    while (!queue.count && !queue.is_closed) pthread_cond_wait(&queue.has_jobs, &queue.lock);
    int is_any = queue.count > 0;
    if (is_any) {
        *it = queue.jobs[queue.first];
        queue.first = (queue.first + 1) % ROOM;
        queue.count--;
        pthread_cond_signal(&queue.has_room);
    }
    pthread_mutex_unlock(&queue.lock);
    return is_any;
}

static void *work(void *given) {
    tracerd_producer *producer = given;
    job it;
    while (get(&it)) {
        TRACERD_EVENT(job_begun, producer, it.number);
        for (uint32_t k = 0; k < 10000; k++) it.result = it.result * 31 + k;
        TRACERD_EVENT(job_ended, producer, it.number, it.result);
    }
    tracerd_producer_done(producer);
    return NULL;
}

static void close_queue(tracerd_producer *producer) {
    pthread_mutex_lock(&queue.lock);
    queue.is_closed = 1;
    TRACERD_EVENT(queue_closed, producer);
    pthread_cond_broadcast(&queue.has_jobs);
    pthread_mutex_unlock(&queue.lock);
}

/* Archives what was recorded, and says what became of it. */
static void keep(tracerd_session *session, const char *folder) {
    tracerd_counts counts;
    uint64_t archive, stream;
    must(tracerd_stop(session), "stop");
    must(tracerd_drainer_stop(session), "drainer_stop");
    must(tracerd_rotate(session, tracerd_now_of(session), &archive), "rotate");
    must(tracerd_settle(session, &counts, &stream), "settle");
    must(tracerd_write(session, archive, folder), "write");
    printf("offered %llu discarded %llu archived %llu\n", (unsigned long long)counts.offered,
           (unsigned long long)counts.discarded, (unsigned long long)counts.in_chunks);
}

/* A session of this run's own, so that several runs may have one folder: it is named by when it began, and has an identifier that
 * no other has. Readers find its events' names and fields in its archives. */
static tracerd_session *open_session(void) {
    uint8_t uuid[16];
    char name[32];
    tracerd_session *session;
    if (getrandom(uuid, sizeof uuid, 0) != sizeof uuid) abort();
    uuid[6] = (uuid[6] & 0x0f) | 0x40; /* a random one, by RFC 4122 */
    uuid[8] = (uuid[8] & 0x3f) | 0x80;
    snprintf(name, sizeof name, "queue_%llu", (unsigned long long)tracerd_now());
    must(tracerd_new(&session, name, uuid, 0, TRACERD_LOCAL), "new");
    must(tracerd_declare(session, tracerd_declarations, NULL), "declare");
    return session;
}

int main(int count, char **words) {
    tracerd_session *session = open_session();
    tracerd_producer *queueing, *working[WORKERS];
    pthread_t workers[WORKERS];
    must(tracerd_channel(session, "main", 16384, 8, TRACERD_DISCARD), "channel");
    must(tracerd_producer_new(session, "main", &queueing), "producer_new");
    for (int i = 0; i < WORKERS; i++) must(tracerd_producer_new(session, "main", &working[i]), "producer_new");
    if (count > 1) {
        must(tracerd_start(session, tracerd_now_of(session)), "start");
        must(tracerd_drainer_start(session, 10000000), "drainer_start");
    }
    for (int i = 0; i < WORKERS; i++)
        if (pthread_create(&workers[i], NULL, work, working[i])) abort();
    for (uint32_t k = 0; k < JOBS; k++) put(queueing, (job){k, 0});
    close_queue(queueing);
    for (int i = 0; i < WORKERS; i++) pthread_join(workers[i], NULL);
    must(tracerd_producer_done(queueing), "producer_done");
    if (count > 1) keep(session, words[1]);
    tracerd_free(session);
    return 0;
}
