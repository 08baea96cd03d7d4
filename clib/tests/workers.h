/* What the tests of pools share: threads that do what they are told, one after another, and what their streams have to say. */
#ifndef WORKERS_H
#define WORKERS_H
#include "reading.h"
#include <pthread.h>
#include <semaphore.h>
#include <sys/prctl.h>
#include <sys/syscall.h>
#include <unistd.h>

static const char *dir;
static tracerd_session *session;
static tracerd_pool *pool;

typedef struct worker {
    pthread_t thread;
    sem_t told, done;
    const char *name;
    uint32_t id; /* of what it records next; 0: it ends */
    uint32_t tid;
    tracerd_producer *producer; /* that it had then, */
    uint64_t number;            /* and the number of this */
    tracerd_status status;
} worker;

static inline uint32_t own_tid(void) { return (uint32_t)syscall(SYS_gettid); }

static inline void record_here(worker *it) {
    it->producer = tracerd_here(pool);
    it->number = tracerd_producer_number(it->producer);
    it->status = tracerd_trace(it->producer, it->id, NULL, 0);
}

static inline void *work(void *given) {
    worker *it = given;
    it->tid = own_tid();
    prctl(PR_SET_NAME, it->name);
    for (;;) {
        sem_post(&it->done);
        while (sem_wait(&it->told)) {}
        if (!it->id) return NULL;
        record_here(it);
    }
}

/* Begins a thread of this name. */
static inline worker *hired(const char *name) {
    worker *it = calloc(1, sizeof *it);
    it->name = name;
    sem_init(&it->told, 0, 0);
    sem_init(&it->done, 0, 0);
    is(!pthread_create(&it->thread, NULL, work, it));
    while (sem_wait(&it->done)) {}
    return it;
}

/* Has it record an event of this id, and returns the number of the stream. */
static inline uint64_t records(worker *it, uint32_t id) {
    it->id = id;
    sem_post(&it->told);
    while (sem_wait(&it->done)) {}
    return it->number;
}

/* Has it end, and forgets it: its number. */
static inline uint32_t dismissed(worker *it) {
    uint32_t tid = it->tid;
    it->id = 0;
    sem_post(&it->told);
    pthread_join(it->thread, NULL);
    free(it);
    return tid;
}

/* ---- A session with a pool, and its streams ---- */

static inline void opens(uint64_t size, uint64_t count) {
    answers(OK, tracerd_new(&session, "s", ONE, 0, TRACERD_LOCAL));
    answers(OK, tracerd_channel(session, "c", size, 2, TRACERD_DISCARD));
    answers(OK, tracerd_pool_new(&pool, session, "c", count));
}

static inline void starts(void) { answers(OK, tracerd_start(session, tracerd_now_of(session))); }

static inline void closes(void) {
    answers(OK, tracerd_pool_free(pool));
    tracerd_free(session);
}

static inline void tell(void *with, const record *it) {
    char *said = with, *end = said + strlen(said);
    uint32_t tid = it->size < 4 ? 0 : (uint32_t)number_at(it->payload + it->size - 4, 4);
    if (it->id == 4294967293u)
        sprintf(end, "begin %s %u; ", (const char *)it->payload, tid);
    else if (it->id == 4294967294u)
        sprintf(end, "end %u; ", tid);
    else if (it->id == 4294967295u)
        sprintf(end, "shared %s %u; ", (const char *)it->payload, tid);
    else
        sprintf(end, "%u; ", it->id);
}

/* The streams of the session's next archive say this, a line each, as "begin NAME TID; ID; end TID; ". */
static inline void says(const char *wanted, const char *file, int line) {
    static char said[4096];
    static int written;
    char folder[4096];
    uint64_t archive;
    tracerd_about about;
    said[0] = 0;
    snprintf(folder, sizeof folder, "%s/%d", dir, written++);
    answers(OK, tracerd_rotate(session, tracerd_now_of(session), &archive));
    answers(OK, tracerd_write(session, archive, folder));
    answers(OK, tracerd_about_of(session, &about));
    for (uint64_t k = 0; k < about.producers; k++) {
        each_record(file_of(session, folder, archive, k), tell, said);
        if (k + 1 < about.producers) strcat(said, "| ");
    }
    is_so(!strcmp(said, wanted), said, file, line);
}

#define is_said(...)                                                                                                             \
    do {                                                                                                                         \
        char wanted_[4096];                                                                                                      \
        snprintf(wanted_, sizeof wanted_, __VA_ARGS__);                                                                          \
        says(wanted_, __FILE__, __LINE__);                                                                                       \
    } while (0)
#endif
