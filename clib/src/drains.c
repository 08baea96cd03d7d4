/* Drains, and the library's own drainer. */
#include "rings.h"
#include <signal.h>

/* Moves the oldest closed sub-buffer into the current trace chunk. */
static tracerd_status take(slot *s) {
    trc_taken taken;
    (void)stock(s, TAKE);
    pthread_mutex_lock(&s->lock);
    pages_in(s->rings);
    tracerd_status status = trc_stream_take(&s->stream, &taken);
    pages_in(NULL);
    pthread_mutex_unlock(&s->lock);
    return status;
}

/* Takes what is closed, and adds to `packets` how many it was. What offers close meanwhile may be left: they may never end. */
static tracerd_status drain_stream(slot *s, uint64_t *packets) {
    for (int i = 0; i < SUB_BUFFERS; i++) {
        uint32_t status = take(s);
        if (status == TRC_T_NOTHING)
            return TRACERD_OK;
        if (status)
            return status;
        ++*packets;
    }
    return TRACERD_OK;
}

tracerd_status tracerd_drain(tracerd_session *t, uint64_t *packets) {
    uint64_t count = 0;
    if (!t->is_here)
        return TRACERD_CLOSED;
    if (t->kind == TRACERD_SNAPSHOT)
        return TRACERD_SNAPSHOT_MODE;
    for (slot *s = first_slot(t); s; s = next_slot(t, s)) {
        tracerd_status status = drain_stream(s, &count);
        if (status)
            return status;
    }
    *packets = count;
    return TRACERD_OK;
}

/* ---- Threads of the library's own ---- */

bool sleep_for(sem_t *bell, uint64_t period) {
    uint64_t next = now_by(CLOCK_MONOTONIC) + period;
    const struct timespec moment = {(time_t)(next / SECOND), (long)(next % SECOND)};
    return sem_clockwait(bell, CLOCK_MONOTONIC, &moment) != 0;
}

bool make_thread(pthread_t *thread, void *(*run)(void *), void *with) {
    sigset_t all, before;
    sigfillset(&all);
    pthread_sigmask(SIG_SETMASK, &all, &before);
    bool is_made = pthread_create(thread, NULL, run, with) == 0;
    pthread_sigmask(SIG_SETMASK, &before, NULL);
    return is_made;
}

/* ---- The drainer ---- */

static void *drain_each_period(void *session) {
    tracerd_session *t = session;
    uint64_t packets;
    do {
        if (t->keeper)
            collect(t->keeper);
        else
            (void)tracerd_drain(t, &packets); /* what there is no memory for is taken in a later round */
    } while (sleep_for(&t->bell, t->period));
    return NULL;
}

bool begin_drainer(tracerd_session *t, uint64_t period) {
    t->period = period < INT64_MAX ? period : INT64_MAX; /* for ever */
    sem_init(&t->bell, 0, 0);
    return make_thread(&t->thread, drain_each_period, t);
}

void end_drainer(tracerd_session *t) {
    sem_post(&t->bell);
    pthread_join(t->thread, NULL);
}

tracerd_status tracerd_drainer_start(tracerd_session *t, uint64_t period) {
    int off = OFF;
    if (!t->is_here)
        return TRACERD_CLOSED;
    if (t->kind == TRACERD_SNAPSHOT)
        return TRACERD_SNAPSHOT_MODE;
    if (!period)
        return TRACERD_ZERO_PERIOD; /* it would never sleep */
    if (!atomic_compare_exchange_strong(&t->drainer, &off, BUSY))
        return TRACERD_DRAINING;
    bool is_made = begin_drainer(t, period);
    atomic_store(&t->drainer, is_made ? ON : OFF);
    return is_made ? TRACERD_OK : TRACERD_NO_MEMORY;
}

tracerd_status tracerd_drainer_stop(tracerd_session *t) {
    int on = ON;
    uint64_t packets;
    if (!atomic_compare_exchange_strong(&t->drainer, &on, BUSY))
        return TRACERD_NOT_DRAINING;
    end_drainer(t);
    tracerd_status last = tracerd_drain(t, &packets); /* with what was closed after its last round */
    atomic_store(&t->drainer, OFF);
    return last;
}
