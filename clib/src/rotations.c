/* Rotations, and when they are due. */
#include "rings.h"

/* Cuts a slot's stream, which is the next of the pending rotation. The desk is held. */
static tracerd_status cut_locked(tracerd_session *t, slot *s) {
    trc_cut done;
    stock_up(s, CUT);
    warm(s);
    pthread_mutex_lock(&s->lock);
    say_all_refused_locked(s);
    pages_in(s->rings);
    tracerd_status status = trc_rotate_cut(&t->book, &s->stream, &done);
    pages_in(NULL);
    pthread_mutex_unlock(&s->lock);
    return status;
}

/* Cuts the streams that the pending rotation hasn't cut yet, and ends it. The desk is held. */
static tracerd_status rotate_on_locked(tracerd_session *t, uint64_t *archive) {
    trc_archive made;
    bool is_left;
    uint64_t number;
    tracerd_status status = trc_rotate_next(&t->book, &is_left, &number);
    while (!status && is_left) {
        status = cut_locked(t, atomic_load(&t->slots[number]));
        if (!status)
            status = trc_rotate_next(&t->book, &is_left, &number);
    }
    if (status)
        return status;
    status = trc_rotate_finish(&t->book, &made);
    if (!status)
        *archive = made.id;
    return status;
}

tracerd_status tracerd_rotate_on(tracerd_session *t, uint64_t *archive) {
    pthread_mutex_lock(&t->desk);
    tracerd_status status = rotate_on_locked(t, archive);
    pthread_mutex_unlock(&t->desk);
    return status;
}

/* The desk is held. */
static tracerd_status rotate_locked(tracerd_session *t, uint64_t moment, uint64_t *archive) {
    uint64_t chunk;
    tracerd_status status = trc_rotate_begin(&t->book, moment, &chunk);
    if (status)
        return status;
    return rotate_on_locked(t, archive);
}

tracerd_status tracerd_rotate(tracerd_session *t, uint64_t moment, uint64_t *archive) {
    pthread_mutex_lock(&t->desk);
    tracerd_status status = rotate_locked(t, moment, archive);
    pthread_mutex_unlock(&t->desk);
    return status;
}

/* ---- By a schedule ---- */

tracerd_status set_schedule(tracerd_session *t, bool is_timed, uint64_t every, bool is_by_size, uint64_t bytes) {
    pthread_mutex_lock(&t->desk);
    tracerd_status status = trc_book_schedule(&t->book, is_timed, every, is_by_size, bytes);
    pthread_mutex_unlock(&t->desk);
    return status;
}

tracerd_status tracerd_schedule(tracerd_session *t, uint64_t every, uint64_t bytes) {
    return set_schedule(t, every != TRACERD_NEVER, every, bytes != TRACERD_NEVER, bytes);
}

/* Why a rotation is due now, or TRC_IDLE. The desk is held. */
static tracerd_status ask_due_locked(tracerd_session *t, uint64_t moment, uint32_t *due) {
    uint64_t sizes[STREAMS], streams = 0;
    for (slot *s = first_slot(t); s; s = next_slot(t, s)) {
        trc_counts counts;
        tracerd_status status = ask_counts(s, &counts);
        if (status)
            return status;
        sizes[streams++] = counts.current_bytes;
    }
    return trc_book_due(&t->book, moment, sizes, streams, due);
}

/* The desk is held. */
static tracerd_status tick_locked(tracerd_session *t, uint64_t moment, tracerd_cause *cause, uint64_t *archive) {
    uint32_t due;
    tracerd_status status = ask_due_locked(t, moment, &due);
    if (!status && due != TRC_IDLE)
        status = rotate_locked(t, moment, archive);
    if (!status)
        *cause = (tracerd_cause)due;
    return status;
}

tracerd_status tracerd_tick(tracerd_session *t, uint64_t moment, tracerd_cause *cause, uint64_t *archive) {
    pthread_mutex_lock(&t->desk);
    tracerd_status status = tick_locked(t, moment, cause, archive);
    pthread_mutex_unlock(&t->desk);
    return status;
}
