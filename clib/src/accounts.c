/* Counts and fates. */
#include "session.h"

/* The cells write the first fields of these, and know no others. */
_Static_assert(offsetof(tracerd_counts, refused_inactive) == 48 && offsetof(tracerd_counts, shared) == 88, "tracerd_counts");
_Static_assert(sizeof(tracerd_counts) == 128, "results keep their size");
_Static_assert(offsetof(tracerd_fate, reserved) == 24 && sizeof(tracerd_fate) == 64, "tracerd_fate");

tracerd_status ask_counts(slot *s, trc_counts *counts) {
    pthread_mutex_lock(&s->lock);
    tracerd_status status = trc_stream_counts(&s->stream, counts);
    pthread_mutex_unlock(&s->lock);
    return status;
}

tracerd_status ask_part(slot *s, uint64_t archive, trc_part *part) {
    pthread_mutex_lock(&s->lock);
    tracerd_status status = trc_stream_part(&s->stream, archive, part);
    pthread_mutex_unlock(&s->lock);
    return status == (tracerd_status)TRC_NO_PART ? TRACERD_FORGOTTEN : status;
}

/* Adds what a slot's stream counts, what was refused, and what was shared. The slot is locked. */
static tracerd_status add_counts_locked(slot *s, tracerd_counts *sum) {
    tracerd_status status = trc_stream_add_counts(&s->stream, sum);
    if (status)
        return status;
    sum->refused_inactive += s->refused.inactive;
    sum->refused_too_big += s->refused.too_big;
    sum->refused_bad_moment += s->refused.bad_moment;
    sum->refused_spent += s->refused.spent;
    sum->refused_other_layout += s->refused.other_layout;
    sum->shared += s->shared;
    return TRACERD_OK;
}

tracerd_status tracerd_counts_of(tracerd_producer *producer, tracerd_counts *counts) {
    tracerd_counts sum = {0};
    slot *s = slot_of(producer);
    pthread_mutex_lock(&s->lock);
    tracerd_status status = add_counts_locked(s, &sum);
    pthread_mutex_unlock(&s->lock);
    if (!status)
        *counts = sum;
    return status;
}

tracerd_status tracerd_counts_sum(tracerd_session *t, tracerd_counts *counts) {
    tracerd_counts sum = {0};
    if (!t->is_here)
        return TRACERD_CLOSED;
    for (slot *s = first_slot(t); s; s = next_slot(t, s)) {
        pthread_mutex_lock(&s->lock);
        tracerd_status status = add_counts_locked(s, &sum);
        pthread_mutex_unlock(&s->lock);
        if (status)
            return status;
    }
    *counts = sum;
    return TRACERD_OK;
}

/* The first slot whose producer wasn't given back; NULL if all were. */
static slot *find_missing(tracerd_session *t) {
    for (slot *s = first_slot(t); s; s = next_slot(t, s)) {
        pthread_mutex_lock(&s->lock);
        bool is_out = s->is_out;
        pthread_mutex_unlock(&s->lock);
        if (is_out)
            return s;
    }
    return NULL;
}

tracerd_status tracerd_settle(tracerd_session *t, tracerd_counts *counts, uint64_t *stream) {
    tracerd_status status = TRACERD_MISSING;
    if (atomic_load(&t->drainer) != OFF)
        return TRACERD_DRAINING;
    pthread_mutex_lock(&t->desk); /* no producer is added meanwhile */
    const slot *missing = find_missing(t);
    if (missing)
        *stream = missing->number;
    else
        status = tracerd_counts_sum(t, counts);
    pthread_mutex_unlock(&t->desk);
    return status;
}

tracerd_status tracerd_fate_of(tracerd_producer *producer, uint64_t serial, tracerd_fate *fate) {
    tracerd_fate found = {0};
    slot *s = slot_of(producer);
    pthread_mutex_lock(&s->lock);
    tracerd_status status = trc_stream_fate(&s->stream, serial, &found);
    pthread_mutex_unlock(&s->lock);
    if (!status)
        *fate = found;
    return status;
}
