/* Producers, and offers by them. */
#include "rings.h"
#include <string.h>
#include <sys/mman.h>

/* Makes a lock whose holder runs with the priority of who waits for it: else a thread that must not wait may do so while others
 * run in the holder's place. */
void make_lock(pthread_mutex_t *lock) {
    pthread_mutexattr_t how;
    pthread_mutexattr_init(&how);
    pthread_mutexattr_setprotocol(&how, PTHREAD_PRIO_INHERIT);
    if (pthread_mutex_init(lock, &how))
        pthread_mutex_init(lock, NULL); /* a kernel that knows no such locks */
    pthread_mutexattr_destroy(&how);
}

void free_slot(slot *s) {
    trc_stream_free(&s->stream);
    free_events(s->events);
    munmap(s, sizeof *s);
}

tracerd_status add_producer_locked(tracerd_session *t, const char *channel, slot **made) {
    slot *s = new_pages(sizeof *s);
    if (!s)
        return TRACERD_NO_MEMORY;
    s->is_out = true;
    s->ahead = t->ahead;
    s->rings = t->rings;
    make_lock(&s->lock);
    tracerd_status status = share_events(t->events, &s->events);
    pages_in(s->rings);
    if (!status)
        status = trc_book_thread(&t->book, &s->stream, (const uint8_t *)channel, strlen(channel), &s->number);
    pages_in(NULL);
    if (status) {
        free_slot(s);
        return status;
    }
    atomic_store(&t->slots[s->number], s); /* a book has STREAMS at most */
    *made = s;
    return TRACERD_OK;
}

tracerd_status tracerd_producer_new(tracerd_session *t, const char *channel, tracerd_producer **producer) {
    slot *s;
    pthread_mutex_lock(&t->desk);
    tracerd_status status = add_producer_locked(t, channel, &s);
    pthread_mutex_unlock(&t->desk);
    if (!status)
        *producer = &s->front;
    return status;
}

uint64_t tracerd_producer_number(const tracerd_producer *producer) { return ((const slot *)producer)->number; }

void set_active_locked(slot *s, bool is_active) { __atomic_store_n(&s->front.active, is_active && s->is_out, __ATOMIC_RELAXED); }

tracerd_status tracerd_producer_done(tracerd_producer *producer) {
    slot *s = slot_of(producer);
    tracerd_status status = TRACERD_CLOSED;
    pthread_mutex_lock(&s->lock);
    if (s->is_out) {
        s->is_out = false;
        set_active_locked(s, false);
        status = TRACERD_OK;
    }
    pthread_mutex_unlock(&s->lock);
    return status;
}

/* ---- Offers ---- */

/* Whether a payload is laid out as the event of this id is declared. The slot is locked. */
static tracerd_status judge_layout_locked(slot *s, uint32_t id, const void *payload, size_t size) {
    return s->events ? trc_events_fit(s->events, id, payload, size) : TRACERD_OK;
}

tracerd_status tracerd_offer(tracerd_producer *producer, uint64_t moment, uint32_t id, const void *payload, size_t size,
                             tracerd_offered *offered) {
    slot *s = slot_of(producer);
    tracerd_status status = TRACERD_CLOSED;
    if (!size)
        payload = ""; /* a slice of no bytes still points somewhere */
    pthread_mutex_lock(&s->lock);
    if (s->is_out)
        status = judge_layout_locked(s, id, payload, size);
    if (!status)
        status = __builtin_expect(s->telling == SAID, 1) ? offer_locked(s, moment, id, payload, size, offered)
                                                         : offer_told_locked(s, moment, id, payload, size, offered);
    if (__builtin_expect(status != TRACERD_OK, 0))
        count_refusal_locked(s, moment, status);
    pthread_mutex_unlock(&s->lock);
    return status;
}

tracerd_status tracerd_trace(tracerd_producer *producer, uint32_t id, const void *payload, size_t size) {
    tracerd_offered offered;
    uint64_t moment = now_by(CLOCK_MONOTONIC) + slot_of(producer)->ahead;
    return tracerd_offer(producer, moment, id, payload, size, &offered);
}
