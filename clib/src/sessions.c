/* Sessions: made, planned, started, stopped and freed; and their clock. */
#include "rings.h"
#include <errno.h>
#include <stdlib.h>
#include <string.h>
#include <sys/mman.h>
#include <sys/random.h>

uint64_t tracerd_now(void) { return now_by(CLOCK_REALTIME); }

uint64_t tracerd_now_of(const tracerd_session *t) { return now_by(CLOCK_MONOTONIC) + t->ahead; }

/* An identifier by chance, of version 4 (RFC 9562). Whether there is chance. */
static bool make_uuid(uint8_t uuid[16]) {
    ssize_t size;
    do {
        size = getrandom(uuid, 16, 0);
    } while (size < 0 && errno == EINTR);
    uuid[6] = (uint8_t)((uuid[6] & 0x0F) | 0x40);
    uuid[8] = (uint8_t)((uuid[8] & 0x3F) | 0x80);
    return size == 16;
}

tracerd_status tracerd_new(tracerd_session **session, const char *name, const uint8_t uuid[16], int32_t east, tracerd_kind kind) {
    uint8_t made[16];
    *session = NULL;
    if (trc_name((const uint8_t *)name, strlen(name)))
        return TRACERD_BAD_NAME;
    if (!uuid && !make_uuid(made))
        return TRACERD_READ;
    if (!uuid)
        uuid = made;
    tracerd_session *t = new_pages(sizeof *t);
    if (!t)
        return TRACERD_NO_MEMORY;
    tracerd_status status = trc_book_new(&t->book, uuid, 16, east, kind);
    if (status) {
        munmap(t, sizeof *t);
        return status;
    }
    t->is_here = true;
    strcpy(t->name, name);
    t->kind = kind;
    memcpy(t->uuid, uuid, sizeof t->uuid);
    t->ahead = now_by(CLOCK_REALTIME) - now_by(CLOCK_MONOTONIC);
    t->desk = (pthread_mutex_t)PTHREAD_MUTEX_INITIALIZER;
    t->has_written = (pthread_cond_t)PTHREAD_COND_INITIALIZER;
    *session = t;
    return TRACERD_OK;
}

void tracerd_free(tracerd_session *t) {
    if (!t)
        return;
    end_listener(t);
    end_keeper(t);
    tracerd_drainer_stop(t);
    close_pools(t);
    slot *next;
    for (slot *s = first_slot(t); s; s = next) {
        next = next_slot(t, s);
        free_slot(s);
    }
    free_events(t->events);
    free(t->text);
    trc_book_free(&t->book);
    free_rings(t->rings);
    munmap(t, sizeof *t);
}

tracerd_status tracerd_channel(tracerd_session *t, const char *name, uint64_t size, uint64_t count, tracerd_mode mode) {
    pthread_mutex_lock(&t->desk);
    tracerd_status status = trc_book_channel(&t->book, (const uint8_t *)name, strlen(name), size, count, mode);
    pthread_mutex_unlock(&t->desk);
    return status;
}

tracerd_status tracerd_rings_in(tracerd_session *t, const char *path) {
    tracerd_status status = TRACERD_OK;
    if (!t->is_here)
        return TRACERD_CLOSED;
    pthread_mutex_lock(&t->desk);
    if (t->rings || first_slot(t))
        status = TRACERD_ALREADY_STARTED;
    else if (!(t->rings = make_rings(path)))
        status = errno == ENOMEM ? TRACERD_NO_MEMORY : TRACERD_WRITE;
    pthread_mutex_unlock(&t->desk);
    return status;
}

/* Switches a stream as the book allows: at this moment on, or off. The desk and the slot are locked. */
static tracerd_status switch_locked(tracerd_session *t, slot *s, bool is_active, uint64_t moment) {
    if (!is_active)
        say_all_refused_locked(s);
    tracerd_status status = trc_book_switch(&t->book, &s->stream, is_active);
    if (!status)
        set_active_locked(s, is_active);
    say_first_locked(s);
    if (is_active)
        begin_telling_locked(s, t->own & REFUSED, moment);
    return status;
}

/* Switches each stream so. The desk is held. */
static tracerd_status switch_all_locked(tracerd_session *t, bool is_active, uint64_t moment) {
    for (slot *s = first_slot(t); s; s = next_slot(t, s)) {
        if (!is_active && t->own & REFUSED)
            (void)stock(s, TAKE);
        pthread_mutex_lock(&s->lock);
        tracerd_status status = switch_locked(t, s, is_active, moment);
        pthread_mutex_unlock(&s->lock);
        if (status)
            return status;
    }
    return TRACERD_OK;
}

/* Has the file of rings, if there is one, tell what records are. The desk is held. */
static tracerd_status describe_rings_locked(tracerd_session *t) {
    uint8_t *text = NULL;
    uint64_t size;
    if (!t->rings)
        return TRACERD_OK;
    tracerd_status status = make_metadata_locked(t, &text, &size);
    if (!status && !keep_metadata(t->rings, text, size))
        status = TRACERD_NO_MEMORY;
    free(text);
    return status;
}

tracerd_status tracerd_start(tracerd_session *t, uint64_t moment) {
    pthread_mutex_lock(&t->desk);
    tracerd_status status = describe_rings_locked(t);
    if (!status)
        status = trc_book_start(&t->book, moment);
    if (!status)
        status = switch_all_locked(t, true, moment);
    pthread_mutex_unlock(&t->desk);
    return status;
}

tracerd_status tracerd_stop(tracerd_session *t) {
    pthread_mutex_lock(&t->desk);
    tracerd_status status = trc_book_stop(&t->book);
    if (!status)
        status = switch_all_locked(t, false, 0);
    pthread_mutex_unlock(&t->desk);
    return status;
}
