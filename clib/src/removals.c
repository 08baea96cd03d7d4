/* Clears, releases and forgets. Packets' memory is freed while no slot is locked. */
#include "session.h"
#include "archives.h"

/* Clears a slot's stream, and adds to `records` how many went. The desk is held. */
static tracerd_status clear_stream_locked(tracerd_session *t, slot *s, uint64_t *records) {
    trc_cleared cleared = {0};
    trc_removed removed = {0};
    warm(s);
    pthread_mutex_lock(&s->lock);
    tracerd_status status = trc_book_clear(&t->book, &s->stream, &removed, &cleared);
    pthread_mutex_unlock(&s->lock);
    trc_removed_free(&removed);
    *records += cleared.records;
    return status;
}

/* The desk is held. */
static tracerd_status clear_locked(tracerd_session *t, uint64_t *records) {
    tracerd_status status = trc_book_can_clear(&t->book);
    for (slot *s = first_slot(t); !status && s; s = next_slot(t, s))
        status = clear_stream_locked(t, s, records);
    return status;
}

tracerd_status tracerd_clear(tracerd_session *t, uint64_t *records) {
    uint64_t count = 0;
    pthread_mutex_lock(&t->desk);
    tracerd_status status = clear_locked(t, &count);
    pthread_mutex_unlock(&t->desk);
    if (!status)
        *records = count;
    return status;
}

/* Gives up a slot's part of an archive. The desk is held. */
static tracerd_status release_part_locked(tracerd_session *t, slot *s, uint64_t archive) {
    trc_released released;
    trc_removed removed = {0};
    pthread_mutex_lock(&s->lock);
    tracerd_status status = trc_book_release(&t->book, &s->stream, archive, &removed, &released);
    pthread_mutex_unlock(&s->lock);
    trc_removed_free(&removed);
    return status;
}

/* Gives up all parts that aren't yet. The desk is held. */
static tracerd_status release_locked(tracerd_session *t, uint64_t archive) {
    tracerd_status last = TRACERD_RELEASED; /* of no streams; else all are released if the last one is */
    for (slot *s = first_slot(t); s; s = next_slot(t, s)) {
        last = release_part_locked(t, s, archive);
        if (last && last != TRACERD_RELEASED)
            return last;
    }
    return last;
}

tracerd_status tracerd_release(tracerd_session *t, uint64_t archive) {
    pthread_mutex_lock(&t->desk);
    tracerd_status status = trc_book_can_release(&t->book, archive);
    if (!status) {
        wait_for_writers_locked(t, archive);
        status = release_locked(t, archive);
    }
    pthread_mutex_unlock(&t->desk);
    return status;
}

/* Whether a slot's stream has released its parts of these archives, or forgotten them. */
static tracerd_status ask_released(slot *s, uint64_t from, uint64_t to) {
    for (uint64_t k = from; k < to; k++) {
        trc_part part;
        tracerd_status status = ask_part(s, k, &part);
        if (status == TRACERD_FORGOTTEN)
            continue;
        if (status)
            return status;
        if (!part.released)
            return TRACERD_HELD;
    }
    return TRACERD_OK;
}

/* Whether all archives below this one are there, and each stream has released them. The desk is held. */
static tracerd_status may_forget_locked(tracerd_session *t, uint64_t archive) {
    trc_about about;
    tracerd_status status = trc_book_about(&t->book, &about);
    if (!status && archive > about.archives)
        return TRACERD_NO_ARCHIVE;
    for (slot *s = first_slot(t); !status && s; s = next_slot(t, s))
        status = ask_released(s, t->forgotten, archive);
    return status;
}

/* Once one stream has forgotten, the archives count as forgotten: if another lacks memory, the next call goes on. The desk is
 * held. */
static tracerd_status forget_locked(tracerd_session *t, uint64_t archive) {
    tracerd_status status = may_forget_locked(t, archive);
    if (!status && archive > t->forgotten)
        t->forgotten = archive;
    for (slot *s = first_slot(t); !status && s; s = next_slot(t, s)) {
        pthread_mutex_lock(&s->lock);
        status = trc_stream_forget(&s->stream, archive);
        pthread_mutex_unlock(&s->lock);
    }
    return status;
}

tracerd_status tracerd_forget(tracerd_session *t, uint64_t archive) {
    pthread_mutex_lock(&t->desk);
    tracerd_status status = forget_locked(t, archive);
    pthread_mutex_unlock(&t->desk);
    return status;
}
