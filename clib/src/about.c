/* What a session is, what archives it has, and what the library is. */
#include "session.h"
#include <string.h>

_Static_assert(sizeof(tracerd_about) == 128 && sizeof(tracerd_archive) == 128, "results keep their size");
_Static_assert(TRACERD_NEW == (int)TRC_NEW && TRACERD_ACTIVE == (int)TRC_ACTIVE, "states have the cells' numbers");
_Static_assert(TRACERD_STOPPED == (int)TRC_INACTIVE, "states have the cells' numbers");

tracerd_status tracerd_about_of(tracerd_session *t, tracerd_about *about) {
    trc_about found;
    pthread_mutex_lock(&t->desk);
    tracerd_status status = trc_book_about(&t->book, &found);
    uint64_t forgotten = t->forgotten;
    pthread_mutex_unlock(&t->desk);
    if (status)
        return status;
    *about = (tracerd_about){.kind = found.mode,
                             .state = found.state,
                             .is_pending = found.pending,
                             .is_draining = atomic_load(&t->drainer) != OFF,
                             .channels = found.channels,
                             .producers = found.streams,
                             .archives = found.archives,
                             .begun = found.begin,
                             .last = found.last,
                             .forgotten = forgotten};
    memcpy(about->uuid, t->uuid, sizeof about->uuid);
    return TRACERD_OK;
}

/* Adds what a stream has of an archive. */
static tracerd_status add_part(slot *s, uint64_t number, tracerd_archive *sums) {
    trc_part part;
    tracerd_status status = ask_part(s, number, &part);
    if (status)
        return status;
    sums->packets += part.packets;
    sums->records += part.records;
    sums->bytes += part.bytes;
    if (part.released)
        sums->is_released = 1;
    return TRACERD_OK;
}

/* The desk is held, so that nothing of the archive is released meanwhile. */
static tracerd_status ask_archive_locked(tracerd_session *t, uint64_t number, tracerd_archive *found) {
    trc_archive made;
    tracerd_status status = trc_book_archive(&t->book, number, &made);
    if (!status && number < t->forgotten)
        return TRACERD_FORGOTTEN;
    for (slot *s = first_slot(t); !status && s; s = next_slot(t, s))
        status = add_part(s, number, found);
    if (status)
        return status;
    found->begun = made.begin;
    found->ended = made.end;
    return TRACERD_OK;
}

tracerd_status tracerd_archive_of(tracerd_session *t, uint64_t number, tracerd_archive *archive) {
    tracerd_archive found = {0};
    pthread_mutex_lock(&t->desk);
    tracerd_status status = ask_archive_locked(t, number, &found);
    pthread_mutex_unlock(&t->desk);
    if (!status)
        *archive = found;
    return status;
}

tracerd_status tracerd_archive_name(tracerd_session *t, uint64_t number, char name[TRACERD_ARCHIVE_NAME]) {
    uint8_t found[TRACERD_ARCHIVE_NAME];
    uint64_t size;
    pthread_mutex_lock(&t->desk);
    tracerd_status status = trc_book_archive_name(&t->book, number, found, sizeof found - 1, &size);
    pthread_mutex_unlock(&t->desk);
    if (status)
        return status;
    memcpy(name, found, size);
    name[size] = 0;
    return TRACERD_OK;
}

const char *tracerd_version(void) { return TRACERD_VERSION; }

#include "status_names.h" /* tracerd_status_name, which clib/build makes of tracerd.h */
