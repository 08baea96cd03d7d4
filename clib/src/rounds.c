/* A keeper's rounds: what is recorded becomes archives; these are written and released, and the oldest deleted and forgotten. */
#include "keepers.h"
#include <errno.h>

enum { MOST_WAITING = 3 }; /* archives in memory, so that they don't become more */

tracerd_status noted(tracerd_keeper *k, tracerd_status status) {
    int why = errno;
    if (!status)
        return TRACERD_OK;
    bool has_errno = status == TRACERD_WRITE || status == TRACERD_READ;
    pthread_mutex_lock(&k->lock);
    k->accounts.refused++;
    k->accounts.moment = tracerd_now_of(k->session);
    k->accounts.last = status;
    k->accounts.error = has_errno ? why : 0;
    pthread_mutex_unlock(&k->lock);
    errno = why;
    return status;
}

static void count(tracerd_keeper *k, uint64_t *which) {
    pthread_mutex_lock(&k->lock);
    ++*which;
    pthread_mutex_unlock(&k->lock);
}

/* How many archives there are. */
static uint64_t ask_archives(tracerd_keeper *k) {
    trc_about about = {0};
    pthread_mutex_lock(&k->session->desk);
    (void)trc_book_about(&k->session->book, &about); /* it is refused in a child alone, which has no keeper */
    pthread_mutex_unlock(&k->session->desk);
    return about.archives;
}

/* ---- What the drainer does ---- */

/* Whether there was nothing to rotate. */
static bool is_idle(tracerd_status status) { return status == TRACERD_ALREADY_ROTATED || status == TRACERD_NEVER_STARTED; }

/* Goes on with a rotation that is pending, or else rotates if that is due. */
static tracerd_status rotate_if_due(tracerd_session *t) {
    tracerd_cause cause;
    uint64_t archive;
    tracerd_status status = tracerd_rotate_on(t, &archive);
    if (status == TRACERD_NOT_PENDING)
        status = tracerd_tick(t, tracerd_now_of(t), &cause, &archive);
    return is_idle(status) ? TRACERD_OK : status;
}

void collect(tracerd_keeper *k) {
    uint64_t packets, archives = ask_archives(k);
    if (archives - atomic_load(&k->next) < MOST_WAITING) {
        (void)noted(k, tracerd_drain(k->session, &packets));
        (void)noted(k, rotate_if_due(k->session));
        archives = ask_archives(k);
    }
    if (archives > k->rung) {
        k->rung = archives;
        sem_post(&k->bell);
    }
}

/* Rotates, if anything may have been recorded since the last time. */
static tracerd_status rotate_all(tracerd_session *t) {
    uint64_t archive;
    tracerd_status status = tracerd_rotate_on(t, &archive);
    if (status == TRACERD_OK || status == TRACERD_NOT_PENDING)
        status = tracerd_rotate(t, tracerd_now_of(t), &archive);
    return is_idle(status) ? TRACERD_OK : status;
}

tracerd_status collect_all(tracerd_keeper *k) {
    uint64_t packets;
    tracerd_status drained = noted(k, tracerd_drain(k->session, &packets));
    tracerd_status rotated = noted(k, rotate_all(k->session));
    return drained ? drained : rotated;
}

/* ---- What the writer does ---- */

void pass_over_released(tracerd_keeper *k) {
    tracerd_archive archive;
    pthread_mutex_lock(&k->session->desk);
    uint64_t number = k->session->forgotten;
    pthread_mutex_unlock(&k->session->desk);
    while (!tracerd_archive_of(k->session, number, &archive) && archive.is_released)
        number++;
    atomic_store(&k->next, number);
    k->deleted = number;
}

/* Writes the next archive, unless the program has released it. */
static tracerd_status write_next(tracerd_keeper *k, uint64_t number) {
    tracerd_status status = tracerd_write(k->session, number, k->folder);
    if (status == TRACERD_RELEASED)
        return TRACERD_OK;
    if (!status && !k->is_written) {
        k->is_written = true;
        count(k, &k->accounts.written);
    }
    return status;
}

/* Has the next archive on disk, and then no more in memory. */
static tracerd_status keep_next(tracerd_keeper *k, uint64_t number) {
    tracerd_status status = write_next(k, number);
    if (status)
        return status;
    status = tracerd_release(k->session, number);
    if (status && status != TRACERD_RELEASED)
        return status;
    k->is_written = false;
    atomic_store(&k->next, number + 1);
    return TRACERD_OK;
}

/* Deletes the oldest that wasn't deleted, and forgets it. One of which only another's files are left is as good as gone. What
 * can't be forgotten is forgotten with the next one. */
static tracerd_status delete_next(tracerd_keeper *k) {
    bool was_there;
    tracerd_status status = noted(k, delete_archive(k->session, k->deleted, k->folder, &was_there));
    if (status && !(status == TRACERD_WRITE && (errno == ENOTEMPTY || errno == EEXIST)))
        return status;
    k->deleted++;
    if (was_there)
        count(k, &k->accounts.deleted);
    return noted(k, tracerd_forget(k->session, k->deleted));
}

/* Deletes what is older than the last that are kept, of those that aren't in memory any more. */
static tracerd_status delete_old(tracerd_keeper *k) {
    tracerd_status status = TRACERD_OK;
    while (!status && atomic_load(&k->next) - k->deleted > k->keep)
        status = delete_next(k);
    return status;
}

tracerd_status write_all(tracerd_keeper *k) {
    tracerd_status deleted = delete_old(k), kept = TRACERD_OK; /* what could not be deleted in an earlier round */
    while (!kept && atomic_load(&k->next) < ask_archives(k)) {
        kept = noted(k, keep_next(k, atomic_load(&k->next)));
        if (!kept)
            deleted = delete_old(k);
    }
    return kept ? kept : deleted;
}
