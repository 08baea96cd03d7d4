/* Archives and snapshots as files: the calls that write them, and what waits for these. */
#include "archives.h"
#include <errno.h>
#include <inttypes.h>
#include <stdio.h>
#include <string.h>

/* ---- Who writes ---- */

/* Whether a call writes an archive. The desk is held. */
static bool is_written_locked(tracerd_session *t, uint64_t archive) {
    for (const writing *w = t->writings; w; w = w->next) {
        if (!w->is_snapshot && w->number == archive)
            return true;
    }
    return false;
}

void wait_for_writers_locked(tracerd_session *t, uint64_t archive) {
    while (is_written_locked(t, archive))
        pthread_cond_wait(&t->has_written, &t->desk);
}

/* OK if no part of the archive was released. The desk is held. */
static tracerd_status ask_bytes_locked(tracerd_session *t, uint64_t archive) {
    for (slot *s = first_slot(t); s; s = next_slot(t, s)) {
        trc_part part;
        tracerd_status status = ask_part(s, archive, &part);
        if (status)
            return status == TRACERD_FORGOTTEN ? TRACERD_RELEASED : status;
        if (part.released)
            return TRACERD_RELEASED;
    }
    return TRACERD_OK;
}

/* The name of a snapshot's folder; its moment is stored. The desk is held. */
static tracerd_status name_snapshot_locked(writing *w) {
    trc_book *book = &w->session->book;
    uint64_t size;
    tracerd_status status = trc_book_snapshot(book, w->moment, &w->moment);
    if (status)
        return status;
    return trc_book_snapshot_name(book, w->moment, (uint8_t *)w->name, NAME - 1, &size);
}

/* The name of an archive's folder, if it has its bytes. The desk is held. */
static tracerd_status name_archive_locked(writing *w) {
    tracerd_session *t = w->session;
    uint64_t size;
    tracerd_status status = trc_book_archive_name(&t->book, w->number, (uint8_t *)w->name, NAME - 1, &size);
    if (status)
        return status;
    return ask_bytes_locked(t, w->number);
}

/* From here on to the end the archive isn't released. */
static tracerd_status begin(writing *w) {
    tracerd_session *t = w->session;
    pthread_mutex_lock(&t->desk);
    tracerd_status status = w->is_snapshot ? name_snapshot_locked(w) : name_archive_locked(w);
    if (!status) {
        w->next = t->writings;
        t->writings = w;
    }
    pthread_mutex_unlock(&t->desk);
    if (!status)
        snprintf(w->part, sizeof w->part, ".%s.part", w->name);
    return status;
}

static void end(writing *w) {
    tracerd_session *t = w->session;
    pthread_mutex_lock(&t->desk);
    writing **at = &t->writings;
    while (*at != w)
        at = &(*at)->next;
    *at = w->next;
    pthread_cond_broadcast(&t->has_written);
    pthread_mutex_unlock(&t->desk);
}

/* Whether another call has the place that this one waits for. The desk is held. */
static bool is_place_taken_locked(const writing *w) {
    for (const writing *it = w->session->writings; it; it = it->next) {
        if (it->has_place && is_same_file(&it->place, &w->place) && !strcmp(it->name, w->name))
            return true;
    }
    return false;
}

/* Waits until no other call of the session writes by the same name into a folder. */
static tracerd_status take_place(writing *w, int archives) {
    tracerd_session *t = w->session;
    file_id place;
    if (identify(archives, &place))
        return TRACERD_WRITE;
    pthread_mutex_lock(&t->desk);
    w->place = place;
    while (is_place_taken_locked(w))
        pthread_cond_wait(&t->has_written, &t->desk);
    w->has_place = true;
    pthread_mutex_unlock(&t->desk);
    return TRACERD_OK;
}

/* ---- Where ---- */

/* Opens FOLDER, or the folder in it of a snapshot of which something is said. */
static int open_own(const writing *w, const char *folder) {
    char name[NAME];
    int given = open_given(folder);
    if (given < 0 || !w->told)
        return given;
    snprintf(name, sizeof name, "snapshot-%" PRIu64, w->moment);
    int own = open_within(given, name);
    close_quietly(given);
    return own;
}

/* Opens SESSION/archives there, and makes what is missing of it. */
static int open_archives(const writing *w, const char *folder) {
    int given = open_own(w, folder);
    if (given < 0)
        return -1;
    int session = open_within(given, w->session->name);
    close_quietly(given);
    if (session < 0)
        return -1;
    int archives = open_within(session, "archives");
    close_quietly(session);
    return archives;
}

/* Compares an archive with what has its name, or writes it. */
static tracerd_status keep_in(writing *w, int archives) {
    tracerd_status status = take_place(w, archives);
    if (status)
        return status;
    int there = open_there(archives, w->name);
    if (there >= 0) {
        status = compare_archive(w, archives, there);
        close_quietly(there);
        return status;
    }
    if (errno == ENOENT)
        return write_archive(w, archives);
    return is_other(errno) ? TRACERD_EXISTS : TRACERD_READ;
}

static tracerd_status keep_below(writing *w, const char *folder) {
    int archives = open_archives(w, folder);
    if (archives < 0)
        return TRACERD_WRITE;
    tracerd_status status = keep_in(w, archives);
    close_quietly(archives);
    return status;
}

static tracerd_status keep(writing *w, const char *folder) {
    tracerd_status status = begin(w);
    if (status)
        return status;
    status = keep_below(w, folder);
    end(w);
    return status;
}

tracerd_status tracerd_write(tracerd_session *t, uint64_t number, const char *folder) {
    writing w = {.session = t, .number = number};
    return keep(&w, folder);
}

tracerd_status tracerd_snapshot(tracerd_session *t, uint64_t moment, const char *folder) {
    writing w = {.session = t, .is_snapshot = true, .moment = moment};
    return keep(&w, folder);
}

static tracerd_status look_alone(content *c, int folder) {
    (void)folder;
    return look(c);
}

tracerd_status take_snapshot(tracerd_session *t, uint64_t moment, const char *folder, struct text *told,
                             tracerd_status *written) {
    writing w = {.session = t, .is_snapshot = true, .moment = moment, .told = told};
    tracerd_status status = begin(&w);
    if (status)
        return status;
    say_snapshot(told, w.moment);
    *written = TRACERD_OK;
    if (folder)
        *written = keep_below(&w, folder);
    else
        status = each_file(&w, -1, look_alone);
    end(&w);
    return status;
}
