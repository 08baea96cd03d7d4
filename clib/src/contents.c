/* What the files of an archive, or of a snapshot, are called, and their bytes. */
#include "archives.h"
#include <errno.h>
#include <stdlib.h>
#include <string.h>

static tracerd_status name_file(content *c) {
    tracerd_session *t = c->of->session;
    uint64_t size;
    if (!c->slot) {
        strcpy(c->name, "metadata");
        return TRACERD_OK;
    }
    pthread_mutex_lock(&t->desk);
    tracerd_status status = trc_book_file_name(&t->book, c->slot->number, (uint8_t *)c->name, FILE_NAME - 1, &size);
    pthread_mutex_unlock(&t->desk);
    return status;
}

tracerd_status look(content *c) {
    tracerd_session *t = c->of->session;
    slot *s = c->slot;
    if (!s || !c->of->is_snapshot)
        return TRACERD_OK;
    copy_ahead(s);
    pthread_mutex_lock(&t->desk);
    pthread_mutex_lock(&s->lock);
    say_all_refused_locked(s);
    tracerd_status status = trc_book_look(&t->book, &s->stream, c->of->moment, &c->snap);
    pthread_mutex_unlock(&s->lock);
    pthread_mutex_unlock(&t->desk);
    if (!status && c->of->told)
        say_shown(c->of->told, &c->snap);
    return status;
}

static tracerd_status next_of_part(content *c, uint8_t *room, uint64_t *size) {
    slot *s = c->slot;
    pthread_mutex_lock(&s->lock);
    tracerd_status status = trc_stream_text(&s->stream, c->of->number, &c->place, room, PIECE, size);
    pthread_mutex_unlock(&s->lock);
    return status;
}

/* Asks with more and more room until there is enough. */
tracerd_status make_metadata_locked(tracerd_session *t, uint8_t **text, uint64_t *size) {
    uint32_t status = TRC_NO_ROOM;
    for (size_t room = PIECE; status == TRC_NO_ROOM; room *= 4) {
        free(*text);
        *text = malloc(room);
        if (!*text)
            return TRACERD_NO_MEMORY;
        status = trc_book_metadata(&t->book, *text, room, size);
    }
    return status;
}

static tracerd_status ask_metadata(content *c) {
    tracerd_session *t = c->of->session;
    pthread_mutex_lock(&t->desk);
    tracerd_status status = make_metadata_locked(t, &c->text, &c->left);
    pthread_mutex_unlock(&t->desk);
    return status;
}

static tracerd_status next_of_metadata(content *c, uint8_t *room, uint64_t *size) {
    if (!c->text) {
        tracerd_status status = ask_metadata(c);
        if (status)
            return status;
    }
    *size = c->left < PIECE ? c->left : PIECE;
    memcpy(room, c->text + c->at, *size);
    c->at += *size;
    c->left -= *size;
    return TRACERD_OK;
}

/* Copies the next piece of a file, of PIECE bytes at most. After the last one it has none. */
static tracerd_status next_piece(content *c, uint8_t *room, uint64_t *size) {
    *size = 0;
    if (!c->slot)
        return next_of_metadata(c, room, size);
    if (c->of->is_snapshot)
        return trc_snap_text(&c->snap, &c->place, room, PIECE, size);
    return next_of_part(c, room, size);
}

tracerd_status each_piece(content *c, taking *take, int file) {
    uint8_t room[PIECE];
    uint64_t size;
    tracerd_status status;
    do {
        status = next_piece(c, room, &size);
        if (!status)
            status = take(file, room, size);
    } while (!status && size);
    return status;
}

static tracerd_status one_file(const writing *w, slot *s, int folder, handling *handle) {
    content c = {.of = w, .slot = s};
    tracerd_status status = name_file(&c);
    if (!status)
        status = handle(&c, folder);
    int why = errno; /* before glibc 2.33 free may change it */
    trc_snap_free(&c.snap);
    free(c.text);
    errno = why;
    return status;
}

tracerd_status each_file(const writing *w, int folder, handling *handle) {
    tracerd_session *t = w->session;
    for (slot *s = first_slot(t); s; s = next_slot(t, s)) {
        tracerd_status status = one_file(w, s, folder, handle);
        if (status)
            return status;
    }
    return one_file(w, NULL, folder, handle);
}
