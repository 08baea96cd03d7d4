/* The answers to a client's lines: the texts of the console of a script, which cells write, put together. */
#include "listeners.h"
#include <stdio.h>
#include <stdlib.h>
#include <string.h>

/* Whether there is room for one more reply. */
static bool has_room(text *a) {
    if (a->room - a->size >= TRC_REPLY)
        return true;
    size_t room = a->room ? 2 * a->room : 2 * TRC_REPLY;
    uint8_t *bytes = realloc(a->bytes, room);
    a->is_lost |= !bytes;
    if (!bytes)
        return false;
    a->bytes = bytes;
    a->room = room;
    return true;
}

static uint8_t *end_of(const text *a) { return a->bytes + a->size; }

/* What a cell has written there is part of the text, unless it was refused. */
static void grow(text *a, uint32_t status) {
    a->is_lost |= status != TRC_DONE;
    if (!status)
        a->size += a->last;
}

bool begin_text(text *a) {
    a->size = 0;
    a->is_lost = false;
    return has_room(a);
}

/* ---- One line ---- */

void say(text *a, uint32_t what) {
    if (has_room(a))
        grow(a, trc_reply_said(what, end_of(a), TRC_REPLY, &a->last));
}

void say_newline(text *a) {
    if (has_room(a))
        a->bytes[a->size++] = '\n';
}

void say_refused(text *a, uint32_t why) {
    if (has_room(a))
        grow(a, trc_reply_refused(why, end_of(a), TRC_REPLY, &a->last));
}

void say_cleared(text *a, uint64_t records) {
    if (has_room(a))
        grow(a, trc_reply_cleared(records, end_of(a), TRC_REPLY, &a->last));
}

void say_released(text *a, uint64_t archive) {
    if (has_room(a))
        grow(a, trc_reply_released(archive, end_of(a), TRC_REPLY, &a->last));
}

void say_fate(text *a, const tracerd_fate *fate) {
    if (has_room(a))
        grow(a, trc_reply_fate(fate, end_of(a), TRC_REPLY, &a->last));
}

void say_archived(text *a, tracerd_session *t, uint64_t archive) {
    if (!has_room(a))
        return;
    pthread_mutex_lock(&t->desk);
    grow(a, trc_reply_archived(&t->book, archive, end_of(a), TRC_REPLY, &a->last));
    pthread_mutex_unlock(&t->desk);
}

void say_unwritten(text *a, tracerd_status status, int why) {
    bool has_errno = status == TRACERD_WRITE || status == TRACERD_READ;
    if (!has_room(a))
        return;
    int size = snprintf((char *)end_of(a), TRC_REPLY, "not written %s %d\n", tracerd_status_name(status), has_errno ? why : 0);
    a->size += (size_t)size;
}

/* ---- A snapshot ---- */

void say_snapshot(text *a, uint64_t moment) {
    if (has_room(a))
        grow(a, trc_reply_snapshot(moment, end_of(a), TRC_REPLY, &a->last));
    a->begun = a->size;
}

void say_shown(text *a, trc_snap *snap) {
    if (has_room(a))
        grow(a, trc_reply_shown(snap, end_of(a), TRC_REPLY, &a->last));
}

void forget_shown(text *a) { a->size = a->begun; }

/* ---- A status ---- */

/* The line of a slot. */
static void say_row(text *a, slot *s) {
    trc_counts counts;
    (void)ask_counts(s, &counts); /* it is refused in a child alone, which has no listener */
    if (has_room(a))
        grow(a, trc_reply_row(s->number, &counts, end_of(a), TRC_REPLY, &a->last));
}

/* The desk is held: so nothing is cleared meanwhile. */
static void say_status_locked(text *a, tracerd_session *t) {
    const uint8_t *name = (const uint8_t *)t->name;
    tracerd_counts sums = {0};
    a->is_lost |= tracerd_counts_sum(t, &sums) != TRACERD_OK;
    if (has_room(a))
        grow(a, trc_reply_status(&t->book, name, strlen(t->name), sums.cleared, end_of(a), TRC_REPLY, &a->last));
    for (slot *s = first_slot(t); s; s = next_slot(t, s))
        say_row(a, s);
    say_newline(a);
}

void say_status(text *a, tracerd_session *t) {
    pthread_mutex_lock(&t->desk);
    say_status_locked(a, t);
    pthread_mutex_unlock(&t->desk);
}

/* ---- Archives ---- */

/* The desk is held: so nothing is released meanwhile. */
static void say_archive_locked(text *a, tracerd_session *t, uint64_t archive) {
    uint64_t packets = 0, bytes = 0, streams = 0, released = 0;
    for (slot *s = first_slot(t); s; s = next_slot(t, s)) {
        trc_part part = {0};
        (void)ask_part(s, archive, &part); /* refused in a child alone, as above */
        packets += part.packets;
        bytes += part.bytes;
        released += part.released;
        streams++;
    }
    grow(a, trc_reply_archive(&t->book, archive, packets, bytes, streams, released, end_of(a), TRC_REPLY, &a->last));
}

void say_archives(text *a, tracerd_session *t) {
    tracerd_about about = {0};
    a->is_lost |= tracerd_about_of(t, &about) != TRACERD_OK;
    if (about.archives == about.forgotten)
        say(a, TRC_SAYS_NO_ARCHIVES);
    for (uint64_t k = about.forgotten; k < about.archives && has_room(a); k++) {
        pthread_mutex_lock(&t->desk);
        if (k >= t->forgotten)
            say_archive_locked(a, t, k);
        pthread_mutex_unlock(&t->desk);
    }
}
