/* Declared events. The session has a handle of them and so has each slot, so that an offer asks for no lock but its own.
 *
 * What the library declares of its own comes before the program's text: so of two that have one name or id the program's line is
 * the bad one. */
#include "session.h"
#include <stdio.h>
#include <stdlib.h>
#include <string.h>

static const char OF_POOLS[] = "thread_begin 4294967293 name:str tid:u32\n"
                               "thread_end 4294967294 tid:u32\n"
                               "thread_shared 4294967295 name:str tid:u32\n";
static const char OF_REFUSED[] = "offers_refused 4294967292 inactive:u64 too_big:u64 bad_moment:u64 spent:u64 other_layout:u64\n";
static const uint64_t LINES_OF_POOLS = 3, LINES_OF_REFUSED = 1;

void free_events(trc_events *events) {
    if (events)
        trc_events_free(events);
    free(events);
}

tracerd_status share_events(trc_events *events, trc_events **more) {
    *more = NULL;
    if (!events)
        return TRACERD_OK;
    *more = new_apart(sizeof **more); /* each offer writes to its producer's */
    if (!*more)
        return TRACERD_NO_MEMORY;
    tracerd_status status = trc_events_share(events, *more);
    if (status) {
        free(*more);
        *more = NULL;
    }
    return status;
}

/* The events of a text, or the first line that declares none. */
static tracerd_status read_events(const char *text, trc_events **events, uint64_t *line) {
    *events = calloc(1, sizeof **events);
    if (!*events)
        return TRACERD_NO_MEMORY;
    tracerd_status status = trc_events_new(*events, (const uint8_t *)text, strlen(text), line);
    if (status)
        free(*events);
    return status;
}

/* The library's own, and after them those of a text. */
static tracerd_status read_with_own(unsigned own, const char *text, trc_events **events, uint64_t *line) {
    const char *pools = own & POOLS ? OF_POOLS : "", *refused = own & REFUSED ? OF_REFUSED : "";
    uint64_t lines = (own & POOLS ? LINES_OF_POOLS : 0) + (own & REFUSED ? LINES_OF_REFUSED : 0);
    size_t size = strlen(pools) + strlen(refused) + strlen(text) + 1;
    char *all = malloc(size);
    if (!all)
        return TRACERD_NO_MEMORY;
    snprintf(all, size, "%s%s%s", pools, refused, text);
    tracerd_status status = read_events(all, events, line);
    free(all);
    if (status && status != TRACERD_NO_MEMORY)
        *line = *line > lines ? *line - lines : 1; /* if all is too long, that is said of line 1 */
    return status;
}

tracerd_status read_with_own_locked(tracerd_session *t, unsigned own, trc_events **events) {
    uint64_t line = 0;
    return read_with_own(own, t->text ? t->text : "", events, &line);
}

/* Makes a handle for each slot. The desk is held. */
static tracerd_status make_coming_locked(tracerd_session *t, trc_events *events) {
    for (slot *s = first_slot(t); s; s = next_slot(t, s)) {
        tracerd_status status = share_events(events, &s->coming);
        if (status)
            return status;
    }
    return TRACERD_OK;
}

/* Gives each slot the handle that was made for it, for the one that it has. The desk is held. */
static void swap_locked(tracerd_session *t) {
    for (slot *s = first_slot(t); s; s = next_slot(t, s)) {
        trc_events *coming = s->coming;
        pthread_mutex_lock(&s->lock);
        s->coming = s->events;
        s->events = coming;
        pthread_mutex_unlock(&s->lock);
    }
}

/* Frees what wasn't given to a slot. The desk is held. */
static void drop_coming_locked(tracerd_session *t) {
    for (slot *s = first_slot(t); s; s = next_slot(t, s)) {
        free_events(s->coming);
        s->coming = NULL;
    }
}

tracerd_status declare_locked(tracerd_session *t, trc_events **declared) {
    tracerd_status status = make_coming_locked(t, *declared);
    if (!status)
        status = trc_book_declare(&t->book, *declared);
    if (!status) {
        trc_events *before = t->events;
        t->events = *declared;
        *declared = before;
        swap_locked(t);
    }
    drop_coming_locked(t);
    return status;
}

/* Has the session declare what a text does, and keep a copy of it. The desk is held. */
static tracerd_status declare_text_locked(tracerd_session *t, const char *text, uint64_t *line) {
    trc_events *events;
    tracerd_status status = read_with_own(t->own, text, &events, line);
    if (status)
        return status;
    char *copy = malloc(strlen(text) + 1);
    status = copy ? declare_locked(t, &events) : TRACERD_NO_MEMORY;
    free_events(events);
    if (status) {
        free(copy);
        return status;
    }
    strcpy(copy, text);
    free(t->text);
    t->text = copy;
    return TRACERD_OK;
}

tracerd_status tracerd_declare(tracerd_session *t, const char *text, uint64_t *line) {
    uint64_t bad = 0;
    pthread_mutex_lock(&t->desk);
    tracerd_status status = declare_text_locked(t, text, &bad);
    pthread_mutex_unlock(&t->desk);
    if (bad && line)
        *line = bad;
    return status;
}

/* Has the session declare of the library's own also what is asked for. The desk is held. */
static tracerd_status declare_own_locked(tracerd_session *t, unsigned more) {
    trc_events *events;
    tracerd_status status = read_with_own_locked(t, t->own | more, &events);
    if (status)
        return status;
    status = declare_locked(t, &events);
    free_events(events);
    if (!status)
        t->own |= more;
    return status;
}

tracerd_status tracerd_record_refused(tracerd_session *t) {
    pthread_mutex_lock(&t->desk);
    tracerd_status status = declare_own_locked(t, REFUSED);
    pthread_mutex_unlock(&t->desk);
    return status;
}
