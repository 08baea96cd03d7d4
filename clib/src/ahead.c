/* What is made, copied and read ahead of a take, a cut or a look, so that little is left to do while a slot is locked. */
#include "rings.h"

enum { WARM = 8 };                             /* sub-buffers that are read while a slot is locked once */
enum { MOST_ROUNDS = 4, MOST_PIECES = 65536 }; /* since offers may never end */

/* How many pages a slot's stream lacks for what comes next, and of how many bytes. */
static uint64_t ask_lacking(slot *s, enum next next, uint64_t *size) {
    uint64_t count = 0;
    pthread_mutex_lock(&s->lock);
    switch (next) {
    case TAKE:
        (void)trc_stream_lacking_for_take(&s->stream, size, &count);
        break;
    case CUT:
        (void)trc_stream_lacking_for_cut(&s->stream, size, &count);
        break;
    case LOOK:
        (void)trc_stream_lacking_copies(&s->stream, size, &count);
        break;
    }
    pthread_mutex_unlock(&s->lock);
    return count;
}

bool stock(slot *s, enum next next) {
    uint64_t size = 0;
    trc_spares spares = {0};
    uint64_t count = ask_lacking(s, next, &size);
    if (!count)
        return false;
    pages_in(next == LOOK ? NULL : s->rings); /* what a look copies is no ring's */
    (void)trc_spares_make(&spares, size, count);
    pages_in(NULL);
    pthread_mutex_lock(&s->lock);
    if (next == LOOK)
        (void)trc_stream_begin_copies(&s->stream, &spares);
    else
        (void)trc_stream_keep_spares(&s->stream, &spares);
    pthread_mutex_unlock(&s->lock);
    trc_spares_free(&spares); /* still open if the stream had no use for all, or if its handle was closed */
    return true;
}

void stock_up(slot *s, enum next next) {
    for (int i = 0; i < MOST_ROUNDS; i++) {
        if (!stock(s, next))
            return;
    }
}

void warm(slot *s) {
    uint32_t sum;
    for (uint64_t i = 0; i < SUB_BUFFERS; i += WARM) {
        pthread_mutex_lock(&s->lock);
        (void)trc_stream_warm(&s->stream, i, i + WARM, &sum);
        pthread_mutex_unlock(&s->lock);
    }
}

/* Copies the next piece. Whether more are left. */
static bool copy_piece(slot *s) {
    uint64_t copied = 0;
    pthread_mutex_lock(&s->lock);
    (void)trc_stream_copy_more(&s->stream, PIECE, &copied);
    pthread_mutex_unlock(&s->lock);
    return copied == PIECE;
}

void copy_ahead(slot *s) {
    const struct timespec moment = {0, 1};
    stock_up(s, LOOK);
    for (int i = 0; i < MOST_PIECES; i++) {
        if (!copy_piece(s))
            break;
        nanosleep(&moment, NULL); /* for a thread that waits to get the lock */
    }
    warm(s);
}
