/* What the files share that lend a pool's producers to threads.
 *
 * Order of locks: the desk, a pool's `lock`, a slot's. */
#ifndef POOLS_H
#define POOLS_H
#include "session.h"

/* How a thread has a producer: for itself; with others, which it has said; or with others, and that isn't said yet. */
enum manner { OWN, SHARED, UNSAID, MANNERS };

/* What a thread's key points to: one of three of each producer. It doesn't change, but for `next` and `told`. */
typedef struct lend {
    struct tracerd_pool *pool; /* NULL in a child of fork */
    slot *slot;
    enum manner manner;
    const struct lend *said; /* the one that a thread has next, once it has said that it shares */
    struct lend *next;       /* the one that was free next; the pool's lock guards it */
    _Atomic uint32_t told;   /* the last thread that said that it shares this one, of those that can't keep it */
} lend;

/* A child of fork finds it as zeros: closed. */
struct tracerd_pool {
    _Atomic bool is_open; /* false in a child, and once its session is gone */
    bool is_by_processor; /* nothing is lent */
    pthread_key_t key;
    uint32_t count, made; /* of its producers, and how many of them are there */
    size_t size;          /* its own, 0 in a child */
    tracerd_session *session;
    struct tracerd_pool *next; /* the session's others; the desk guards it */
    pthread_mutex_t lock;      /* guards what follows */
    lend *first, *last;        /* the free ones, the longest free first */
    uint32_t turn;             /* which one is shared next */
    _Atomic uint64_t out;      /* how many threads have one */
    slot nobody;               /* one that is closed for ever */
    lend lends[];              /* those of each manner */
};

static inline lend *lend_of(tracerd_pool *p, enum manner manner, uint32_t number) {
    return &p->lends[manner * p->count + number];
}

/* ---- Lends (lends.c) ---- */

/* Adds a lend to the free ones. The pool is locked. */
void append_locked(tracerd_pool *p, lend *it);
/* Has a thread that ends give back what it has: what a key's destructor does. */
void give_back(void *value);

/* ---- What a thread says of itself (names.c) ---- */

/* The calling thread's number. */
uint32_t number_of_thread(void);
/* Its name, with a zero at its end, and its number: how many bytes that is. What isn't UTF-8 of the name becomes '?', and so does
 * a name without bytes. */
uint32_t about_thread(uint8_t about[ABOUT_THREAD]);
#endif
