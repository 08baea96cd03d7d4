/* What the C side's files share: a session, its slots, and their locks. Nothing here is proved.
 *
 * Order of locks: `desk`, then one slot's `lock`. A function whose name ends in `_locked` is called while the one that its
 * comment names is held. */
#ifndef SESSION_H
#define SESSION_H
#define _GNU_SOURCE
#include "cells.h"
#include <pthread.h>
#include <semaphore.h>
#include <stdatomic.h>
#include <stdbool.h>
#include <time.h>

enum { STREAMS = 1024, NAME = 64, ABOUT_THREAD = 20 };
enum { APART = 128, SECOND = 1000000000 };
enum { PIECE = 16384 }; /* the most bytes that are copied while a stream is held once */
enum { SUB_BUFFERS = 64 };
enum { OFF, ON, BUSY, KEEPING }; /* the drainer; KEEPING: it is a keeper's */
enum { POOLS = 1, REFUSED = 2 }; /* what the library declares beside the program: events of pools, and offers_refused */
/* What a stream has to say of refused offers: nothing; before the next record; or after it, since there was no room before. */
enum telling { SAID, DUE, HELD };

/* A producer and its stream, in memory that no other slot's thread touches, and that a child of fork finds as zeros: closed,
 * unlocked, and off. */
typedef struct slot {
    _Alignas(APART) tracerd_producer front;
    pthread_mutex_t lock; /* guards what follows, and writes of `front` */
    trc_stream stream;
    struct {
        uint64_t inactive, too_big, bad_moment, spent, other_layout;
    } refused;          /* offers, by why: the payload of offers_refused */
    uint64_t holders;   /* threads to which a pool has lent it */
    uint64_t shared;    /* offers that were accepted while these were several */
    bool is_out;        /* not given back */
    uint8_t telling;    /* a telling; SAID if offers_refused isn't declared */
    bool is_told;       /* it is declared: from the first start on */
    trc_events *events; /* those that are declared, or NULL */
    trc_events *coming; /* while events are declared: those that it will have; the desk guards it */
    uint64_t number;
    uint64_t refused_at;         /* the moment of the last refused offer, or of a start if that is later */
    uint64_t lost;               /* how many records were overwritten or cleared when it last said what was refused */
    uint64_t ahead;              /* the session's; it never changes */
    struct rings *rings;         /* the session's too */
    uint8_t first[ABOUT_THREAD]; /* of a pool: what the thread that it is lent to says first */
    _Atomic uint32_t unsaid;     /* how many bytes that is, or 0 once it is stored; read without the lock */
} slot;

/* A child of fork finds it as zeros too: closed, unlocked, and without producers. */
struct tracerd_session {
    bool is_here; /* false in a child */
    char name[NAME + 1];
    tracerd_kind kind;
    uint8_t uuid[16];
    uint64_t ahead;       /* by how much the wall clock was ahead of CLOCK_MONOTONIC when the session was made */
    pthread_mutex_t desk; /* guards the book, additions of slots, `forgotten`, and `writings` */
    trc_book book;
    trc_events *events;               /* those that are declared, or NULL; the desk guards it, and what follows */
    char *text;                       /* the program's declarations, or NULL */
    unsigned own;                     /* POOLS, REFUSED: what is declared with them */
    struct tracerd_pool *pools;       /* those that lend its producers */
    struct rings *rings;              /* the file in which its rings lie, or NULL; it is there before the first slot */
    slot *_Atomic slots[STREAMS + 1]; /* NULL after the last; read without the desk */
    uint64_t forgotten;               /* archives below this one are */
    struct writing *writings;         /* the calls that write files now */
    pthread_cond_t has_written;       /* one of them has ended */
    _Atomic int drainer;              /* if BUSY what follows is the thread's that starts or stops it */
    struct tracerd_keeper *keeper;    /* for which it drains, or NULL */
    uint64_t period;
    sem_t bell; /* rung, it ends the drainer */
    pthread_t thread;
    _Atomic int listening;             /* OFF or ON; if BUSY what follows is the thread's that starts or stops it */
    struct tracerd_listener *listener; /* or NULL */
};

static inline slot *slot_of(tracerd_producer *producer) { return (slot *)producer; }

/* The slots are gone through from the first to before NULL. One that is added meanwhile may be met or not. */
static inline slot *first_slot(tracerd_session *t) { return atomic_load(&t->slots[0]); }
static inline slot *next_slot(tracerd_session *t, const slot *s) { return atomic_load(&t->slots[s->number + 1]); }

/* Offers a record. The slot is locked. */
static inline tracerd_status offer_locked(slot *s, uint64_t moment, uint32_t id, const void *payload, size_t size,
                                          tracerd_offered *offered) {
    tracerd_status status = trc_stream_offer(&s->stream, moment, id, payload, size, offered);
    if (__builtin_expect(s->holders > 1, 0) && !status)
        s->shared++;
    return status;
}

static inline uint64_t now_by(clockid_t clock) {
    struct timespec now;
    clock_gettime(clock, &now);
    return (uint64_t)now.tv_sec * SECOND + (uint64_t)now.tv_nsec;
}

/* ---- Memory (memory.c) ---- */

/* Zeros that share no cache line with what another thread writes to, for `free`; NULL without memory. */
void *new_apart(size_t size);
/* Pages of zeros, which a child of fork finds as zeros again; NULL without memory. Before Linux 4.14 it finds copies. */
void *new_pages(size_t size);

/* ---- Producers (producers.c) ---- */

/* Makes a lock whose holder has the priority of who waits for it. */
void make_lock(pthread_mutex_t *lock);
/* Adds a producer. The desk is held. */
tracerd_status add_producer_locked(tracerd_session *t, const char *channel, slot **made);
/* Has tracepoints of a producer be passed over, or not, unless it was given back. The slot is locked. */
void set_active_locked(slot *s, bool is_active);
/* Frees a slot with its stream. */
void free_slot(slot *s);

/* ---- What a stream has (accounts.c) ---- */

/* What a slot's stream counts, and what it has of an archive that there is; FORGOTTEN, also if not all streams forgot it. */
tracerd_status ask_counts(slot *s, trc_counts *counts);
tracerd_status ask_part(slot *s, uint64_t archive, trc_part *part);

/* ---- Declared events (declarations.c) ---- */

/* Has *more be another handle of these events, or NULL of NULL. */
tracerd_status share_events(trc_events *events, trc_events **more);
/* Frees a handle, or NULL. */
void free_events(trc_events *events);
/* What the program declares, and of the library's own (POOLS, REFUSED) before it. The desk is held. */
tracerd_status read_with_own_locked(tracerd_session *t, unsigned own, trc_events **events);
/* Has the session declare these events in place of *declared, and its slots with it; or nothing changes. The desk is held. */
tracerd_status declare_locked(tracerd_session *t, trc_events **declared);

/* ---- What was refused (refusals.c) ---- */

/* Counts an offer that is refused. The slot is locked. */
void count_refusal_locked(slot *s, uint64_t moment, tracerd_status why);
/* From this start on a slot's stream says what was refused, also before, if the session has it so. The slot is locked. */
void begin_telling_locked(slot *s, bool is_told, uint64_t moment);
/* Offers a record of a stream that isn't SAID: offers_refused comes before it, if both are accepted. The slot is locked. */
tracerd_status offer_told_locked(slot *s, uint64_t moment, uint32_t id, const void *payload, size_t size,
                                 tracerd_offered *offered);
/* Offers offers_refused if it is due: before the end of a thread. The slot is locked. */
void say_refused_locked(slot *s);
/* Offers it before nothing may come for long, a cut, a stop or a look, also if what was said was overwritten or cleared. So that
 * it isn't discarded a closed sub-buffer is taken first. The slot is locked, and stocked for a take. */
void say_all_refused_locked(slot *s);

/* ---- What files have (contents.c) ---- */

/* Has *text, which is NULL or of malloc, be the metadata's text, for `free`. The desk is held. */
tracerd_status make_metadata_locked(tracerd_session *t, uint8_t **text, uint64_t *size);

/* ---- Pools (pools.c) ---- */

/* Offers what a pool's thread says first, if it isn't stored yet. The slot is locked. */
void say_first_locked(slot *s);
/* Has no pool of a session that goes touch its producers any more. */
void close_pools(tracerd_session *t);

/* ---- Threads of the library's own (drains.c) ---- */

/* Waits for a period from now on. Whether no bell was rung meanwhile. */
bool sleep_for(sem_t *bell, uint64_t period);
/* Makes a thread in which all signals are blocked: they are for the program's own threads. */
bool make_thread(pthread_t *thread, void *(*run)(void *), void *with);
/* Makes the thread that drains each period; false without memory. It is BUSY. */
bool begin_drainer(tracerd_session *t, uint64_t period);
void end_drainer(tracerd_session *t);

/* ---- Keepers (keepers.c) ---- */

/* What the drainer does of a keeper. */
void collect(struct tracerd_keeper *k);
/* Ends a keeper whose session goes, if it has one. */
void end_keeper(tracerd_session *t);

/* ---- Rotations (rotations.c) ---- */

/* Sets when rotations are due: each period if they are timed, at so many bytes if they are by size, or never. */
tracerd_status set_schedule(tracerd_session *t, bool is_timed, uint64_t every, bool is_by_size, uint64_t bytes);

/* ---- Listeners (listeners.c) ---- */

/* Ends the listener of a session that goes, if it has one. */
void end_listener(tracerd_session *t);

/* ---- What is done ahead, so that little is left to do while a slot is locked (ahead.c) ---- */

enum next { TAKE, CUT, LOOK };

/* Makes the pages that a slot's stream lacks for what comes next, and writes to all their memory, while its lock isn't held: so
 * no offer waits for memory. Whether it lacked some. Without memory it may lack them still, and then makes them itself. */
bool stock(slot *s, enum next next);
/* As often as offers make it lack some again, up to a few times. */
void stock_up(slot *s, enum next next);
/* Has the first bytes of a slot's sub-buffers be in the processor's cache, a few at a time, for a call that goes over all of
 * them while the slot is locked. */
void warm(slot *s);
/* Copies what a slot's ring holds, a piece at a time, for a look. */
void copy_ahead(slot *s);
#endif
