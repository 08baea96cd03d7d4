/* Producers are lent to threads, which say so, and given back when these end. */
#include "pools.h"
#include <sched.h>

/* ---- What threads say ---- */

/* Offers it. Whether it is stored. The slot is locked. */
static bool say_locked(slot *s, uint32_t id, const uint8_t *about, uint32_t size) {
    tracerd_offered offered;
    if (!s->front.active)
        return false;
    uint64_t moment = now_by(CLOCK_MONOTONIC) + s->ahead;
    return !offer_locked(s, moment, id, about, size, &offered) && offered.outcome != TRACERD_DISCARDED;
}

void say_first_locked(slot *s) {
    uint32_t size = atomic_load(&s->unsaid);
    if (size && say_locked(s, TRACERD_THREAD_BEGIN, s->first, size))
        atomic_store(&s->unsaid, 0);
}

static void say_first(slot *s) {
    pthread_mutex_lock(&s->lock);
    say_first_locked(s);
    pthread_mutex_unlock(&s->lock);
}

/* From now on the calling thread has a producer for itself. */
static void begin_own(slot *s) {
    pthread_mutex_lock(&s->lock);
    s->holders++;
    atomic_store(&s->unsaid, about_thread(s->first));
    say_first_locked(s);
    pthread_mutex_unlock(&s->lock);
}

/* Has the calling thread say that it shares a producer, which so many threads more have from now on. Whether that is stored. */
static bool say_shared(slot *s, uint64_t more) {
    uint8_t about[ABOUT_THREAD];
    uint32_t size = about_thread(about);
    pthread_mutex_lock(&s->lock);
    s->holders += more;
    bool is_said = say_locked(s, TRACERD_THREAD_SHARED, about, size);
    pthread_mutex_unlock(&s->lock);
    return is_said;
}

/* Whether what a thread says first is stored. */
static bool has_said(const lend *it) {
    return it->manner == SHARED || (it->manner == OWN && !atomic_load_explicit(&it->slot->unsaid, memory_order_relaxed));
}

/* Has the calling thread say its end, if its beginning was stored, and before it what was refused. It has the producer no more
 * then. */
static void say_end(const lend *it) {
    slot *s = it->slot;
    uint32_t tid = number_of_thread();
    pthread_mutex_lock(&s->lock);
    if (has_said(it)) {
        say_refused_locked(s);
        (void)say_locked(s, TRACERD_THREAD_END, (const uint8_t *)&tid, sizeof tid);
    }
    if (it->manner == OWN)
        atomic_store(&s->unsaid, 0);
    s->holders--;
    pthread_mutex_unlock(&s->lock);
}

/* ---- Lending ---- */

void append_locked(tracerd_pool *p, lend *it) {
    it->next = NULL;
    if (p->first)
        p->last->next = it;
    else
        p->first = it;
    p->last = it;
}

/* The longest free one, or one to share, which the calling thread keeps from now on; NULL if it can't. The pool is locked. */
static lend *lend_locked(tracerd_pool *p) {
    lend *it = p->first;
    if (!it)
        it = lend_of(p, UNSAID, p->turn++ % p->count);
    if (pthread_setspecific(p->key, it))
        return NULL;
    if (it->manner == OWN)
        p->first = it->next;
    atomic_fetch_add(&p->out, 1);
    return it;
}

/* Has the calling thread say that it shares one, which so many threads more have from now on; if that isn't stored it says so
 * again. */
static void share(tracerd_pool *p, const lend *unsaid, uint64_t more) {
    if (say_shared(unsaid->slot, more))
        (void)pthread_setspecific(p->key, unsaid->said); /* which takes no memory any more */
}

/* What a thread has without memory to keep one: it says that it shares one, but not twice in turn. Since nothing tells when the
 * thread ends, the producer has several holders from then on. */
static slot *share_unkept(tracerd_pool *p) {
    uint32_t tid = number_of_thread();
    lend *it = lend_of(p, UNSAID, tid % p->count);
    if (atomic_load(&it->told) == tid)
        return it->slot;
    if (say_shared(it->slot, 2))
        atomic_store(&it->told, tid);
    return it->slot;
}

/* Lends one to the calling thread. */
static slot *lend_one(tracerd_pool *p) {
    pthread_mutex_lock(&p->lock);
    const lend *it = lend_locked(p);
    pthread_mutex_unlock(&p->lock);
    if (!it)
        return share_unkept(p);
    if (it->manner == OWN)
        begin_own(it->slot);
    else
        share(p, it, 1);
    return it->slot;
}

/* Has the calling thread say what wasn't stored when it was lent one. */
static slot *say_again(tracerd_pool *p, const lend *it) {
    if (it->slot->front.active && it->manner == OWN)
        say_first(it->slot);
    else if (it->slot->front.active)
        share(p, it, 0);
    return it->slot;
}

static slot *slot_of_processor(tracerd_pool *p) {
    int processor = sched_getcpu();
    return lend_of(p, OWN, processor < 0 ? 0 : (uint32_t)processor % p->count)->slot;
}

tracerd_producer *tracerd_here(tracerd_pool *p) {
    if (!atomic_load_explicit(&p->is_open, memory_order_relaxed))
        return &p->nobody.front;
    if (p->is_by_processor)
        return &slot_of_processor(p)->front;
    const lend *it = pthread_getspecific(p->key);
    if (__builtin_expect(it && has_said(it), 1))
        return &it->slot->front;
    return it ? &say_again(p, it)->front : &lend_one(p)->front;
}

void give_back(void *value) {
    lend *it = value;
    tracerd_pool *p = it->pool;
    if (!p)
        return; /* in a child of fork */
    pthread_mutex_lock(&p->lock);
    if (p->is_open)
        say_end(it);
    if (it->manner == OWN)
        append_locked(p, it);
    pthread_mutex_unlock(&p->lock);
    atomic_fetch_sub(&p->out, 1); /* the last thing: from now on the pool may go */
}
