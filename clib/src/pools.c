/* Pools are made and freed. */
#include "pools.h"
#include <sys/mman.h>
#include <unistd.h>

/* ---- What a pool has ---- */

/* Adds a producer's lends. Nobody else has the pool yet. */
static void add_lends(tracerd_pool *p, slot *s) {
    for (enum manner manner = OWN; manner < MANNERS; manner++)
        *lend_of(p, manner, p->made) = (lend){.pool = p, .slot = s, .manner = manner, .said = lend_of(p, SHARED, p->made)};
    append_locked(p, lend_of(p, OWN, p->made));
    p->made++;
}

/* The desk is held. */
static tracerd_status add_producers_locked(tracerd_pool *p, const char *channel) {
    while (p->made < p->count) {
        slot *s;
        tracerd_status status = add_producer_locked(p->session, channel, &s);
        if (status)
            return status;
        add_lends(p, s);
    }
    return TRACERD_OK;
}

static void give_producers_back(tracerd_pool *p) {
    for (uint32_t i = 0; i < p->made; i++)
        (void)tracerd_producer_done(&lend_of(p, OWN, i)->slot->front);
}

/* ---- Pools are made ---- */

/* OK if the session may have so many producers more. The desk is held. */
static tracerd_status ask_room_locked(tracerd_pool *p) {
    trc_about about;
    tracerd_status status = trc_book_about(&p->session->book, &about);
    if (status)
        return status;
    if (about.state != TRC_NEW)
        return TRACERD_ALREADY_STARTED;
    return about.streams + p->count > STREAMS ? TRACERD_TOO_MANY : TRACERD_OK;
}

/* Adds the producers, and has the session declare what threads say. The desk is held. */
static tracerd_status fill_declared_locked(tracerd_pool *p, const char *channel) {
    trc_events *events;
    tracerd_status status = read_with_own_locked(p->session, p->session->own | POOLS, &events);
    if (status)
        return status;
    status = add_producers_locked(p, channel);
    if (!status)
        status = declare_locked(p->session, &events);
    free_events(events);
    if (!status)
        p->session->own |= POOLS;
    return status;
}

/* Fills a pool, and gives it to its session. The desk is held. */
static tracerd_status fill_locked(tracerd_pool *p, const char *channel) {
    tracerd_status status = ask_room_locked(p);
    if (!status)
        status = p->is_by_processor ? add_producers_locked(p, channel) : fill_declared_locked(p, channel);
    if (status)
        return status;
    p->next = p->session->pools;
    p->session->pools = p;
    return TRACERD_OK;
}

static tracerd_status open_pool(tracerd_pool *p, const char *channel) {
    if (pthread_key_create(&p->key, give_back))
        return TRACERD_NO_MEMORY;
    pthread_mutex_lock(&p->session->desk);
    tracerd_status status = fill_locked(p, channel);
    pthread_mutex_unlock(&p->session->desk);
    if (!status)
        return TRACERD_OK;
    give_producers_back(p);
    pthread_key_delete(p->key);
    return status;
}

static tracerd_status make_pool(tracerd_pool **pool, tracerd_session *t, const char *channel, uint64_t count,
                                bool is_by_processor) {
    size_t size = sizeof(tracerd_pool) + MANNERS * count * sizeof(lend);
    if (!count)
        return TRACERD_ZERO_SIZE;
    if (count > STREAMS)
        return TRACERD_TOO_MANY;
    tracerd_pool *p = new_pages(size);
    if (!p)
        return TRACERD_NO_MEMORY;
    p->is_open = true;
    p->is_by_processor = is_by_processor;
    p->count = (uint32_t)count;
    p->size = size;
    p->session = t;
    make_lock(&p->lock);
    tracerd_status status = open_pool(p, channel);
    if (status)
        munmap(p, size);
    else
        *pool = p;
    return status;
}

tracerd_status tracerd_pool_new(tracerd_pool **pool, tracerd_session *t, const char *channel, uint64_t count) {
    return make_pool(pool, t, channel, count, false);
}

tracerd_status tracerd_cpu_pool_new(tracerd_pool **pool, tracerd_session *t, const char *channel) {
    long count = sysconf(_SC_NPROCESSORS_CONF);
    return make_pool(pool, t, channel, count > 0 ? (uint64_t)count : 1, true);
}

/* ---- Pools go ---- */

void close_pools(tracerd_session *t) {
    for (tracerd_pool *p = t->pools; p; p = p->next) {
        pthread_mutex_lock(&p->lock); /* a thread that ends may be giving one back */
        p->is_open = false;
        pthread_mutex_unlock(&p->lock);
    }
}

static void leave_session(tracerd_pool *p) {
    tracerd_session *t = p->session;
    pthread_mutex_lock(&t->desk);
    tracerd_pool **at = &t->pools;
    while (*at != p)
        at = &(*at)->next;
    *at = p->next;
    pthread_mutex_unlock(&t->desk);
}

/* Gives back what the calling thread has. */
static void give_back_own(tracerd_pool *p) {
    void *it = pthread_getspecific(p->key);
    if (!it)
        return;
    (void)pthread_setspecific(p->key, NULL);
    give_back(it);
}

tracerd_status tracerd_pool_free(tracerd_pool *p) {
    if (!p->size)
        return TRACERD_CLOSED; /* in a child of fork */
    give_back_own(p);
    if (atomic_load(&p->out))
        return TRACERD_MISSING;
    if (p->is_open) {
        give_producers_back(p);
        leave_session(p);
    }
    pthread_key_delete(p->key);
    munmap(p, p->size);
    return TRACERD_OK;
}
