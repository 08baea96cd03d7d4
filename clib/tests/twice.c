/* The shared object is loaded twice, under two names, and a session recorded by each at once: neither sees the other.
 *
 *     twice ONE.so OTHER.so     two copies of it */
#include "testing.h"
#include <dlfcn.h>

typedef struct {
    __typeof__(tracerd_new) *make;
    __typeof__(tracerd_free) *free;
    __typeof__(tracerd_channel) *channel;
    __typeof__(tracerd_producer_new) *producer_new;
    __typeof__(tracerd_start) *start;
    __typeof__(tracerd_offer) *offer;
    __typeof__(tracerd_counts_sum) *counts;
    tracerd_session *session;
    tracerd_producer *producer;
} library;

static void *named(void *object, const char *name) {
    void *found = dlsym(object, name);
    is(found != NULL);
    if (!found) exit(1);
    return found;
}

static library loaded(const char *path) {
    void *object = dlopen(path, RTLD_NOW | RTLD_LOCAL);
    if (!object) printf("%s\n", dlerror()), exit(1);
    library it;
    *(void **)&it.make = named(object, "tracerd_new");
    *(void **)&it.free = named(object, "tracerd_free");
    *(void **)&it.channel = named(object, "tracerd_channel");
    *(void **)&it.producer_new = named(object, "tracerd_producer_new");
    *(void **)&it.start = named(object, "tracerd_start");
    *(void **)&it.offer = named(object, "tracerd_offer");
    *(void **)&it.counts = named(object, "tracerd_counts_sum");
    answers(OK, it.make(&it.session, "s", ONE, 0, TRACERD_LOCAL));
    answers(OK, it.channel(it.session, "c", 256, 2, TRACERD_DISCARD));
    answers(OK, it.producer_new(it.session, "c", &it.producer));
    return it;
}

int main(int count, char **words) {
    if (count != 3) return 2;
    library both[] = {loaded(words[1]), loaded(words[2])};
    tracerd_offered o;
    tracerd_counts c;
    is(both[0].make != both[1].make);
    answers(OK, both[1].start(both[1].session, 0));
    answers(INACTIVE, both[0].offer(both[0].producer, 0, 1, "a", 1, &o));
    answers(OK, both[0].start(both[0].session, 0));
    for (uint64_t k = 0; k < 6; k++) {
        answers(OK, both[k % 3 == 0].offer(both[k % 3 == 0].producer, k, 1, "a", 1, &o));
        is(o.serial == (k % 3 == 0 ? k / 3 : k - k / 3 - 1));
    }
    for (int i = 0; i < 2; i++) {
        answers(OK, both[i].counts(both[i].session, &c));
        is(c.offered == (i ? 2 : 4) && c.in_ring == c.offered);
        both[i].free(both[i].session);
    }
    counts_as_one();
    return closing();
}
