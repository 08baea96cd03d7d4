/* Records by libtracerd until it is killed, with its rings in a file.
 *
 *     clib_kills RETURNED RINGS     the files of kills.h and of tracerd_rings_in */
#include "kills.h"
#include <tracerd_events.h>

#define EVENTS(E) E(made, 7, (u32, thread), (u64, number), (u64, check), (u64, rest))
TRACERD_EVENTS(EVENTS)

static void must(tracerd_status status) {
    if (status == TRACERD_OK) return;
    fprintf(stderr, "clib_kills: %s\n", tracerd_status_name(status));
    exit(1);
}

static inline void record(const thread *it, uint64_t number) {
    must(tracerd_trace_made(it->by, it->number, number, number * 3, 0));
}

int main(int count, char **words) {
    static thread threads[THREADS];
    tracerd_session *session;
    tracerd_producer *producer;
    if (count != 3) return 2;
    must(tracerd_new(&session, "kills", NULL, 0, TRACERD_SNAPSHOT));
    must(tracerd_rings_in(session, words[2]));
    must(tracerd_declare(session, tracerd_declarations, NULL));
    must(tracerd_channel(session, "c", 131072, 64, TRACERD_OVERWRITE));
    for (int i = 0; i < THREADS; i++) {
        must(tracerd_producer_new(session, "c", &producer));
        threads[i].by = producer;
    }
    must(tracerd_start(session, tracerd_now_of(session)));
    make_all(threads, words[1]);
}
