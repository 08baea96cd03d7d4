/* The smallest program that traces itself: first DIR. Its ring is so small that it is full for the ninth record. */
#include <tracerd_events.h>

#define EVENTS(E) E(queue_push, 3, (u32, worker), (u64, depth)) E(queue_empty, 4)
TRACERD_EVENTS(EVENTS)

int main(int count, char **words) {
    tracerd_session *session;
    tracerd_producer *producer;
    uint64_t archive;
    if (count != 2 || tracerd_new(&session, "app", NULL, 0, TRACERD_LOCAL) ||
        tracerd_declare(session, tracerd_declarations, NULL) || tracerd_channel(session, "main", 256, 2, TRACERD_DISCARD) ||
        tracerd_producer_new(session, "main", &producer) || tracerd_start(session, tracerd_now_of(session)))
        return 1;
    for (uint64_t depth = 0; depth < 9; depth++)
        TRACERD_EVENT(queue_push, producer, 2, depth);
    TRACERD_EVENT(queue_empty, producer);
    if (tracerd_rotate(session, tracerd_now_of(session), &archive) || tracerd_write(session, archive, words[1]))
        return 1;
    tracerd_free(session);
    return 0;
}
