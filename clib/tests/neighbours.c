/* Sessions whose rings lie in files come and go beside others, which give their pages back at that moment: ThreadSanitizer sees
 * whoever reads what is another's.
 *
 *     neighbours DIR     a folder that is there, in which files are made */
#include "turns.h"
#include <pthread.h>

enum { THREADS = 3, ROUNDS = 60, RECORDS = 16 };

static const char *dir;

/* A session that comes and goes: each record fills a sub-buffer, which becomes a packet and is cleared. */
static void record_once(const char *file) {
    static const char payload[150] = "some bytes";
    tracerd_session *s;
    tracerd_producer *p;
    uint64_t packets, records;
    MUST(tracerd_new(&s, "s", ONE, 0, TRACERD_LOCAL));
    MUST(tracerd_rings_in(s, file));
    MUST(tracerd_channel(s, "c", 256, 2, TRACERD_DISCARD));
    MUST(tracerd_producer_new(s, "c", &p));
    MUST(tracerd_start(s, 0));
    for (int i = 0; i < RECORDS; i++) {
        MUST(tracerd_trace(p, 1, payload, sizeof payload));
        MUST(tracerd_drain(s, &packets));
        MUST(tracerd_clear(s, &records));
        must_be(records == 1, "a record is cleared");
    }
    tracerd_free(s);
}

static void *come_and_go(void *name) {
    char file[4200];
    snprintf(file, sizeof file, "%s/%s", dir, (const char *)name);
    for (int i = 0; i < ROUNDS; i++) record_once(file);
    return NULL;
}

int main(int count, char **words) {
    static char names[THREADS][2] = {"a", "b", "c"};
    pthread_t threads[THREADS];
    if (count != 2) return 2;
    dir = words[1];
    for (int i = 0; i < THREADS; i++) is(!pthread_create(&threads[i], NULL, come_and_go, names[i]));
    for (int i = 0; i < THREADS; i++) is(!pthread_join(threads[i], NULL));
    counts_as_one();
    return closing();
}
