/* A program that records until it is killed. What became of each offer that has returned is in a file of its own.
 *
 *     killed RINGS RETURNED (snapshot | local)
 *
 * A record has serial * 7 % 60 bytes, each of them serial % 256, and its stream's number as its id. It prints a line when its
 * threads record. A local session's drainer moves what is closed. */
#include "testing.h"
#include <fcntl.h>
#include <pthread.h>
#include <stdatomic.h>
#include <sys/mman.h>
#include <unistd.h>

enum { THREADS = 4, MOST = 1 << 22 };

/* Of each thread: how many offers have returned, and of each of these whether it was discarded. */
typedef struct {
    _Atomic uint64_t returned;
    uint8_t is_discarded[MOST];
} done;

typedef struct {
    tracerd_session *session;
    tracerd_producer *producer;
    done *done;
} recorder;

static void *record(void *given) {
    recorder *r = given;
    const uint32_t id = (uint32_t)tracerd_producer_number(r->producer);
    uint8_t payload[60];
    for (uint64_t serial = 0; serial < MOST; serial++) {
        tracerd_offered offered;
        memset(payload, (int)(serial % 256), sizeof payload);
        if (tracerd_offer(r->producer, tracerd_now_of(r->session), id, payload, serial * 7 % 60, &offered)) abort();
        r->done->is_discarded[serial] = offered.outcome == TRACERD_DISCARDED;
        atomic_store(&r->done->returned, serial + 1);
    }
    pause();
    return NULL;
}

static done *returned_in(const char *path) {
    int file = open(path, O_RDWR | O_CREAT | O_TRUNC, 0600);
    if (file < 0 || ftruncate(file, (off_t)(THREADS * sizeof(done)))) abort();
    return mmap(NULL, THREADS * sizeof(done), PROT_READ | PROT_WRITE, MAP_SHARED, file, 0);
}

int main(int count, char **words) {
    static recorder recorders[THREADS];
    tracerd_session *s;
    pthread_t thread;
    if (count != 4) return 2;
    int is_local = !strcmp(words[3], "local");
    done *all = returned_in(words[2]);
    answers(OK, tracerd_new(&s, "killed", ONE, 0, is_local ? TRACERD_LOCAL : TRACERD_SNAPSHOT));
    answers(OK, tracerd_rings_in(s, words[1]));
    answers(OK, tracerd_channel(s, "c", 4096, 8, is_local ? TRACERD_DISCARD : TRACERD_OVERWRITE));
    for (int i = 0; i < THREADS; i++) {
        recorders[i] = (recorder){s, NULL, &all[i]};
        answers(OK, tracerd_producer_new(s, "c", &recorders[i].producer));
    }
    answers(OK, tracerd_start(s, 0));
    if (is_local) answers(OK, tracerd_drainer_start(s, 1000000));
    for (int i = 0; i < THREADS; i++) is(!pthread_create(&thread, NULL, record, &recorders[i]));
    if (wrong) return 1;
    puts("records");
    fflush(stdout);
    for (;;) pause();
}
