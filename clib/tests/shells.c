/* Listeners that last: noise, clients that are killed, a child of fork, and threads that come and go while a shell asks.
 *
 *     shells DIR ASK [watched]     a folder that is there, in which files are written, and the program tracerd-ask; `watched` if
 *                                  another tool watches, which takes memory and looks into children */
#include "asking.h"
#include <dirent.h>
#include <pthread.h>
#include <stdatomic.h>

enum { LINES = 10000, ASKED = 1000, THREADS = 8 };

/* The test needn't wait for a disk. */
int __wrap_fsync(int file) { return (void)file, 0; }
int __wrap_fdatasync(int file) { return (void)file, 0; }

static void outlives_killed_clients(void) {
    opens_a_door();
    for (int i = 0; i < 50 && !wrong; i++) {
        fflush(stdout);
        pid_t it = fork();
        if (!it) {
            int by = enters();
            while (sends(by, "status s\narchives s\nsta", 23)) continue;
            _exit(1);
        }
        nanosleep(&(struct timespec){0, 2000000}, NULL);
        is(it > 0 && !kill(it, SIGKILL) && waitpid(it, NULL, 0) == it);
    }
    says("archives s", "none\n");
    closes();
}

/* ---- What lasts ---- */

static uint64_t descriptors(void) {
    uint64_t count = 0;
    DIR *it = opendir("/proc/self/fd");
    while (it && readdir(it)) count++;
    if (it) closedir(it);
    return count;
}

/* Whether there are so many within a second: a client sees its end a little before the listener has closed it. */
static bool comes_to(uint64_t wanted) {
    for (int i = 0; i < 1000 && descriptors() != wanted; i++) nanosleep(&(struct timespec){0, 1000000}, NULL);
    return descriptors() == wanted;
}

static uint64_t resident_pages(void) {
    unsigned long all = 0, resident = 0;
    FILE *file = fopen("/proc/self/statm", "r");
    is(file && fscanf(file, "%lu %lu", &all, &resident) == 2);
    if (file) fclose(file);
    return resident;
}

/* Lines of random bytes, some of them made of a line's words. */
static void sends_noise(int count) {
    static const char *const words[] = {"status ", "s ", "--every ", "fate ", "now", "18446744073709551616 ",
                                        "-- ",     "# ", "--size="};
    for (int i = 0; i < count && !wrong; i += 100) {
        int it = enters();
        char line[100 * 64];
        size_t size = 0;
        for (int k = 0; k < 100; k++) {
            if (rand() % 2) size += (size_t)sprintf(line + size, "%s", words[rand() % 9]);
            for (int length = rand() % 20; length; length--) line[size++] = (char)rand();
            line[size++] = '\n';
        }
        is(it >= 0 && sends(it, line, size) && !shutdown(it, SHUT_WR) && reads(it) >= 0);
    }
}

static void does_not_grow(void) {
    uint64_t closed = descriptors();
    opens_a_door();
    uint64_t open = descriptors();
    srand(1);
    sends_noise(LINES / 10);
    uint64_t pages = resident_pages();
    sends_noise(LINES);
    is(comes_to(open) && resident_pages() <= pages + 64);
    says("archives s", "none\n");
    closes();
    is(descriptors() == closed);
}

static void is_closed_in_a_child(void) {
    int status = 99, found = 99, pipes[2];
    opens_a_door();
    int client = enters();
    is(!pipe(pipes));
    is(sends(client, "archives s\n", 11));
    nanosleep(&(struct timespec){0, 100000000}, NULL); /* it is let in */
    fflush(stdout);
    pid_t it = fork();
    if (!it) {
        close(client);
        alarm(20);
        answers(CLOSED, tracerd_listener_stop(listener));
        answers(CLOSED, tracerd_listen(&listener, session, below("child.socket"), NULL));
        tracerd_free(session);
        fflush(stdout);
        (void)!write(pipes[1], &wrong, sizeof wrong);
        for (;;) pause();
    }
    close(pipes[1]);
    is(read(pipes[0], &found, sizeof found) == sizeof found && !found && !close(pipes[0]));
    /* the child's copies keep neither a client nor the path */
    is(!shutdown(client, SHUT_WR) && reads(client) == 5 && !strcmp(said, "none\n"));
    answers(OK, tracerd_listener_stop(listener));
    is(!mode_of(door()) && waitpid(it, &status, WNOHANG) == 0);
    tracerd_free(session);
    opens_a_door();
    says("archives s", "none\n");
    closes();
    is(!kill(it, SIGKILL) && waitpid(it, &status, 0) == it);
}

/* ---- Threads that come and go ---- */

static tracerd_pool *pool;
static atomic_bool is_over;

static void *record(void *unused) {
    for (uint64_t i = 0; i < 200; i++) TRACERD_TRACE(tracerd_here(pool), 1, &i, sizeof i);
    return unused;
}

/* Has threads come and go, until it's over: some at a time, more than the pool has producers. */
static void *come_and_go(void *unused) {
    pthread_t threads[THREADS];
    while (!atomic_load(&is_over)) {
        for (int i = 0; i < THREADS; i++)
            if (pthread_create(&threads[i], NULL, record, NULL)) abort();
        for (int i = 0; i < THREADS; i++) pthread_join(threads[i], NULL);
    }
    return unused;
}

static void opens_a_pool(tracerd_kind kind, const char *folder) {
    answers(OK, tracerd_new(&session, "s", ONE, 0, kind));
    answers(OK, tracerd_channel(session, "c", 4096, 16, kind == TRACERD_LOCAL ? TRACERD_DISCARD : TRACERD_OVERWRITE));
    answers(OK, tracerd_pool_new(&pool, session, "c", 4));
    answers(OK, tracerd_start(session, tracerd_now_of(session)));
    listens(folder);
}

static void frees_the_pool(void) {
    while (tracerd_pool_free(pool) == TRACERD_MISSING) nanosleep(&(struct timespec){0, 1000000}, NULL);
    closes();
}

/* Asks so many times these lines while threads come and go, and has each answer judged. */
static void asks_meanwhile(int times, const char *lines, void (*judges)(void)) {
    pthread_t others;
    atomic_store(&is_over, false);
    is(!pthread_create(&others, NULL, come_and_go, NULL));
    for (int i = 0; i < times && !wrong; i++) {
        int it = enters();
        is(it >= 0 && sends(it, lines, strlen(lines)) && !shutdown(it, SHUT_WR) && reads(it) > 0);
        judges();
    }
    atomic_store(&is_over, true);
    pthread_join(others, NULL);
}

static void is_all_done(void) {
    is(!strncmp(said, "archived ", 9) && !strstr(said, "refused") && !strstr(said, "not written"));
    is(strstr(said, "session s local active channels 1 streams 4 ") != NULL);
}

/* How many records the archives below a folder have. */
static uint64_t records_below(const char *folder) {
    uint64_t records = 0;
    for (uint64_t stream = 0; stream < 4; stream++) {
        tracerd_audited a = {0};
        answers(OK, tracerd_audit(folder, "s", "c", stream, ONE, &a));
        records += a.records;
    }
    return records;
}

static void answers_beside_threads(void) {
    tracerd_counts c = {0};
    opens_a_pool(TRACERD_LOCAL, below("crowd"));
    asks_meanwhile(ASKED / 4, "rotate s now\nstatus s\nfate s 3 9\narchives s\n", is_all_done);
    is(asks((const char *const[]){"stop s", "rotate s now", NULL}) == 0);
    answers(OK, tracerd_counts_sum(session, &c));
    is(c.offered > 0 && c.offered == c.discarded + c.in_chunks && records_below(below("crowd")) == c.in_chunks);
    frees_the_pool();
}

/* What a snapshot says of each stream is what its files have. */
static void is_as_written(void) {
    char folder[64], *end = strchr(said, '\n');
    uint64_t records = 0, one;
    is(!strncmp(said, "snapshot ", 9) && !strstr(said, "not written") && strlen(said) < sizeof said - 1);
    snprintf(folder, sizeof folder, "shot/snapshot-%.*s", (int)(end - said - 9), said + 9);
    for (const char *at = said; (at = strstr(at, "\nstream ")); at++)
        if (sscanf(at, "\nstream %*u offered %*u packets %*u records %" SCNu64, &one) == 1) records += one;
    is(records_below(below(folder)) == records);
}

static void shows_beside_threads(void) {
    opens_a_pool(TRACERD_SNAPSHOT, below("shot"));
    asks_meanwhile(ASKED / 20, "snapshot s now\n", is_as_written);
    frees_the_pool();
}

int main(int count, char **words) {
    void (*const tests[])(void) = {outlives_killed_clients, answers_beside_threads, shows_beside_threads, does_not_grow,
                                   is_closed_in_a_child};
    if (count != 3 && count != 4) return 2;
    dir = words[1];
    ask_program = words[2];
    alarm(count == 4 ? 400 : 100); /* under valgrind all takes ten times as long */
    for (size_t k = 0; k < sizeof tests / sizeof *tests - (count == 4 ? 2 : 0); k++) {
        tests[k]();
        counts_as_one();
    }
    return closing();
}
