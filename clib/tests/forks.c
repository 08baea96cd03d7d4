/* A child of fork of a program that records and drains: its tracepoints are off, what it has of the parent's is closed, and no
 * call waits. A session of its own records. The parent's goes on.
 *
 *     forks CHILDREN DIR     a folder that is there, in which files are written
 */
#include "testing.h"
#include <signal.h>
#include <sys/wait.h>
#include <unistd.h>

static const char *dir;
static tracerd_session *session, *shown;
static tracerd_producer *producer, *looked_at;

static void opens(tracerd_session **s, tracerd_producer **p, tracerd_kind kind) {
    answers(OK, tracerd_new(s, "s", ONE, 0, kind));
    answers(OK, tracerd_channel(*s, "c", 65536, 16, TRACERD_OVERWRITE));
    answers(OK, tracerd_producer_new(*s, "c", p));
    answers(OK, tracerd_start(*s, 0));
}

/* Everything of the parent's is closed; what has its own answer says that, and no result is written. */
static void finds_all_closed(tracerd_session *s, tracerd_producer *p) {
    tracerd_offered o = {.serial = 99};
    tracerd_counts c = {.offered = 99};
    tracerd_fate f = {.place = 99};
    tracerd_cause cause = TRACERD_SIZE;
    tracerd_producer *other = NULL;
    tracerd_about about = {.archives = 99};
    tracerd_archive archive = {.bytes = 99};
    char name[TRACERD_ARCHIVE_NAME] = "none";
    uint64_t n = 99;
    is(!p->active);
    TRACERD_TRACE(p, 1, "x", 1);
    answers(CLOSED, tracerd_trace(p, 1, "x", 1));
    answers(CLOSED, tracerd_offer(p, 0, 1, "x", 1, &o));
    answers(CLOSED, tracerd_counts_of(p, &c));
    answers(CLOSED, tracerd_fate_of(p, 0, &f));
    answers(CLOSED, tracerd_counts_sum(s, &c));
    answers(CLOSED, tracerd_about_of(s, &about));
    answers(CLOSED, tracerd_archive_of(s, 0, &archive));
    answers(CLOSED, tracerd_archive_name(s, 0, name));
    answers(CLOSED, tracerd_settle(s, &c, &n));
    answers(CLOSED, tracerd_channel(s, "d", 256, 2, TRACERD_OVERWRITE));
    answers(CLOSED, tracerd_producer_new(s, "c", &other));
    answers(CLOSED, tracerd_declare(s, "event 1", &n));
    answers(CLOSED, tracerd_record_refused(s));
    answers(CLOSED, tracerd_start(s, 0));
    answers(CLOSED, tracerd_stop(s));
    answers(CLOSED, tracerd_drain(s, &n));
    answers(CLOSED, tracerd_drainer_start(s, 1));
    answers(NOT_DRAINING, tracerd_drainer_stop(s));
    answers(CLOSED, tracerd_rotate(s, 0, &n));
    answers(CLOSED, tracerd_rotate_on(s, &n));
    answers(CLOSED, tracerd_schedule(s, 1, 1));
    answers(CLOSED, tracerd_tick(s, 0, &cause, &n));
    answers(CLOSED, tracerd_clear(s, &n));
    answers(CLOSED, tracerd_write(s, 0, dir));
    answers(CLOSED, tracerd_release(s, 0));
    answers(CLOSED, tracerd_forget(s, 0));
    answers(CLOSED, tracerd_snapshot(s, 0, dir));
    answers(CLOSED, tracerd_producer_done(p));
    is(o.serial == 99 && c.offered == 99 && f.place == 99 && cause == TRACERD_SIZE && n == 99 && !other);
    is(about.archives == 99 && archive.bytes == 99 && !strcmp(name, "none"));
    tracerd_free(s);
}

static void records_its_own(void) {
    tracerd_session *s;
    tracerd_producer *p;
    tracerd_offered o;
    tracerd_audited a;
    uint64_t n;
    opens(&s, &p, TRACERD_LOCAL);
    answers(OK, tracerd_drainer_start(s, 100000));
    for (uint64_t k = 0; k < 100; k++) answers(OK, tracerd_offer(p, k, 1, &k, sizeof k, &o));
    answers(OK, tracerd_drainer_stop(s));
    answers(OK, tracerd_rotate(s, 100, &n));
    answers(OK, tracerd_write(s, n, dir));
    answers(OK, tracerd_audit(dir, "s", "c", 0, ONE, &a));
    is(a.records == 100);
    tracerd_free(s);
}

/* How a child ended: 0 if all was so. One that waits for ever is ended by its alarm. */
static int child(int number) {
    int status = 0;
    pid_t it = fork();
    if (!it) {
        alarm(10);
        finds_all_closed(session, producer);
        finds_all_closed(shown, looked_at);
        if (number % 100 == 0) records_its_own();
        fflush(stdout);
        _exit(wrong != 0);
    }
    is(it > 0 && waitpid(it, &status, 0) == it);
    return status;
}

int main(int count, char **words) {
    tracerd_counts c;
    uint64_t offered = 0;
    if (count != 3) return 2;
    dir = words[2];
    opens(&session, &producer, TRACERD_LOCAL);
    opens(&shown, &looked_at, TRACERD_SNAPSHOT);
    answers(OK, tracerd_drainer_start(session, 50000)); /* its locks are often held when the program forks */
    for (int left = atoi(words[1]); left; left--) {
        for (int k = 0; k < 1000; k++, offered++) TRACERD_TRACE(producer, 1, "a function that traces itself", 29);
        is(child(left) == 0);
    }
    answers(OK, tracerd_counts_of(producer, &c));
    is(c.offered == offered && producer->active);
    answers(OK, tracerd_drainer_stop(session));
    tracerd_free(session);
    tracerd_free(shown);
    counts_as_one();
    return closing();
}
