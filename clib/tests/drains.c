/* Drains, and the library's drainer: what it takes and when it sleeps, and that it leaves the program's signals alone.
 *
 *     drains */
#include "sessions.h"
#include <errno.h>
#include <pthread.h>
#include <sched.h>
#include <signal.h>
#include <stdatomic.h>
#include <stdbool.h>
#include <time.h>
#include <unistd.h>

static const uint64_t HOUR = 3600000000000;

static volatile sig_atomic_t handled;

static void handle(int signal) { handled = signal; }

/* ---- A wall clock that is set ---- */

static bool is_set;      /* far back */
static atomic_int asked; /* how often clocks were read meanwhile */

int __real_clock_gettime(clockid_t clock, struct timespec *now);
int __wrap_clock_gettime(clockid_t clock, struct timespec *now);

int __wrap_clock_gettime(clockid_t clock, struct timespec *now) {
    asked += is_set;
    if (!is_set || clock != CLOCK_REALTIME) return __real_clock_gettime(clock, now);
    *now = (struct timespec){1000000000, 0};
    return 0;
}

/* ---- */

/* What a snapshot session refuses of a drainer it refuses before it has a stream, too. */
static void drains_no_snapshots(void) {
    tracerd_session *s;
    uint64_t n;
    answers(OK, tracerd_new(&s, "bare", ONE, 0, TRACERD_SNAPSHOT));
    answers(SNAPSHOT_MODE, tracerd_drain(s, &n));
    answers(SNAPSHOT_MODE, tracerd_drainer_start(s, 1));
    tracerd_free(s);
}

/* A ring of eight sub-buffers, each with room for one record of 152 bytes: the last one is the current one. */
static tracerd_session *with_eight(tracerd_producer **p) {
    tracerd_session *s;
    answers(OK, tracerd_new(&s, "s", ONE, 0, TRACERD_LOCAL));
    answers(OK, tracerd_channel(s, "e", 256, 8, TRACERD_DISCARD));
    answers(OK, tracerd_producer_new(s, "e", p));
    answers(OK, tracerd_start(s, 0));
    return s;
}

static void has(tracerd_producer *p, uint64_t in_ring, uint64_t in_chunks) {
    tracerd_counts c;
    answers(OK, tracerd_counts_of(p, &c));
    is(c.in_ring == in_ring && c.in_chunks == in_chunks);
}

static void takes_all_that_is_closed(void) {
    tracerd_producer *p;
    uint64_t n = 99;
    tracerd_session *s = with_eight(&p);
    answers(OK, tracerd_drain(s, &n));
    is(n == 0);
    for (uint64_t k = 0; k < 6; k++) is_stored(p, k, 152, k, k);
    answers(OK, tracerd_drain(s, &n));
    is(n == 5);
    has(p, 1, 5);
    tracerd_free(s);
}

/* How many records a producer has in chunks, once it is so many, or after five seconds. */
static uint64_t drained(tracerd_producer *p, uint64_t wanted) {
    tracerd_counts c = {0};
    for (int k = 0; k < 5000 && c.in_chunks < wanted; k++) {
        nanosleep(&(struct timespec){0, 1000000}, NULL);
        answers(OK, tracerd_counts_of(p, &c));
    }
    return c.in_chunks;
}

/* The drainer sleeps for its period by the steady clock, whatever the wall clock says. */
static void sleeps_between_rounds(void) {
    tracerd_producer *p;
    tracerd_session *s = with_eight(&p);
    is_set = true;
    asked = 0;
    answers(OK, tracerd_drainer_start(s, HOUR));
    while (!asked) sched_yield(); /* it asks when its first round is over */
    for (uint64_t k = 0; k < 3; k++) is_stored(p, k, 152, k, k);
    nanosleep(&(struct timespec){0, 50000000}, NULL); /* by then another round would be over */
    has(p, 3, 0);
    answers(OK, tracerd_drainer_stop(s));
    has(p, 1, 2);
    answers(OK, tracerd_drainer_start(s, 1000000));
    while (asked < 2) sched_yield();
    is_stored(p, 3, 152, 3, 3);
    is(drained(p, 3) == 3);
    answers(OK, tracerd_drainer_stop(s));
    is_set = false;
    tracerd_free(s);
}

static void drains_by_itself(tracerd_session *s, tracerd_producer *p) {
    tracerd_counts c;
    uint64_t n;
    answers(NOT_DRAINING, tracerd_drainer_stop(s));
    answers(ZERO_PERIOD, tracerd_drainer_start(s, 0));
    answers(NOT_DRAINING, tracerd_drainer_stop(s));
    answers(OK, tracerd_start(s, 0));
    answers(OK, tracerd_producer_done(p));
    for (int round = 0; round < 2; round++) {
        answers(OK, tracerd_drainer_start(s, round ? 1000000 : UINT64_MAX));
        answers(DRAINING, tracerd_drainer_start(s, 1000000));
        answers(DRAINING, tracerd_settle(s, &c, &n));
        answers(OK, tracerd_drainer_stop(s));
    }
    answers(OK, tracerd_settle(s, &c, &n));
    answers(OK, tracerd_drainer_start(s, 1000000)); /* which the session's end ends */
}

/* The drainer's thread handles no signal of the program's, though it began when none was blocked. */
static void leaves_signals_alone(tracerd_session *s, tracerd_producer *p) {
    sigset_t one;
    (void)p;
    sigemptyset(&one);
    sigaddset(&one, SIGUSR1);
    signal(SIGUSR1, handle);
    handled = 0;
    answers(OK, tracerd_drainer_start(s, UINT64_MAX));
    is(!pthread_sigmask(SIG_BLOCK, &one, NULL) && !kill(getpid(), SIGUSR1));
    nanosleep(&(struct timespec){0, 50000000}, NULL); /* by then another thread would have handled it */
    is(sigtimedwait(&one, NULL, &(struct timespec){5, 0}) == SIGUSR1 && !handled);
    is(!pthread_sigmask(SIG_UNBLOCK, &one, NULL));
    answers(OK, tracerd_drainer_stop(s));
}

/* The thread that starts or stops the drainer has its signal mask as before. */
static void leaves_the_mask(tracerd_session *s, tracerd_producer *p) {
    sigset_t mine, now;
    (void)p;
    sigemptyset(&mine);
    sigaddset(&mine, SIGUSR2);
    is(!pthread_sigmask(SIG_BLOCK, &mine, NULL));
    answers(OK, tracerd_drainer_start(s, HOUR));
    is(!pthread_sigmask(SIG_SETMASK, NULL, &now));
    is(sigismember(&now, SIGUSR2) == 1 && sigismember(&now, SIGUSR1) == 0 && sigismember(&now, SIGINT) == 0);
    answers(OK, tracerd_drainer_stop(s));
    is(!pthread_sigmask(SIG_SETMASK, NULL, &now));
    is(sigismember(&now, SIGUSR2) == 1 && sigismember(&now, SIGUSR1) == 0 && sigismember(&now, SIGINT) == 0);
    is(!pthread_sigmask(SIG_UNBLOCK, &mine, NULL));
}

int main(int count, char **words) {
    void (*const alone[])(void) = {drains_no_snapshots, takes_all_that_is_closed, sleeps_between_rounds};
    void (*const with_session[])(tracerd_session *, tracerd_producer *) = {drains_by_itself, leaves_signals_alone,
                                                                           leaves_the_mask};
    if (count != 1) return 2;
    begin(words[0]);
    alarm(60); /* a drainer may not come to its end */
    EACH_ALONE(alone);
    EACH_WITH_SESSION(with_session);
    return closing();
}
