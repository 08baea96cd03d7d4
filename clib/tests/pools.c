/* Pools: what their calls refuse, what the session declares for them, and who may outlive whom; also in a child of fork.
 *
 *     pools DIR [without-children]     a folder that is there, in which files are written */
#include "workers.h"
#include <sched.h>
#include <sys/wait.h>

static tracerd_session *bare(void) {
    tracerd_session *s;
    answers(OK, tracerd_new(&s, "s", ONE, 0, TRACERD_LOCAL));
    answers(OK, tracerd_channel(s, "c", 256, 2, TRACERD_DISCARD));
    return s;
}

/* After each refusal the session has no producer more, and declares nothing. */
static void refuses(void) {
    tracerd_session *s = bare();
    tracerd_pool *p = NULL;
    tracerd_about about;
    answers(ZERO_SIZE, tracerd_pool_new(&p, s, "c", 0));
    answers(TOO_MANY, tracerd_pool_new(&p, s, "c", 1025));
    answers(TOO_MANY, tracerd_pool_new(&p, s, "c", UINT64_MAX));
    answers(NO_CHANNEL, tracerd_pool_new(&p, s, "d", 1));
    answers(BAD_NAME, tracerd_pool_new(&p, s, "1", 1));
    answers(NO_CHANNEL, tracerd_cpu_pool_new(&p, s, "d"));
    answers(OK, tracerd_declare(s, "last 4294967295", NULL));
    answers(EVENT_TAKEN, tracerd_pool_new(&p, s, "c", 1));
    answers(OK, tracerd_declare(s, "thread_end 1", NULL));
    answers(EVENT_TAKEN, tracerd_pool_new(&p, s, "c", 1));
    answers(OK, tracerd_about_of(s, &about));
    is(!p && about.producers == 0);
    answers(OK, tracerd_declare(s, "", NULL));
    answers(OK, tracerd_pool_new(&p, s, "c", 1000));
    tracerd_pool *q = NULL;
    answers(TOO_MANY, tracerd_pool_new(&q, s, "c", 25));
    answers(OK, tracerd_about_of(s, &about));
    is(!q && about.producers == 1000);
    answers(OK, tracerd_pool_new(&q, s, "c", 24));
    answers(OK, tracerd_pool_free(q));
    answers(OK, tracerd_pool_free(p));
    answers(OK, tracerd_start(s, 0));
    answers(ALREADY_STARTED, tracerd_pool_new(&p, s, "c", 1));
    answers(ALREADY_STARTED, tracerd_cpu_pool_new(&p, s, "c"));
    tracerd_free(s);
}

static void declares(tracerd_session *s, const char *text, tracerd_status status, uint64_t wanted, int from) {
    uint64_t line = 99;
    is_status(tracerd_declare(s, text, &line), status, text, __FILE__, from);
    is_so(line == wanted, text, __FILE__, from);
}

/* With a pool three names and ids are taken, and a bad line has the number that it has in the program's text. */
static void reserves_names(void) {
    static char many[1024 * 16];
    size_t size = 0;
    tracerd_session *s = bare();
    tracerd_pool *p;
    answers(OK, tracerd_pool_new(&p, s, "c", 1));
    declares(s, "first 1\nthread_begin 2", TRACERD_EVENT_TAKEN, 2, __LINE__);
    declares(s, "thread_end 2", TRACERD_EVENT_TAKEN, 1, __LINE__);
    declares(s, "\n\nthread_shared 2", TRACERD_EVENT_TAKEN, 3, __LINE__);
    declares(s, "first 4294967293", TRACERD_EVENT_TAKEN, 1, __LINE__);
    declares(s, "first 1\nsecond 4294967294", TRACERD_EVENT_TAKEN, 2, __LINE__);
    declares(s, "first 4294967295", TRACERD_EVENT_TAKEN, 1, __LINE__);
    declares(s, "first 4294967292\nevent", TRACERD_BAD_EVENT, 2, __LINE__);
    declares(s, "first 4294967292", TRACERD_OK, 99, __LINE__);
    for (int k = 1; k <= 1021; k++) size += (size_t)snprintf(many + size, sizeof many - size, "e%d %d\n", k, k);
    declares(s, many, TRACERD_OK, 99, __LINE__);
    strcat(many, "e1022 1022");
    declares(s, many, TRACERD_TOO_MANY_DECLARED, 1022, __LINE__);
    answers(OK, tracerd_pool_free(p));
    tracerd_free(s);
}

/* A comment of so many bytes. */
static char *comment_of(size_t size) {
    char *text = calloc(1, size + 1);
    memset(text, '#', size);
    return text;
}

/* A text has 524,288 bytes at most, with 113 of the three lines of a pool. That it has more is said of its first line. */
static void reserves_bytes(void) {
    char *most = comment_of(524288 - 113), *more = comment_of(524288 - 112);
    tracerd_session *s = bare();
    tracerd_pool *p;
    declares(s, more, TRACERD_OK, 99, __LINE__);
    answers(TOO_MANY_DECLARED, tracerd_pool_new(&p, s, "c", 1));
    declares(s, most, TRACERD_OK, 99, __LINE__);
    answers(OK, tracerd_pool_new(&p, s, "c", 1));
    declares(s, more, TRACERD_TOO_MANY_DECLARED, 1, __LINE__);
    declares(s, most, TRACERD_OK, 99, __LINE__);
    answers(OK, tracerd_pool_free(p));
    tracerd_free(s);
    free(most);
    free(more);
}

/* What the program declares stays declared beside the pool's events, whichever came first, and offers are judged by both. */
static void declares_beside(void) {
    for (int is_before = 0; is_before < 2; is_before++) {
        session = bare();
        if (is_before) answers(OK, tracerd_declare(session, "env hostname web1\none 1 field:u8", NULL));
        answers(OK, tracerd_pool_new(&pool, session, "c", 1));
        if (!is_before) answers(OK, tracerd_declare(session, "env hostname web1\none 1 field:u8", NULL));
        starts();
        answers(OTHER_LAYOUT, tracerd_trace(tracerd_here(pool), 1, "ab", 2));
        answers(OTHER_LAYOUT, tracerd_trace(tracerd_here(pool), TRACERD_THREAD_BEGIN, "name\0tid", 8));
        answers(OTHER_LAYOUT, tracerd_trace(tracerd_here(pool), TRACERD_THREAD_END, "ti", 2));
        answers(OTHER_LAYOUT, tracerd_trace(tracerd_here(pool), TRACERD_THREAD_SHARED, "name", 4));
        answers(OK, tracerd_trace(tracerd_here(pool), 1, "a", 1));
        closes();
    }
}

/* A pool can't go while a thread has one, but for the thread that frees it. */
static void stays_while_it_is_used(void) {
    tracerd_counts c;
    uint64_t stream = 99;
    opens(4096, 2);
    starts();
    worker *a = hired("a");
    prctl(PR_SET_NAME, "main");
    answers(OK, tracerd_trace(tracerd_here(pool), 1, NULL, 0));
    is(records(a, 2) == 1);
    for (int k = 0; k < 2; k++) answers(MISSING, tracerd_pool_free(pool));
    is(records(a, 3) == 1 && a->status == TRACERD_OK);
    answers(MISSING, tracerd_settle(session, &c, &stream));
    is(stream == 0);
    uint32_t me = own_tid(), ta = dismissed(a);
    is_said("begin main %u; 1; end %u; | begin a %u; 2; 3; end %u; ", me, me, ta, ta);
    answers(OK, tracerd_pool_free(pool));
    answers(OK, tracerd_settle(session, &c, &stream));
    tracerd_free(session);
}

/* Once the session is gone a thread's offers are answered CLOSED. It may end later, and so may the pool. */
static void outlives_its_session(void) {
    opens(4096, 1);
    starts();
    worker *a = hired("a"), *b = hired("b");
    records(a, 1);
    tracerd_free(session);
    records(a, 1);
    answers(CLOSED, a->status);
    records(b, 1);
    answers(CLOSED, b->status);
    answers(MISSING, tracerd_pool_free(pool));
    dismissed(a);
    dismissed(b);
    answers(OK, tracerd_pool_free(pool));
}

/* Each of two pools lends its own, and the session keeps what is left when one goes. */
static void has_several(void) {
    opens(4096, 1);
    tracerd_pool *first = pool, *second;
    answers(OK, tracerd_pool_new(&second, session, "c", 1));
    starts();
    is(tracerd_producer_number(tracerd_here(first)) == 0 && tracerd_producer_number(tracerd_here(second)) == 1);
    answers(OK, tracerd_pool_free(first));
    answers(OK, tracerd_trace(tracerd_here(second), 1, NULL, 0));
    tracerd_free(session);
    answers(OK, tracerd_pool_free(second));
}

/* Each processor has one, and nothing is declared or said. */
static void gives_a_processors(void) {
    tracerd_about about;
    cpu_set_t all, one;
    uint64_t count = (uint64_t)sysconf(_SC_NPROCESSORS_CONF), seen = 0;
    session = bare();
    answers(OK, tracerd_cpu_pool_new(&pool, session, "c"));
    answers(OK, tracerd_declare(session, "last 4294967295", NULL));
    answers(OK, tracerd_about_of(session, &about));
    is(about.producers == count && !sched_getaffinity(0, sizeof all, &all));
    starts();
    for (size_t k = 0; k < CPU_SETSIZE; k++) {
        if (!CPU_ISSET(k, &all)) continue;
        CPU_ZERO(&one);
        CPU_SET(k, &one);
        is(!sched_setaffinity(0, sizeof one, &one) && tracerd_producer_number(tracerd_here(pool)) == k % count);
        answers(OK, tracerd_trace(tracerd_here(pool), 1, NULL, 0));
        seen++;
    }
    is(!sched_setaffinity(0, sizeof all, &all) && seen);
    tracerd_counts c;
    answers(OK, tracerd_counts_sum(session, &c));
    is(c.offered == seen && c.shared == 0); /* nothing is lent */
    closes();
}

/* ---- In a child ---- */

static void finds_it_closed(void) {
    tracerd_producer *p = tracerd_here(pool);
    tracerd_counts c;
    tracerd_offered o;
    TRACERD_TRACE(tracerd_here(pool), 1, NULL, 0);
    is(p && !p->active);
    answers(CLOSED, tracerd_trace(p, 1, NULL, 0));
    answers(CLOSED, tracerd_offer(p, 0, 1, NULL, 0, &o));
    answers(CLOSED, tracerd_counts_of(p, &c));
    answers(CLOSED, tracerd_producer_done(p));
    answers(CLOSED, tracerd_pool_free(pool));
    answers(CLOSED, tracerd_pool_new(&pool, session, "c", 1));
    answers(CLOSED, tracerd_cpu_pool_new(&pool, session, "c"));
    tracerd_free(session);
    answers(CLOSED, tracerd_trace(tracerd_here(pool), 1, NULL, 0));
    opens(4096, 1);
    starts();
    answers(OK, tracerd_trace(tracerd_here(pool), 1, NULL, 0));
}

/* The child's thread has what the parent's had, and a pool of its own too: it ends with both. */
static void ends_in_a_child(void) {
    int status = 99;
    opens(4096, 1);
    starts();
    answers(OK, tracerd_trace(tracerd_here(pool), 1, NULL, 0));
    fflush(stdout);
    pid_t it = fork();
    if (!it) {
        alarm(10);
        finds_it_closed();
        fflush(stdout);
        if (wrong) _exit(1);
        pthread_exit(NULL);
    }
    is(it > 0 && waitpid(it, &status, 0) == it && status == 0);
    answers(OK, tracerd_trace(tracerd_here(pool), 2, NULL, 0));
    closes();
}

int main(int count, char **words) {
    void (*const tests[])(void) = {refuses,         reserves_names,         reserves_bytes,
                                   declares_beside, stays_while_it_is_used, outlives_its_session,
                                   has_several,     gives_a_processors};
    if (count != 2 && count != 3) return 2;
    dir = words[1];
    alarm(60); /* a thread may not come to its end */
    for (size_t k = 0; k < sizeof tests / sizeof *tests; k++) {
        tests[k]();
        counts_as_one();
    }
    if (count == 2) {
        ends_in_a_child();
        counts_as_one();
    }
    return closing();
}
