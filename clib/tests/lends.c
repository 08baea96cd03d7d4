/* Which producer a thread is lent, and what threads say of themselves: read from archives.
 *
 *     lends DIR     a folder that is there, in which files are written */
#include "workers.h"
#include <errno.h>
#include <stdbool.h>

static bool fails_to_keep; /* what a thread has of its own */
int __real_pthread_setspecific(pthread_key_t key, const void *value);
int __wrap_pthread_setspecific(pthread_key_t key, const void *value);

int __wrap_pthread_setspecific(pthread_key_t key, const void *value) {
    return fails_to_keep ? ENOMEM : __real_pthread_setspecific(key, value);
}

/* How many offers a producer, or the session of NULL, counts as shared. */
static uint64_t count_shared(tracerd_producer *p) {
    tracerd_counts c = {0};
    answers(OK, p ? tracerd_counts_of(p, &c) : tracerd_counts_sum(session, &c));
    return c.shared;
}

/* What a thread has is its own until it ends. Then it is lent again, once those were that were free before. */
static void lends_the_longest_free(void) {
    opens(4096, 3);
    starts();
    worker *a = hired("a"), *b = hired("b");
    is(records(a, 1) == 0 && records(b, 2) == 1 && records(a, 3) == 0);
    uint32_t ta = dismissed(a);
    worker *c = hired("c"), *d = hired("d");
    is(records(c, 4) == 2 && records(d, 5) == 0);
    uint32_t tb = dismissed(b), tc = dismissed(c), td = dismissed(d);
    is_said("begin a %u; 1; 3; end %u; begin d %u; 5; end %u; | begin b %u; 2; end %u; | begin c %u; 4; end %u; ", ta, ta, td, td,
            tb, tb, tc, tc);
    worker *e = hired("e");
    is(records(e, 6) == 1); /* they are free since b, c and d ended, in this order */
    uint32_t te = dismissed(e);
    is_said("| begin e %u; 6; end %u; | ", te, te);
    is(count_shared(NULL) == 0);
    closes();
}

/* A thread that finds none free shares one, in turn, until it ends, whoever has it meanwhile. Shared are the offers between the
 * moments at which a second thread has the producer and at which one is left: of the first stream `shared c` to `end a`, which are
 * four, and `begin e` to `end c`, three; of the second one `shared d` to `end b`, three. */
static void shares_in_turn(void) {
    opens(4096, 2);
    starts();
    worker *a = hired("a"), *b = hired("b"), *c = hired("c"), *d = hired("d");
    is(records(a, 1) == 0 && records(b, 2) == 1 && records(c, 3) == 0 && records(d, 4) == 1 && records(c, 5) == 0);
    tracerd_producer *first = a->producer, *second = b->producer;
    is(count_shared(first) == 3 && count_shared(second) == 2 && count_shared(NULL) == 5);
    uint32_t ta = dismissed(a);
    is(count_shared(first) == 4 && records(c, 6) == 0 && count_shared(first) == 4);
    worker *e = hired("e");
    is(records(e, 7) == 0);
    uint32_t tc = dismissed(c), te = dismissed(e), tb = dismissed(b), td = dismissed(d);
    is_said("begin a %u; 1; shared c %u; 3; 5; end %u; 6; begin e %u; 7; end %u; end %u; | "
            "begin b %u; 2; shared d %u; 4; end %u; end %u; ",
            ta, tc, ta, te, tc, te, tb, td, tb, td);
    is(count_shared(first) == 7 && count_shared(second) == 3 && count_shared(NULL) == 10);
    closes();
}

/* While the session is off nothing is said. What a thread says first it says at the start. */
static void says_it_at_the_start(void) {
    tracerd_counts c;
    opens(4096, 1);
    worker *early = hired("early"), *a = hired("a"), *b = hired("b"), *late = hired("late");
    records(early, 1);
    answers(INACTIVE, early->status);
    dismissed(early);
    is(records(a, 2) == 0 && records(b, 3) == 0);
    answers(OK, tracerd_counts_sum(session, &c));
    is(c.offered == 0 && c.refused_inactive == 3);
    starts();
    answers(OK, tracerd_counts_sum(session, &c));
    is(c.offered == 1 && c.refused_inactive == 3);
    records(b, 4);
    records(a, 5);
    answers(OK, tracerd_stop(session));
    uint32_t ta = dismissed(a);
    records(late, 6);
    starts();
    records(b, 7);
    uint32_t tl = dismissed(late), tb = dismissed(b);
    is_said("begin a %u; shared b %u; 4; 5; begin late %u; 7; end %u; end %u; ", ta, tb, tl, tl, tb);
    is(count_shared(NULL) == 7); /* of all eight `end b` alone isn't, and what was refused is none */
    closes();
}

/* Has a thread fill the ring, whose sub-buffers have 176 bytes for records: until one is discarded. */
static void fill(worker *it) {
    tracerd_counts c, before;
    answers(OK, tracerd_counts_sum(session, &before));
    do {
        records(it, 1);
        answers(OK, tracerd_counts_sum(session, &c));
    } while (c.discarded == before.discarded);
}

#define SIX "1; 1; 1; 1; 1; 1; "

/* What isn't stored, since the ring is full, is said again; but not by one that has ended. Records have 24 bytes without a payload,
 * so that one sub-buffer has room for thread_begin and six, the other one for seven. */
static void says_it_again(void) {
    opens(256, 1);
    starts();
    worker *a = hired("a"), *b = hired("b"), *c = hired("c"), *d = hired("d");
    fill(a);
    uint32_t ta = dismissed(a);
    records(b, 2);
    is_said("begin a %u; " SIX SIX "1; ", ta);
    records(b, 3);
    fill(b);
    records(c, 4);
    records(d, 5);
    is_said("begin b %u; 3; " SIX SIX, b->tid);
    records(c, 6);
    uint32_t td = dismissed(d), tc = dismissed(c), tb = dismissed(b);
    is(td != tc);
    is_said("shared c %u; 6; end %u; end %u; ", tc, tc, tb);
    closes();
}

/* A thread's name may have any bytes: those that are no character of UTF-8 (Unicode, table 3-7) or can't be printed are replaced. */
static void shows_any_name(void) {
    static const char *const names[][2] = {
        {"plain", "plain"},
        {"", "?"},
        {"\xff\xfe", "??"},
        {"a\nb\x7f", "a?b?"},
        {"\xd0\xb4\xd0\xbe\xd0\xbc", "\xd0\xb4\xd0\xbe\xd0\xbc"},
        {"1234567890abc\xd0\xb4", "1234567890abc\xd0\xb4"},
        {"1234567890abcd\xd0\xb4", "1234567890abcd?"},
        {"\xc0\xaf\xc1\xbf", "????"},
        {"\xe2\x82\xac", "\xe2\x82\xac"},
        {"\xe2\x82", "??"},
        {"\xe0\x9f\xbf", "???"},
        {"\xed\xa0\x80", "???"},
        {"\xed\x9f\xbf", "\xed\x9f\xbf"},
        {"\xf0\x9f\x98\x80", "\xf0\x9f\x98\x80"},
        {"\xf0\x8f\xbf\xbf", "????"},
        {"\xf4\x90\x80\x80", "????"},
        {"\xf4\x8f\xbf\xbf!", "\xf4\x8f\xbf\xbf!"},
        {"\xf5\x80\x80\x80", "????"},
        {"\x80", "?"},
    };
    opens(4096, 1);
    starts();
    for (size_t k = 0; k < sizeof names / sizeof *names; k++) {
        worker *it = hired(names[k][0]);
        records(it, 1);
        uint32_t tid = dismissed(it);
        is_said("begin %s %u; 1; end %u; ", names[k][1], tid, tid);
    }
    closes();
}

/* Without memory to keep one, a thread shares one and says so, once; and has one of its own when there is memory again. */
static void shares_without_memory(void) {
    opens(4096, 2);
    starts();
    worker *a = hired("a");
    uint64_t stream = a->tid % 2;
    fails_to_keep = true;
    is(records(a, 1) == stream && records(a, 2) == stream);
    fails_to_keep = false;
    is(records(a, 3) == 0 && records(a, 4) == 0);
    uint32_t ta = dismissed(a);
    if (stream)
        is_said("begin a %u; 3; 4; end %u; | shared a %u; 1; 2; ", ta, ta, ta);
    else
        is_said("shared a %u; 1; 2; begin a %u; 3; 4; end %u; | ", ta, ta, ta);
    is(count_shared(NULL) == (stream ? 3 : 7)); /* nothing tells when such a thread ends */
    closes();
}

/* ---- */

static void *wait_for_ever(void *given) {
    worker *it = given;
    prctl(PR_SET_NAME, "waits");
    it->tid = own_tid();
    it->id = 1;
    record_here(it);
    sem_post(&it->done);
    while (it) pause();
    return NULL;
}

static void gives_back_what_is_cancelled(void) {
    worker it = {0};
    opens(4096, 1);
    starts();
    sem_init(&it.done, 0, 0);
    is(!pthread_create(&it.thread, NULL, wait_for_ever, &it));
    while (sem_wait(&it.done)) {}
    is(!pthread_cancel(it.thread) && !pthread_join(it.thread, NULL));
    is_said("begin waits %u; 1; end %u; ", it.tid, it.tid);
    closes();
}

int main(int count, char **words) {
    void (*const tests[])(void) = {lends_the_longest_free, shares_in_turn,        says_it_at_the_start,        says_it_again,
                                   shows_any_name,         shares_without_memory, gives_back_what_is_cancelled};
    if (count != 2) return 2;
    dir = words[1];
    alarm(60); /* a thread may not come to its end */
    for (size_t k = 0; k < sizeof tests / sizeof *tests; k++) {
        tests[k]();
        counts_as_one();
    }
    return closing();
}
