/* Offers that threads are refused which a pool lends its producers, and which a keeper has on disk: as archives have them.
 *
 *     refusers DIR     a folder that is there, in which files are written */
#include "refusing.h"
#include <pthread.h>
#include <time.h>

static tracerd_pool *pool;

/* ---- Threads ---- */

static void is_taken(void) { answers(OK, tracerd_trace(tracerd_here(pool), 7, NULL, 0)); }

static void is_refused(void) { answers(TOO_BIG, tracerd_trace(tracerd_here(pool), 7, letters, 153)); }

static void *records_and_is_refused(void *nothing) {
    is_taken();
    is_refused();
    is_refused();
    return nothing;
}

static void *is_refused_and_records(void *nothing) {
    is_refused();
    is_taken();
    return nothing;
}

static void lives(void *(*run)(void *)) {
    pthread_t thread;
    is(!pthread_create(&thread, NULL, run, NULL) && !pthread_join(thread, NULL));
}

static void tell_of_threads(void *with, const record *it) {
    char *said = with, *end = said + strlen(said);
    if (it->id == TRACERD_OFFERS_REFUSED)
        sprintf(end, "refused %s; ", refused_of(it));
    else
        strcat(said, it->id == TRACERD_THREAD_BEGIN    ? "begin; "
                     : it->id == TRACERD_THREAD_END    ? "end; "
                     : it->id == TRACERD_THREAD_SHARED ? "shared; "
                                                       : "7; ");
}

static void opens_a_pool(void) {
    answers(OK, tracerd_new(&s, "s", ONE, 0, TRACERD_LOCAL));
    answers(OK, tracerd_channel(s, "c", 256, 16, TRACERD_DISCARD));
    answers(OK, tracerd_pool_new(&pool, s, "c", 1));
    answers(OK, tracerd_record_refused(s));
    answers(OK, tracerd_start(s, tracerd_now_of(s)));
}

/* The pool's stream says this, after its one thread that is left has given back its producer. */
static void closes_and_said(const char *name, const char *wanted, uint64_t shared) {
    char said[4096] = "";
    tracerd_counts c;
    uint64_t archive = 99;
    answers(OK, tracerd_pool_free(pool));
    answers(OK, tracerd_rotate(s, tracerd_now_of(s), &archive));
    answers(OK, tracerd_write(s, archive, below(name)));
    each_record(file_of(s, below(name), archive, 0), tell_of_threads, said);
    is_so(!strcmp(said, wanted), said, __FILE__, __LINE__);
    answers(OK, tracerd_counts_sum(s, &c));
    is(c.shared == shared);
    tracerd_free(s);
}

/* What a thread was refused is said before its end, so it's of that thread. */
static void says_it_before_the_end(void) {
    opens_a_pool();
    lives(records_and_is_refused);
    lives(is_refused_and_records);
    closes_and_said("ends", "begin; 7; refused 0,2,0,0,0; end; begin; refused 0,3,0,0,0; 7; end; ", 0);
}

/* Threads that share a producer have one sum. Shared are what the second thread said and recorded, with what was refused. */
static void sums_what_is_shared(void) {
    opens_a_pool();
    is_taken();
    is_refused();
    lives(is_refused_and_records);
    is_refused();
    closes_and_said("shared", "begin; 7; shared; refused 0,2,0,0,0; 7; end; refused 0,3,0,0,0; end; ", 4);
}

/* ---- A keeper ---- */

typedef struct {
    uint64_t last[5], records, said;
} sums;

/* Sums never fall. */
static void follow(void *with, const record *it) {
    sums *of = with;
    of->records++;
    if (it->id != TRACERD_OFFERS_REFUSED) return;
    is(it->size == 40);
    for (size_t k = 0; k < 5; k++) {
        uint64_t sum = number_at(it->payload + 8 * k, 8);
        is(sum >= of->last[k]);
        of->last[k] = sum;
    }
    of->said++;
}

static void offers_and_is_refused(void) {
    for (uint64_t k = 0; k < 20000; k++) {
        uint64_t now = tracerd_now_of(s);
        tracerd_status status = k % 3 == 0    ? offers(now, 7, 200)
                                : k % 7 == 0  ? offers(PAST_ALL, 7, 8)
                                : k % 11 == 0 ? offers(now, 3, 5)
                                              : offers(now, 3, 4);
        is(status == TRACERD_OK ? k % 3 && k % 7 && k % 11 : !(k % 3 && k % 7 && k % 11));
        if (k % 100 == 0) nanosleep(&(struct timespec){0, 1000000}, NULL); /* for the keeper */
    }
}

/* Whatever archives and full rings come between, the last one on disk has the producer's sums. */
static void is_kept(void) {
    tracerd_keeper *keeper;
    tracerd_counts c;
    tracerd_about about;
    sums found = {0};
    char folder[4096];
    answers(OK, tracerd_new(&s, "s", ONE, 0, TRACERD_LOCAL));
    answers(OK, tracerd_channel(s, "c", 256, 64, TRACERD_DISCARD));
    answers(OK, tracerd_record_refused(s));
    answers(OK, tracerd_producer_new(s, "c", &p));
    answers(OK, tracerd_declare(s, "job 3 worker:u32", NULL));
    answers(OK, tracerd_start(s, tracerd_now_of(s)));
    answers(OK, tracerd_keeper_start(&keeper, s, below("kept"), TRACERD_NEVER, 40000, TRACERD_NEVER));
    snprintf(folder, sizeof folder, "%s", tracerd_keeper_folder(keeper));
    offers_and_is_refused();
    answers(OK, tracerd_keeper_stop(keeper));
    answers(OK, tracerd_about_of(s, &about));
    for (uint64_t k = 0; k < about.archives; k++) each_record(file_of(s, folder, k, 0), follow, &found);
    answers(OK, tracerd_counts_sum(s, &c));
    is(about.archives > 3 && found.said > about.archives);
    is(found.records == c.in_chunks && c.offered == c.in_chunks + c.discarded);
    is(found.last[1] == c.refused_too_big && found.last[2] == c.refused_bad_moment && found.last[4] == c.refused_other_layout);
    is(c.refused_too_big == 6667 && c.refused_bad_moment == 1905 && c.refused_other_layout == 1039);
    is(found.last[0] == 0 && found.last[3] == 0);
    tracerd_free(s);
}

int main(int count, char **words) {
    void (*const tests[])(void) = {says_it_before_the_end, sums_what_is_shared, is_kept};
    if (count != 2) return 2;
    dir = words[1];
    alarm(60); /* a thread may not come to its end */
    for (size_t k = 0; k < sizeof tests / sizeof *tests; k++) {
        tests[k]();
        counts_as_one();
    }
    return closing();
}
