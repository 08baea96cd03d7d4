/* Each allocation fails in turn, alone, or with all after it until a call is refused: the call is answered NO_MEMORY, nothing is
 * lost by it, the same call then goes through, and in the end all is given back. (A block that isn't made smaller is no want of
 * memory. Nor is one page alone that a drain, a rotation or a snapshot would have made ahead, nor a handle of what a clear or a
 * release has removed, which is then freed at once.) A file that can't be closed wasn't written. Cells' memory lies apart from
 * other threads'.
 *
 *     memory DIR     a folder that is there, in which files are written */
#include "rationed.h"
#include <sched.h>

/* What a call may do without: nothing, one block that it would have made ahead (a page, or room for a list), or all memory. */
enum spared { NOTHING, BLOCK, ALL };

/* Whether a call had no memory, and was answered so; then there is memory again. */
static bool had_no_memory(tracerd_status status, long before, enum spared spared, const char *call, int line) {
    if (refused == before) return false;
    if (status == TRACERD_OK && (spared == ALL || (spared == BLOCK && !is_lasting))) {
        done_without++;
        return false;
    }
    is_status(status, TRACERD_NO_MEMORY, call, __FILE__, line);
    is_lasting = false;
    return true;
}

/* The call goes through, at the second try if an allocation fails at the first. */
#define goes_without(spared, call)                                                                                               \
    do {                                                                                                                         \
        long before = refused;                                                                                                   \
        tracerd_status status = (call);                                                                                          \
        if (had_no_memory(status, before, spared, #call, __LINE__)) status = (call);                                             \
        is_status(status, TRACERD_OK, #call, __FILE__, __LINE__);                                                                \
    } while (0)
#define goes(call) goes_without(NOTHING, call)

/* A rotation for which there is no memory is pending, or not begun. */
static void rotates(tracerd_session *s, uint64_t moment) {
    uint64_t archive, records;
    long before = refused;
    tracerd_status status = tracerd_rotate(s, moment, &archive);
    if (had_no_memory(status, before, BLOCK, "rotate", __LINE__)) {
        status = tracerd_rotate_on(s, &archive);
        if (status == TRACERD_NOT_PENDING)
            status = tracerd_rotate(s, moment, &archive);
        else
            answers(NOT_PENDING, tracerd_rotate_on(s, &archive));
    }
    is_status(status, TRACERD_OK, "rotate", __FILE__, __LINE__);
    answers(OK, tracerd_clear(s, &records));
}

static bool was_pending;

/* While it is pending, nothing but rotate_on goes on, and offers. */
static void meets_the_pending(tracerd_session *s, tracerd_producer *p) {
    tracerd_offered o;
    uint64_t n;
    long before = refused;
    tracerd_status status = tracerd_rotate(s, 20, &n);
    bool is_refused = had_no_memory(status, before, BLOCK, "rotate", __LINE__);
    if (is_refused && tracerd_rotate(s, 21, &n) == TRACERD_ROTATION_PENDING) {
        tracerd_about about;
        was_pending = true;
        answers(OK, tracerd_about_of(s, &about));
        is(about.is_pending == 1 && about.archives == 1);
        answers(ROTATION_PENDING, tracerd_start(s, 21));
        answers(ROTATION_PENDING, tracerd_stop(s));
        answers(ROTATION_PENDING, tracerd_clear(s, &n));
        answers(OK, tracerd_offer(p, 22, 1, "abc", 3, &o));
        answers(OK, tracerd_rotate_on(s, &n));
        is(n == 1);
        return;
    }
    is(status == TRACERD_OK || is_refused);
}

static bool was_half_released;

/* Of an archive that only some streams have released nothing is forgotten. */
static void releases(tracerd_session *s) {
    tracerd_archive archive;
    long before = refused;
    tracerd_status status = tracerd_release(s, 0);
    if (had_no_memory(status, before, ALL, "release", __LINE__)) {
        answers(OK, tracerd_archive_of(s, 0, &archive));
        was_half_released |= archive.is_released;
        uint64_t bytes = archive.bytes;
        answers(HELD, tracerd_forget(s, 1));
        answers(OK, tracerd_archive_of(s, 0, &archive));
        is(archive.bytes == bytes);
        status = tracerd_release(s, 0);
    }
    is_status(status, TRACERD_OK, "release", __FILE__, __LINE__);
}

static void records(const char *dir) {
    tracerd_session *s;
    tracerd_producer *p, *q;
    tracerd_offered o;
    tracerd_counts c;
    tracerd_audited a;
    tracerd_cause cause;
    uint64_t n;
    char forty[40] = "abc", name[TRACERD_ARCHIVE_NAME];
    goes(tracerd_new(&s, "a", ONE, 0, TRACERD_LOCAL));
    goes(tracerd_channel(s, "c", 256, 2, TRACERD_DISCARD));
    goes(tracerd_producer_new(s, "c", &p));
    goes_without(BLOCK, tracerd_declare(s, "forty 1 all:u8[40]\nthree 2 all:u8[3]", NULL));
    goes(tracerd_producer_new(s, "c", &q));
    goes_without(BLOCK, tracerd_declare(s, "all 1 all:bytes", NULL));
    is(tracerd_producer_number(p) == 0 && tracerd_producer_number(q) == 1);
    answers(OK, tracerd_start(s, 0));
    long before = asked;
    for (uint64_t k = 0; k < 8; k++) answers(OK, tracerd_offer(k & 1 ? p : q, k, 1, forty, 40, &o));
    is(asked == before); /* no offer takes memory */
    goes_without(BLOCK, tracerd_drain(s, &n));
    rotates(s, 9);
    goes(tracerd_archive_name(s, 0, name));
    goes(tracerd_write(s, 0, dir));
    goes(tracerd_write(s, 0, dir)); /* and once more, to be compared */
    goes(tracerd_audit(dir, "a", "c", 0, ONE, &a));
    is(a.records == 3 || a.records == 4);
    for (uint64_t k = 0; k < 8; k++) answers(OK, tracerd_offer(k & 1 ? p : q, k, 1, "abc", 3, &o));
    meets_the_pending(s, q);
    releases(s);
    goes(tracerd_forget(s, 1));
    for (uint64_t k = 0; k < 8; k++) answers(OK, tracerd_offer(q, k, 1, "abc", 3, &o));
    goes_without(ALL, tracerd_clear(s, &n));
    answers(OK, tracerd_schedule(s, 1, TRACERD_NEVER));
    before = refused; /* the rings are empty, so that a page is made for nothing */
    if (had_no_memory(tracerd_tick(s, 99, &cause, &n), before, ALL, "tick", __LINE__) &&
        tracerd_rotate_on(s, &n) == TRACERD_NOT_PENDING)
        answers(OK, tracerd_tick(s, 99, &cause, &n));
    answers(OK, tracerd_counts_sum(s, &c));
    is(c.offered == c.discarded + c.overwritten + c.cleared + c.in_ring + c.in_chunks && !c.in_ring);
    tracerd_free(s);
}

static void shows(const char *dir) {
    tracerd_session *s;
    tracerd_producer *p;
    tracerd_offered o;
    tracerd_audited a;
    goes(tracerd_new(&s, "z", ONE, 0, TRACERD_SNAPSHOT));
    goes(tracerd_channel(s, "c", 256, 2, TRACERD_OVERWRITE));
    goes(tracerd_producer_new(s, "c", &p));
    answers(OK, tracerd_start(s, 0));
    for (uint64_t k = 0; k < 20; k++) answers(OK, tracerd_offer(p, k, 1, "abc", 3, &o));
    goes_without(BLOCK, tracerd_snapshot(s, 30, dir));
    goes_without(BLOCK, tracerd_snapshot(s, 30, dir));
    goes(tracerd_audit(dir, "z", "c", 0, ONE, &a));
    is(a.last_serial == 19);
    fails_to_close = true;
    tracerd_status status = tracerd_snapshot(s, 1000000030, dir); /* which has another name */
    is((status == TRACERD_WRITE && errno == EIO) || (status == TRACERD_NO_MEMORY && refused));
    is_lasting = false;
    fails_to_close = false;
    tracerd_free(s);
}

/* What a pool declares, and what the program does before and after; a thread that is lent one asks for no memory. */
static void lends(const char *dir) {
    tracerd_session *s;
    tracerd_pool *p;
    tracerd_counts c;
    (void)dir;
    goes(tracerd_new(&s, "a", NULL, 0, TRACERD_LOCAL));
    goes(tracerd_channel(s, "c", 256, 2, TRACERD_DISCARD));
    goes_without(BLOCK, tracerd_declare(s, "three 1 all:u8[3]", NULL));
    goes_without(BLOCK, tracerd_pool_new(&p, s, "c", 2));
    goes_without(BLOCK, tracerd_declare(s, "four 1 all:u8[4]", NULL));
    answers(OK, tracerd_start(s, 0));
    long before = asked;
    answers(OK, tracerd_trace(tracerd_here(p), 1, "four", 4));
    answers(OTHER_LAYOUT, tracerd_trace(tracerd_here(p), 1, "abc", 3));
    answers(OTHER_LAYOUT, tracerd_trace(tracerd_here(p), 4294967294, "abc", 3));
    is(asked == before);
    answers(OK, tracerd_pool_free(p));
    answers(OK, tracerd_counts_sum(s, &c));
    is(c.offered == 3); /* with what the thread said first and last */
    tracerd_free(s);
}

/* What is refused is recorded without memory too, at the latest when there is some: nothing else is lost by it. */
static void tells(const char *dir) {
    tracerd_session *s;
    tracerd_producer *p;
    tracerd_offered o;
    tracerd_counts c;
    char full[152] = "abc";
    (void)dir;
    goes(tracerd_new(&s, "a", ONE, 0, TRACERD_LOCAL));
    goes(tracerd_channel(s, "c", 256, 2, TRACERD_DISCARD));
    goes_without(BLOCK, tracerd_record_refused(s));
    goes(tracerd_producer_new(s, "c", &p));
    answers(OK, tracerd_start(s, 0));
    for (uint64_t k = 0; k < 2; k++) {
        for (int i = 0; i < 2; i++) answers(OK, tracerd_offer(p, k, 1, full, sizeof full, &o));
        answers(TOO_BIG, tracerd_offer(p, k, 1, full, SIZE_MAX, &o));
        if (!k) rotates(s, 9);
    }
    goes_without(ALL, tracerd_stop(s));
    answers(OK, tracerd_counts_sum(s, &c));
    is(c.offered - c.discarded - c.cleared == c.in_ring + c.in_chunks && c.offered - c.discarded >= 4 && c.refused_too_big == 2);
    tracerd_free(s);
}

/* The drainer is slow at the second stream when a sub-buffer of the first is closed, and ends only after it has taken that. */
static void drains_to_the_last(void) {
    tracerd_session *s;
    tracerd_producer *p, *q;
    tracerd_offered o;
    tracerd_counts c;
    char payload[152] = "abc";
    answers(OK, tracerd_new(&s, "a", ONE, 0, TRACERD_LOCAL));
    answers(OK, tracerd_channel(s, "c", 256, 2, TRACERD_DISCARD));
    answers(OK, tracerd_producer_new(s, "c", &p));
    answers(OK, tracerd_producer_new(s, "c", &q));
    answers(OK, tracerd_start(s, 0));
    answers(OK, tracerd_offer(p, 0, 1, payload, sizeof payload, &o));
    fails_to_create = true;
    answers(NO_MEMORY, tracerd_drainer_start(s, 1));
    answers(NOT_DRAINING, tracerd_drainer_stop(s));
    fails_to_create = false;
    answers(OK, tracerd_drainer_start(s, 1));
    is_slow = true;
    for (int k = 0; k < 2; k++) answers(OK, tracerd_offer(q, 0, 1, payload, sizeof payload, &o));
    while (!is_in_it) sched_yield();
    answers(OK, tracerd_offer(p, 0, 1, payload, sizeof payload, &o));
    answers(OK, tracerd_drainer_stop(s));
    answers(OK, tracerd_counts_of(p, &c));
    is(c.in_ring == 1 && c.in_chunks == 1);
    tracerd_free(s);
}

/* What an offer writes to shares no cache line with what another thread's writes to. */
static void lies_apart(void) {
    tracerd_session *s;
    tracerd_producer *p;
    answers(OK, tracerd_new(&s, "a", ONE, 0, TRACERD_LOCAL));
    answers(OK, tracerd_channel(s, "c", 256, 2, TRACERD_DISCARD));
    answers(OK, tracerd_declare(s, "all 1 all:bytes", NULL)); /* an offer writes to its handle of this too */
    long together_before = together, apart_before = apart;
    for (int k = 0; k < 2; k++) {
        answers(OK, tracerd_producer_new(s, "c", &p));
        is((uintptr_t)p % 128 == 0);
    }
    is(together == together_before && apart > apart_before);
    tracerd_free(s);
}

/* Each run has a folder of its own, so that it writes what it writes anew. */
static const char *own_folder(const char *folder, int lasting) {
    static char path[4200];
    snprintf(path, sizeof path, "%s/%d-%ld", folder, lasting, fails_at);
    return path;
}

int main(int count, char **words) {
    if (count != 2) return 2;
    drains_to_the_last();
    counts_as_one();
    lies_apart();
    counts_as_one();
    for (int lasting = 0; lasting < 2; lasting++) {
        for (void (*const *run)(const char *) = (void (*const[])(const char *)){records, shows, lends, tells, NULL}; *run;
             run++) {
            do {
                asked = refused = shrunk = 0;
                fails_at++;
                is_lasting = lasting;
                (*run)(own_folder(words[1], lasting));
                is(held == 0);
                counts_as_one();
            } while (refused || shrunk);
            fails_at = -1;
        }
    }
    is_lasting = false;
    is(was_pending && was_half_released && done_without && !half_apart);
    counts_as_one();
    return closing();
}
