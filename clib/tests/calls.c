/* Each call of tracerd.h does what it says, and each refusal is met but those of memory (tests/memory.c), those of files and
 * audits (tests/files.c), those of the drainer (tests/drains.c), and SPENT: no test meets that, since only 2^62 offers bring a
 * stream there.
 *
 *     calls DIR     a folder that is there, in which files are written
 *
 * Expected values are worked out by hand: a packet has 80 bytes before its records, a record 24 before its payload. */
#include "sessions.h"
#include <errno.h>
#include <unistd.h>

static const uint64_t LAST_MOMENT = 9000000000000000000;

static void has_counts(tracerd_counts c, uint64_t offered, uint64_t discarded, uint64_t overwritten, uint64_t cleared,
                       uint64_t in_ring, uint64_t in_chunks) {
    is(c.offered == offered && c.discarded == discarded && c.overwritten == overwritten && c.cleared == cleared);
    is(c.in_ring == in_ring && c.in_chunks == in_chunks);
}

/* The session of examples/archives.script: the stage compares its archive with the one that the script makes. */
static void records_and_archives(tracerd_session *s, tracerd_producer *p) {
    tracerd_offered o;
    tracerd_counts c;
    tracerd_audited a;
    uint64_t n = 99;
    is(tracerd_producer_number(p) == 0 && !p->active);
    answers(INACTIVE, tracerd_offer(p, 0, 7, "x", 1, &o));
    answers(OK, tracerd_start(s, 0));
    is(p->active == 1);
    for (uint64_t k = 0; k < 4; k++) is_stored(p, k + 1, 50, k, k / 2);
    answers(OK, tracerd_offer(p, 5, 7, letters, 50, &o));
    is(o.outcome == TRACERD_DISCARDED && o.serial == 4 && !o.packet);
    is_stored(p, 6, 4, 5, 1);
    answers(OK, tracerd_drain(s, &n));
    is(n == 1);
    is_at(p, 0, TRACERD_IN_CHUNK, 0, 0);
    is_at(p, 5, TRACERD_IN_RING, 0, 1);
    answers(OK, tracerd_counts_of(p, &c));
    has_counts(c, 6, 1, 0, 0, 3, 2);
    answers(OK, tracerd_rotate(s, 10, &n));
    is(n == 0);
    is_at(p, 4, TRACERD_WAS_DISCARDED, 0, 0);
    is_at(p, 5, TRACERD_IN_CHUNK, 0, 1);
    is_at(p, 6, TRACERD_NOT_OFFERED, 0, 0);
    answers(OK, tracerd_write(s, 0, below("archives")));
    answers(OK, tracerd_audit(below("archives"), "s", "c", 0, ONE, &a));
    is(a.packets == 2 && a.records == 5 && a.absent == 0 && a.discarded == 1 && a.last_packet == 1 && a.last_serial == 5);
    answers(OK, tracerd_counts_sum(s, &c));
    has_counts(c, 6, 1, 0, 0, 0, 5);
    answers(MISSING, tracerd_settle(s, &c, &n));
    is(n == 0);
    answers(OK, tracerd_producer_done(p));
    answers(CLOSED, tracerd_producer_done(p));
    answers(CLOSED, tracerd_offer(p, 11, 7, "x", 1, &o));
    is(!p->active);
    answers(OK, tracerd_settle(s, &c, &n));
    has_counts(c, 6, 1, 0, 0, 0, 5);
    tracerd_free(NULL);
}

static void refuses_what_is_planned_badly(void) {
    tracerd_session *s = (void *)1;
    tracerd_producer *p;
    char name[66] = "a", number[3] = "c0";
    memset(name + 1, 'b', 63);
    answers(BAD_NAME, tracerd_new(&s, "1a", ONE, 0, TRACERD_LOCAL));
    is(s == NULL);
    answers(BAD_OFFSET, tracerd_new(&s, "a", ONE, 1440, TRACERD_LOCAL));
    answers(BAD_OFFSET, tracerd_new(&s, "a", ONE, -1440, TRACERD_LOCAL));
    answers(BAD_MODE, tracerd_new(&s, "a", ONE, 0, (tracerd_kind)2));
    answers(OK, tracerd_new(&s, name, ONE, 1439, TRACERD_LOCAL));
    name[64] = 'b';
    answers(BAD_NAME, tracerd_channel(s, name, 256, 2, TRACERD_DISCARD));
    answers(BAD_NAME, tracerd_channel(s, "", 256, 2, TRACERD_DISCARD));
    answers(BAD_MODE, tracerd_channel(s, "c", 256, 2, (tracerd_mode)2));
    answers(BAD_GEOMETRY, tracerd_channel(s, "c", 300, 2, TRACERD_DISCARD));
    answers(BAD_GEOMETRY, tracerd_channel(s, "c", 256, 3, TRACERD_DISCARD));
    for (int k = 0; k < 8; k++, number[1]++) answers(OK, tracerd_channel(s, number, 256, 2, TRACERD_DISCARD));
    answers(NAME_TAKEN, tracerd_channel(s, "c0", 256, 2, TRACERD_DISCARD));
    answers(TOO_MANY, tracerd_channel(s, "d", 256, 2, TRACERD_DISCARD));
    answers(NO_CHANNEL, tracerd_producer_new(s, "d", &p));
    answers(BAD_NAME, tracerd_producer_new(s, "-", &p));
    for (int k = 0; k < 1024; k++) answers(OK, tracerd_producer_new(s, "c7", &p));
    is(tracerd_producer_number(p) == 1023);
    answers(TOO_MANY, tracerd_producer_new(s, "c7", &p));
    answers(BAD_MOMENT, tracerd_start(s, LAST_MOMENT + 1));
    answers(OK, tracerd_start(s, LAST_MOMENT));
    answers(ALREADY_STARTED, tracerd_channel(s, "d", 256, 2, TRACERD_DISCARD));
    answers(ALREADY_STARTED, tracerd_producer_new(s, "c7", &p));
    tracerd_free(s);
}

/* A producer's counts of offers that were refused, and the session's. */
static void has_refused(tracerd_session *s, tracerd_producer *p, uint64_t inactive, uint64_t too_big, uint64_t bad_moment) {
    tracerd_counts counts[2];
    answers(OK, tracerd_counts_of(p, &counts[0]));
    answers(OK, tracerd_counts_sum(s, &counts[1]));
    for (int i = 0; i < 2; i++) {
        is(counts[i].refused_inactive == inactive && counts[i].refused_too_big == too_big);
        is(counts[i].refused_bad_moment == bad_moment && counts[i].refused_spent == 0);
    }
}

static void refuses_at_the_wrong_time(tracerd_session *s, tracerd_producer *p) {
    tracerd_offered o;
    uint64_t n = 99;
    has_refused(s, p, 0, 0, 0);
    answers(NEVER_STARTED, tracerd_rotate(s, 0, &n));
    answers(NEVER_STARTED, tracerd_clear(s, &n));
    answers(NOT_ACTIVE, tracerd_stop(s));
    answers(OK, tracerd_start(s, 0));
    answers(ALREADY_ACTIVE, tracerd_start(s, 0));
    answers(NOT_PENDING, tracerd_rotate_on(s, &n));
    answers(NOT_SNAPSHOT_MODE, tracerd_snapshot(s, 0, below("none")));
    answers(BAD_MOMENT, tracerd_offer(p, LAST_MOMENT + 1, 7, "x", 1, &o));
    answers(TOO_BIG, tracerd_offer(p, 0, 7, letters, 153, &o));
    is_stored(p, 0, 152, 0, 0);
    answers(OK, tracerd_offer(p, 0, 7, NULL, 0, &o));
    answers(TOO_BIG, tracerd_trace(p, 7, letters, 153));
    answers(BAD_MOMENT, tracerd_rotate(s, LAST_MOMENT + 1, &n));
    answers(OK, tracerd_stop(s));
    is(!p->active);
    answers(INACTIVE, tracerd_offer(p, 0, 7, "x", 1, &o));
    TRACERD_TRACE(p, 7, "x", 1);
    has_refused(s, p, 1, 2, 1);
    answers(NO_ARCHIVE, tracerd_write(s, 0, below("none")));
    answers(NO_ARCHIVE, tracerd_release(s, 0));
    is(n == 99 && access(below("none"), F_OK));
    answers(OK, tracerd_rotate(s, 1, &n));
    answers(ALREADY_ROTATED, tracerd_rotate(s, 2, &n));
    is(n == 0);
    answers(WRITE, tracerd_write(s, 0, "/dev/null/below"));
    is(errno == ENOTDIR);
    memset(letters, '/', 4090);
    answers(WRITE, tracerd_write(s, 0, letters));
    is(errno == ENAMETOOLONG);
    memset(letters, 'a', 4090);
    answers(OK, tracerd_release(s, 0));
    answers(RELEASED, tracerd_release(s, 0));
    answers(RELEASED, tracerd_write(s, 0, below("none")));
    is(access(below("none"), F_OK));
    is_at(p, 0, TRACERD_IN_CHUNK, 0, 0);
}

static void works_without_streams(void) {
    tracerd_session *s;
    tracerd_cause cause;
    tracerd_counts c;
    uint64_t n = 99;
    answers(OK, tracerd_new(&s, "bare", ONE, 0, TRACERD_LOCAL));
    answers(NEVER_STARTED, tracerd_clear(s, &n));
    answers(NO_ARCHIVE, tracerd_release(s, 0));
    answers(OK, tracerd_start(s, 0));
    answers(OK, tracerd_clear(s, &n));
    is(n == 0);
    answers(OK, tracerd_rotate(s, 5, &n));
    answers(RELEASED, tracerd_release(s, 0));
    answers(OK, tracerd_write(s, 0, below("bare")));
    is(!access(below("bare/bare/archives/19700101T000000+0000-19700101T000000+0000-0/metadata"), F_OK));
    answers(OK, tracerd_tick(s, 6, &cause, &n));
    is(cause == TRACERD_IDLE && n == 0);
    answers(OK, tracerd_settle(s, &c, &n));
    has_counts(c, 0, 0, 0, 0, 0, 0);
    tracerd_free(s);
}

static void rotates_when_due(tracerd_session *s, tracerd_producer *p) {
    tracerd_cause cause;
    uint64_t n = 99;
    answers(ZERO_PERIOD, tracerd_schedule(s, 0, TRACERD_NEVER));
    answers(ZERO_SIZE, tracerd_schedule(s, TRACERD_NEVER, 0));
    answers(OK, tracerd_schedule(s, 100, 200));
    answers(OK, tracerd_start(s, 1000));
    answers(BAD_MOMENT, tracerd_tick(s, LAST_MOMENT + 1, &cause, &n));
    answers(OK, tracerd_tick(s, 1099, &cause, &n));
    is(cause == TRACERD_IDLE && n == 99);
    answers(OK, tracerd_tick(s, 1100, &cause, &n));
    is(cause == TRACERD_TIMER && n == 0);
    /* 80 + 2 * 60 bytes are a packet of 200 once it is drained */
    for (uint64_t k = 0; k < 3; k++) is_stored(p, 1101, 36, k, k / 2);
    answers(OK, tracerd_tick(s, 1102, &cause, &n));
    is(cause == TRACERD_IDLE);
    answers(OK, tracerd_drain(s, &n));
    is(n == 1);
    answers(OK, tracerd_tick(s, 1102, &cause, &n));
    is(cause == TRACERD_SIZE && n == 1);
    answers(OK, tracerd_schedule(s, TRACERD_NEVER, TRACERD_NEVER));
    answers(OK, tracerd_tick(s, LAST_MOMENT, &cause, &n));
    is(cause == TRACERD_IDLE && n == 1);
}

static void clears(tracerd_session *s, tracerd_producer *p) {
    tracerd_counts c;
    uint64_t n = 99;
    answers(OK, tracerd_start(s, 0));
    for (uint64_t k = 0; k < 3; k++) is_stored(p, k, 50, k, k / 2);
    answers(OK, tracerd_drain(s, &n));
    answers(OK, tracerd_clear(s, &n));
    is(n == 3);
    answers(OK, tracerd_counts_of(p, &c));
    has_counts(c, 3, 0, 0, 3, 0, 0);
    is_at(p, 2, TRACERD_WAS_CLEARED, 0, 1);
    is_stored(p, 4, 50, 3, 2);
}

/* A start switches on no producer that was given back. */
static void stays_given_back(tracerd_session *s, tracerd_producer *p) {
    tracerd_producer *other;
    tracerd_offered o;
    answers(OK, tracerd_producer_new(s, "c", &other));
    answers(OK, tracerd_producer_done(p));
    for (int round = 0; round < 2; round++) {
        answers(OK, tracerd_start(s, 0));
        is(!p->active && other->active == 1);
        answers(CLOSED, tracerd_offer(p, 0, 7, "x", 1, &o));
        TRACERD_TRACE(p, 7, "x", 1);
        has_refused(s, p, 0, 0, 0);
        answers(OK, tracerd_stop(s));
        is(!p->active && !other->active);
    }
}

typedef struct {
    int one, other;
} pair;

static void traces(tracerd_session *s, tracerd_producer *p) {
    tracerd_counts c;
    int evaluated = 0;
    uint64_t before = tracerd_now();
    TRACERD_TRACE(p, 1, (evaluated++, "x"), 1);
    is(evaluated == 0);
    answers(OK, tracerd_start(s, before));
    TRACERD_TRACE(p, 1, (evaluated++, "x"), 1);
    is(evaluated == 1);
    tracerd_producer *tracerd_by = p; /* a name that the program may have too */
    if (evaluated)
        TRACERD_TRACE(tracerd_by, 1, &(pair){1, 2}, sizeof(pair));
    else
        evaluated = 2;
    answers(OK, tracerd_counts_of(p, &c));
    is(c.offered == 2 && c.in_ring == 2);
    is(before > 1700000000000000000 && before < LAST_MOMENT && tracerd_now() >= before);
    is(!strcmp(tracerd_status_name(TRACERD_TOO_BIG), "TooBig") && !strcmp(tracerd_status_name((tracerd_status)3), "Unknown"));
}

int main(int count, char **words) {
    void (*const alone[])(void) = {refuses_what_is_planned_badly, works_without_streams};
    void (*const with_session[])(tracerd_session *, tracerd_producer *) = {
        records_and_archives, refuses_at_the_wrong_time, rotates_when_due, clears, stays_given_back, traces};
    if (count != 2) return 2;
    begin(words[1]);
    EACH_ALONE(alone);
    EACH_WITH_SESSION(with_session);
    return closing();
}
