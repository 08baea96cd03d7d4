/* Offers that were refused, as archives and snapshots have them: of each cause, with a full ring, while the session is off, and
 * after records were overwritten or cleared; and what is declared for them.
 *
 *     refusals DIR     a folder that is there, in which files are written
 *
 * Expected values are worked out by hand: a sub-buffer of 256 bytes has 176 for records, offers_refused takes 64 of them. */
#include "refusing.h"

/* ---- Each cause ---- */

/* The sums come before what is accepted next, at the moment of the last refused offer, but not later than the accepted one's. */
static void says_each_cause(void) {
    opens(TRACERD_LOCAL, TRACERD_DISCARD);
    answers(OK, tracerd_declare(s, "job 3 worker:u32", NULL));
    answers(INACTIVE, offers(3, 7, 4));
    answers(OK, tracerd_start(s, 10));
    answers(OK, offers(20, 7, 4));
    is_too_big(21);
    answers(BAD_MOMENT, offers(PAST_ALL, 7, 4));
    answers(OTHER_LAYOUT, offers(22, 3, 3));
    answers(OK, offers(30, 3, 4));
    is_too_big(50);
    answers(OK, offers(40, 7, 4));
    answers(OK, offers(41, 7, 4));
    has(7, 0, 7);
    is_archived(60, "refused 1,0,0,0,0 at 10; 7 at 20; refused 1,1,1,0,1 at 22; 3 at 30; refused 1,2,1,0,1 at 40; 7 at 40; "
                    "7 at 41; ");
    tracerd_free(s);
}

/* Many in turn have one record, whatever is refused meanwhile. */
static void says_many_once(void) {
    begins(TRACERD_DISCARD);
    answers(OK, offers(1, 7, 0));
    for (uint64_t k = 0; k < 1000; k++) is_too_big(2 + k);
    for (uint64_t k = 0; k < 10; k++) answers(BAD_MOMENT, offers(PAST_ALL, 7, 0));
    answers(OK, offers(2000, 7, 0));
    is_archived(3000, "7 at 1; refused 0,1000,10,0,0 at 1001; 7 at 2000; ");
    is_archived(4000, "");
    tracerd_free(s);
}

/* ---- A full ring ---- */

/* What is discarded is said again once something was stored, and not with each offer that is discarded too. */
static void waits_for_room(void) {
    uint64_t packets;
    begins(TRACERD_DISCARD);
    fills_the_ring();
    is_too_big(3);
    answers(OK, offers(4, 7, 0));
    has(4, 2, 2);
    for (int k = 0; k < 5; k++) answers(OK, offers(5, 7, 0));
    is_too_big(5);
    has(9, 7, 2);
    answers(OK, tracerd_drain(s, &packets));
    answers(OK, offers(6, 7, 0));
    answers(OK, offers(7, 7, 0));
    has(12, 7, 4);
    is_archived(9, "7 at 1; 7 at 2; 7 at 6; refused 0,2,0,0,0 at 6; 7 at 7; ");
    tracerd_free(s);
}

/* Before a rotation, and before a stop, there is room. */
static void makes_room(void) {
    for (int is_stopped = 0; is_stopped < 2; is_stopped++) {
        begins(TRACERD_DISCARD);
        fills_the_ring();
        is_too_big(3);
        if (is_stopped) answers(OK, tracerd_stop(s));
        is_archived(9, "7 at 1; 7 at 2; refused 0,1,0,0,0 at 3; ");
        has(3, 0, 0);
        tracerd_free(s);
    }
}

/* So there is after it was discarded before. */
static void makes_room_again(void) {
    begins(TRACERD_DISCARD);
    fills_the_ring();
    is_too_big(3);
    answers(OK, offers(4, 7, 0));
    is_archived(9, "7 at 1; 7 at 2; refused 0,1,0,0,0 at 4; ");
    has(5, 2, 0);
    tracerd_free(s);
}

/* ---- Off, given back, gone ---- */

/* While the session is off nothing is said, and after the next start all. */
static void waits_for_the_start(void) {
    begins(TRACERD_DISCARD);
    answers(OK, offers(1, 7, 0));
    is_too_big(2);
    answers(OK, tracerd_stop(s));
    answers(INACTIVE, offers(5, 7, 0));
    TRACERD_TRACE(p, 7, NULL, 0);
    is_archived(6, "7 at 1; refused 0,1,0,0,0 at 2; ");
    answers(OK, tracerd_start(s, 8));
    is_archived(9, "refused 1,1,0,0,0 at 8; ");
    answers(OK, tracerd_stop(s));
    answers(OK, tracerd_start(s, 10));
    answers(OK, offers(11, 7, 0));
    is_archived(12, "7 at 11; ");
    tracerd_free(s);
}

/* What its producer was refused a stream says also when that was given back; what is offered later is no refusal. */
static void says_what_is_left(void) {
    begins(TRACERD_DISCARD);
    is_too_big(2);
    answers(OK, tracerd_producer_done(p));
    answers(CLOSED, offers(3, 7, 0));
    is_archived(9, "refused 0,1,0,0,0 at 2; ");
    is_archived(10, "");
    tracerd_free(s);
}

/* Where what was said was cleared or overwritten, the next archive or snapshot has it again. */
static void says_it_again(void) {
    uint64_t records;
    begins(TRACERD_DISCARD);
    is_too_big(1);
    answers(OK, offers(2, 7, 0));
    answers(OK, tracerd_clear(s, &records));
    is(records == 2);
    is_archived(3, "refused 0,1,0,0,0 at 2; ");
    is_archived(4, "");
    tracerd_free(s);
    begins(TRACERD_OVERWRITE);
    is_too_big(1);
    for (uint64_t k = 2; k < 6; k++) answers(OK, offers(k, 7, 152));
    is_archived(6, "7 at 4; 7 at 5; refused 0,1,0,0,0 at 5; ");
    is_archived(7, "");
    tracerd_free(s);
}

static void shows(const char *name, uint64_t moment, const char *wanted) {
    char path[4400];
    answers(OK, tracerd_snapshot(s, moment, below(name)));
    snprintf(path, sizeof path, "%s/s/archives/19700101T000000+0000-19700101T000000+0000-0/c_0", below(name));
    is_said(path, wanted, __FILE__, __LINE__);
}

static void says_it_in_snapshots(void) {
    opens(TRACERD_SNAPSHOT, TRACERD_OVERWRITE);
    answers(OK, tracerd_start(s, 0));
    answers(OK, offers(1, 7, 0));
    is_too_big(2);
    shows("first", 3, "7 at 1; refused 0,1,0,0,0 at 2; ");
    shows("second", 3, "7 at 1; refused 0,1,0,0,0 at 2; ");
    for (uint64_t k = 4; k < 6; k++) answers(OK, offers(k, 7, 152));
    shows("third", 6, "7 at 5; refused 0,1,0,0,0 at 5; ");
    answers(OK, tracerd_stop(s));
    tracerd_free(s);
}

/* ---- What is declared ---- */

static void declares(const char *text, tracerd_status status, uint64_t wanted, int from) {
    uint64_t line = 99;
    is_status(tracerd_declare(s, text, &line), status, text, __FILE__, from);
    is_so(line == wanted, text, __FILE__, from);
}

/* One name and one id are taken, with 93 bytes; with a pool's, 206. */
static void reserves(void) {
    tracerd_pool *pool;
    char *text = malloc(524289);
    memset(text, '#', 524288);
    answers(OK, tracerd_new(&s, "s", ONE, 0, TRACERD_LOCAL));
    answers(OK, tracerd_channel(s, "c", 256, 2, TRACERD_DISCARD));
    declares("offers_refused 1", TRACERD_OK, 99, __LINE__);
    answers(EVENT_TAKEN, tracerd_record_refused(s));
    declares("first 4294967292", TRACERD_OK, 99, __LINE__);
    answers(EVENT_TAKEN, tracerd_record_refused(s));
    text[524288 - 92] = 0;
    declares(text, TRACERD_OK, 99, __LINE__);
    answers(TOO_MANY_DECLARED, tracerd_record_refused(s));
    text[524288 - 93] = 0;
    declares(text, TRACERD_OK, 99, __LINE__);
    answers(OK, tracerd_record_refused(s));
    answers(OK, tracerd_record_refused(s));
    declares("first 1\noffers_refused 2", TRACERD_EVENT_TAKEN, 2, __LINE__);
    declares("first 4294967292", TRACERD_EVENT_TAKEN, 1, __LINE__);
    answers(TOO_MANY_DECLARED, tracerd_pool_new(&pool, s, "c", 1));
    text[524288 - 206] = 0;
    declares(text, TRACERD_OK, 99, __LINE__);
    answers(OK, tracerd_pool_new(&pool, s, "c", 1));
    declares("first 1\nsecond 2\nthread_end 3", TRACERD_EVENT_TAKEN, 3, __LINE__);
    declares("first 1\noffers_refused 2", TRACERD_EVENT_TAKEN, 2, __LINE__);
    answers(OK, tracerd_start(s, 0));
    answers(ALREADY_STARTED, tracerd_record_refused(s));
    answers(OK, tracerd_pool_free(pool));
    tracerd_free(s);
    free(text);
}

/* A session that wasn't asked records none, a pool's neither. */
static void says_nothing_unasked(void) {
    tracerd_pool *pool;
    answers(OK, tracerd_new(&s, "s", ONE, 0, TRACERD_LOCAL));
    answers(OK, tracerd_channel(s, "c", 256, 2, TRACERD_DISCARD));
    answers(OK, tracerd_producer_new(s, "c", &p));
    answers(OK, tracerd_pool_new(&pool, s, "c", 1));
    answers(INACTIVE, offers(0, 7, 0));
    answers(OK, tracerd_start(s, 0));
    is_too_big(1);
    answers(OK, offers(2, 7, 0));
    is_too_big(3);
    is_archived(4, "7 at 2; ");
    answers(OK, tracerd_pool_free(pool));
    tracerd_free(s);
}

/* ---- What a reader shows ---- */

/* babeltrace2 shows it as docs/EMBEDDING.md does. */
static void is_shown(void) {
    uint64_t archive = 99;
    opens(TRACERD_LOCAL, TRACERD_DISCARD);
    answers(OK, tracerd_declare(s, "queue_push 3 worker:u32 depth:u64", NULL));
    answers(OK, tracerd_start(s, 0));
    answers(OK, tracerd_offer(p, 1, 3, "\2\0\0\0\21\0\0\0\0\0\0", 12, &(tracerd_offered){0}));
    answers(OTHER_LAYOUT, offers(2, 3, 11));
    is_too_big(3);
    is_too_big(4);
    answers(OK, tracerd_offer(p, 5, 3, "\2\0\0\0\22\0\0\0\0\0\0", 12, &(tracerd_offered){0}));
    answers(OK, tracerd_rotate(s, 9, &archive));
    answers(OK, tracerd_write(s, archive, below("shown")));
    tracerd_free(s);
}

int main(int count, char **words) {
    void (*const tests[])(void) = {
        says_each_cause,   says_many_once, waits_for_room,       makes_room, makes_room_again,     waits_for_the_start,
        says_what_is_left, says_it_again,  says_it_in_snapshots, reserves,   says_nothing_unasked, is_shown};
    if (count != 2) return 2;
    dir = words[1];
    for (size_t k = 0; k < sizeof tests / sizeof *tests; k++) {
        tests[k]();
        counts_as_one();
    }
    return closing();
}
