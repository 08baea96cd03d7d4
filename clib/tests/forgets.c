/* Archives that were released are forgotten: what is answered of them then, what stays, and how much memory many of them take.
 *
 *     forgets DIR     a folder that is there, in which files are written
 *
 * Expected values are worked out by hand, as in tests/calls.c. */
#include "sessions.h"
#include <malloc.h>

static void rotates(tracerd_session *s, uint64_t moment, uint64_t archive) {
    uint64_t made = 99;
    answers(OK, tracerd_rotate(s, moment, &made));
    is(made == archive);
}

static void has_forgotten(tracerd_session *s, uint64_t archives, uint64_t forgotten) {
    tracerd_about about;
    answers(OK, tracerd_about_of(s, &about));
    is(about.archives == archives && about.forgotten == forgotten);
}

/* Of what isn't released, or isn't there, nothing is forgotten. */
static void is_asked_first(tracerd_session *s, tracerd_producer *p) {
    answers(OK, tracerd_forget(s, 0));
    answers(NO_ARCHIVE, tracerd_forget(s, 1));
    answers(OK, tracerd_start(s, 0));
    for (uint64_t k = 0; k < 3; k++) is_stored(p, k + 1, 50, k, k / 2);
    rotates(s, 10, 0);
    is_stored(p, 11, 50, 3, 2);
    rotates(s, 20, 1);
    answers(HELD, tracerd_forget(s, 1));
    answers(OK, tracerd_release(s, 1));
    answers(HELD, tracerd_forget(s, 2));
    answers(NO_ARCHIVE, tracerd_forget(s, 3));
    has_forgotten(s, 2, 0);
    is_at(p, 0, TRACERD_IN_CHUNK, 0, 0);
}

static void forgets_the_first(tracerd_session *s, tracerd_producer *p) {
    tracerd_archive archive;
    tracerd_counts before, after;
    char name[TRACERD_ARCHIVE_NAME];
    answers(OK, tracerd_counts_sum(s, &before));
    answers(OK, tracerd_release(s, 0));
    answers(OK, tracerd_forget(s, 1));
    has_forgotten(s, 2, 1);
    answers(FORGOTTEN, tracerd_archive_of(s, 0, &archive));
    answers(OK, tracerd_archive_of(s, 1, &archive));
    is(archive.is_released == 1 && archive.packets == 1 && archive.records == 1 && archive.bytes == 154);
    answers(OK, tracerd_archive_name(s, 0, name));
    answers(RELEASED, tracerd_release(s, 0));
    answers(RELEASED, tracerd_write(s, 0, below("none")));
    for (uint64_t serial = 0; serial < 3; serial++) is_at(p, serial, TRACERD_WAS_FORGOTTEN, 0, 0);
    is_at(p, 3, TRACERD_IN_CHUNK, 1, 2);
    is_at(p, 4, TRACERD_NOT_OFFERED, 0, 0);
    answers(OK, tracerd_counts_sum(s, &after));
    is(!memcmp(&before, &after, sizeof before) && after.in_chunks == 4);
}

/* What is forgotten stays so, and numbers and serials go on. */
static void goes_on(tracerd_session *s, tracerd_producer *p) {
    tracerd_audited a;
    answers(OK, tracerd_forget(s, 0));
    has_forgotten(s, 2, 1);
    answers(OK, tracerd_forget(s, 2));
    has_forgotten(s, 2, 2);
    is_stored(p, 21, 50, 4, 3);
    is_at(p, 4, TRACERD_IN_RING, 0, 3);
    rotates(s, 30, 2);
    answers(OK, tracerd_write(s, 2, below("last")));
    answers(OK, tracerd_audit(below("last"), "s", "c", 0, ONE, &a));
    is(a.packets == 1 && a.records == 1 && a.absent == 3 && a.last_packet == 3 && a.last_serial == 4);
    is_at(p, 4, TRACERD_IN_CHUNK, 2, 3);
    answers(OK, tracerd_release(s, 2));
    is_at(p, 4, TRACERD_IN_CHUNK, 2, 3);
}

static void forgets(tracerd_session *s, tracerd_producer *p) {
    is_asked_first(s, p);
    forgets_the_first(s, p);
    goes_on(s, p);
}

/* An archive without parts has nothing to release. */
static void forgets_without_streams(void) {
    tracerd_session *s;
    tracerd_archive archive;
    answers(OK, tracerd_new(&s, "s", ONE, 0, TRACERD_LOCAL));
    answers(OK, tracerd_start(s, 0));
    rotates(s, 10, 0);
    answers(OK, tracerd_archive_of(s, 0, &archive));
    answers(OK, tracerd_forget(s, 1));
    has_forgotten(s, 1, 1);
    answers(FORGOTTEN, tracerd_archive_of(s, 0, &archive));
    tracerd_free(s);
}

static size_t bytes_in_use(void) { return mallinfo2().uordblks; }

/* Makes so many archives of a record each, and forgets each once the next one is there. */
static void makes_archives(tracerd_session *s, tracerd_producer *p, uint64_t from, uint64_t to) {
    tracerd_offered o;
    for (uint64_t k = from; k < to; k++) {
        answers(OK, tracerd_offer(p, 10 * k + 1, 7, letters, 50, &o));
        rotates(s, 10 * k + 2, k);
        answers(OK, tracerd_release(s, k));
        answers(OK, tracerd_forget(s, k));
    }
}

/* An archive that is forgotten leaves 24 bytes in the session's book, whose list may have room for as many again. */
static void stays_small(tracerd_session *s, tracerd_producer *p) {
    enum { FEW = 500, MANY = 5000 };
    tracerd_counts c;
    answers(OK, tracerd_start(s, 0));
    makes_archives(s, p, 0, FEW);
    size_t before = bytes_in_use();
    makes_archives(s, p, FEW, MANY);
    is(bytes_in_use() <= before + 2 * 24 * MANY + 4096);
    answers(OK, tracerd_counts_sum(s, &c));
    is(c.offered == MANY && c.in_chunks == MANY);
    is_at(p, MANY - 2, TRACERD_WAS_FORGOTTEN, 0, 0);
    is_at(p, MANY - 1, TRACERD_IN_CHUNK, MANY - 1, MANY - 1);
}

int main(int count, char **words) {
    void (*const alone[])(void) = {forgets_without_streams};
    void (*const with_session[])(tracerd_session *, tracerd_producer *) = {forgets, stays_small};
    if (count != 2) return 2;
    begin(words[1]);
    EACH_ALONE(alone);
    EACH_WITH_SESSION(with_session);
    return closing();
}
