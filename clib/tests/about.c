/* What calls say of a session, of its archives and of the library, and what is reserved in results.
 *
 *     about DIR     a folder that is there, in which files are written */
#include "sessions.h"
#include <unistd.h>

/* What is reserved in a result is zeros, whatever was there before; after a refusal it is as it was. */
static void reserves(tracerd_session *s, tracerd_producer *p) {
    static const uint64_t zeros[10];
    tracerd_counts c[3];
    tracerd_fate f;
    tracerd_audited a;
    uint64_t n;
    int one = 0, two = 0, three = 0;
    memset(c, 255, sizeof c);
    memset(&f, 255, sizeof f);
    memset(&a, 255, sizeof a);
    answers(MISSING, tracerd_settle(s, &c[2], &n));
    is(c[2].offered == UINT64_MAX && c[2].reserved[3] == UINT64_MAX);
    answers(OK, tracerd_start(s, 0));
    is_stored(p, 0, 27, 0, 0);
    answers(OK, tracerd_rotate(s, 0, &n));
    answers(OK, tracerd_write(s, 0, below("reserved")));
    answers(OK, tracerd_counts_of(p, &c[0]));
    answers(OK, tracerd_counts_sum(s, &c[1]));
    answers(OK, tracerd_producer_done(p));
    answers(OK, tracerd_settle(s, &c[2], &n));
    for (int i = 0; i < 3; i++) is(c[i].offered == 1 && !c[i].shared && !memcmp(c[i].reserved, zeros, sizeof c[i].reserved));
    answers(OK, tracerd_fate_of(p, 0, &f));
    is(f.place == TRACERD_IN_CHUNK && !memcmp(f.reserved, zeros, sizeof f.reserved));
    answers(OK, tracerd_audit(below("reserved"), "s", "c", 0, ONE, &a));
    is(a.records == 1 && !a.reserved_too && !memcmp(a.reserved, zeros, sizeof a.reserved));
    is(!strcmp(tracerd_version(), TRACERD_VERSION) && sscanf(TRACERD_VERSION, "%d.%d.%d", &one, &two, &three) == 3);
    is(TRACERD_VERSION_NUMBER == 10000 * one + 100 * two + three);
}

static void has_state(tracerd_session *s, tracerd_state state, uint64_t archives, uint64_t begun, uint64_t last) {
    static const uint64_t zeros[9];
    tracerd_about a;
    memset(&a, 255, sizeof a);
    answers(OK, tracerd_about_of(s, &a));
    is(a.kind == TRACERD_LOCAL && a.state == state && a.archives == archives && a.begun == begun && a.last == last);
    is(a.channels == 1 && a.producers == 1 && !a.is_pending && !a.is_draining);
    is(!memcmp(a.reserved, zeros, sizeof a.reserved));
}

/* Two records of 80 + 2 * 74 bytes are a packet, a third one another of 80 + 74. */
static void says_what_there_is(tracerd_session *s, tracerd_producer *p) {
    static const uint64_t zeros[10];
    tracerd_about a;
    tracerd_archive it;
    uint64_t n;
    memset(&it, 255, sizeof it);
    has_state(s, TRACERD_NEW, 0, 0, 0);
    answers(NO_ARCHIVE, tracerd_archive_of(s, 0, &it));
    is(it.begun == UINT64_MAX);
    answers(OK, tracerd_start(s, 5));
    has_state(s, TRACERD_ACTIVE, 0, 5, 5);
    for (uint64_t k = 0; k < 3; k++) is_stored(p, 6, 50, k, k / 2);
    answers(OK, tracerd_rotate(s, 9, &n));
    answers(OK, tracerd_stop(s));
    has_state(s, TRACERD_STOPPED, 1, 9, 9);
    answers(OK, tracerd_archive_of(s, 0, &it));
    is(it.begun == 5 && it.ended == 9 && it.packets == 2 && it.records == 3 && it.bytes == 80 + 2 * 74 + 80 + 74);
    is(!it.is_released && !it.reserved_too && !memcmp(it.reserved, zeros, sizeof it.reserved));
    answers(OK, tracerd_release(s, 0));
    answers(OK, tracerd_archive_of(s, 0, &it));
    is(it.is_released == 1 && it.packets == 2 && it.records == 3 && it.bytes == 80 + 2 * 74 + 80 + 74);
    answers(NO_ARCHIVE, tracerd_archive_of(s, 1, &it));
    answers(OK, tracerd_drainer_start(s, 1000000));
    answers(OK, tracerd_about_of(s, &a));
    is(a.is_draining == 1 && a.archives == 1);
    answers(OK, tracerd_drainer_stop(s));
    answers(OK, tracerd_about_of(s, &a));
    is(!a.is_draining);
}

/* Each archive has the name under which it is written, by the session's clock for names; also once it is released. */
static void names_archives(void) {
    char name[TRACERD_ARCHIVE_NAME], path[4200];
    tracerd_session *s;
    tracerd_producer *p;
    tracerd_about about;
    uint64_t n;
    answers(OK, tracerd_new(&s, "s", ONE, -90, TRACERD_LOCAL));
    answers(OK, tracerd_channel(s, "c", 256, 2, TRACERD_DISCARD));
    answers(OK, tracerd_producer_new(s, "c", &p));
    strcpy(name, "none");
    answers(NO_ARCHIVE, tracerd_archive_name(s, 0, name));
    is(!strcmp(name, "none"));
    answers(OK, tracerd_start(s, 5400000000000));
    for (int k = 0; k < 3; k++) answers(OK, tracerd_rotate(s, 9000000000000, &n));
    answers(OK, tracerd_about_of(s, &about));
    is(about.archives == 3);
    for (uint64_t k = 0; k < about.archives; k++) {
        answers(OK, tracerd_write(s, k, below("named")));
        answers(OK, tracerd_archive_name(s, k, name));
        snprintf(path, sizeof path, "%s/s/archives/%s/c_0", below("named"), name);
        is(!access(path, F_OK));
    }
    is(!strcmp(name, "19700101T010000-0130-19700101T010000-0130-2"));
    answers(OK, tracerd_release(s, 0));
    answers(OK, tracerd_archive_name(s, 0, name));
    is(!strcmp(name, "19700101T000000-0130-19700101T010000-0130-0"));
    answers(NO_ARCHIVE, tracerd_archive_name(s, 3, name));
    tracerd_free(s);
}

/* The identifier is the given one; or one by chance, of version 4 (RFC 9562, section 5.4), and never the same. */
static void has_an_identifier(void) {
    tracerd_session *s;
    tracerd_about about[2];
    answers(OK, tracerd_new(&s, "s", (const uint8_t[16]){1, 2, 3, [15] = 16}, 0, TRACERD_LOCAL));
    answers(OK, tracerd_about_of(s, &about[0]));
    is(!memcmp(about[0].uuid, (const uint8_t[16]){1, 2, 3, [15] = 16}, 16));
    tracerd_free(s);
    for (int k = 0; k < 2; k++) {
        answers(OK, tracerd_new(&s, "s", NULL, 0, TRACERD_LOCAL));
        answers(OK, tracerd_about_of(s, &about[k]));
        is(about[k].uuid[6] >> 4 == 4 && about[k].uuid[8] >> 6 == 2);
        tracerd_free(s);
    }
    is(memcmp(about[0].uuid, about[1].uuid, 16) != 0);
}

int main(int count, char **words) {
    void (*const alone[])(void) = {names_archives, has_an_identifier};
    void (*const with_session[])(tracerd_session *, tracerd_producer *) = {reserves, says_what_there_is};
    if (count != 2) return 2;
    begin(words[1]);
    EACH_ALONE(alone);
    EACH_WITH_SESSION(with_session);
    return closing();
}
