/* The calls of tracerd.h that write and read files: what the files have, and what audits find in them.
 *
 *     files DIR     a folder that is there, in which files are written
 *
 * Expected values are worked out by hand: a packet has 80 bytes before its records, a record 24 before its payload. */
#include "sessions.h"
#include <errno.h>
#include <sys/stat.h>
#include <unistd.h>

enum { ARCHIVES = 12 }; /* by their names the tenth comes before the second */

/* The stream's file of archive K of the session below a folder, with `count` bytes from `at` on read, or written if `bytes`. */
static void touch(const char *folder, int archive, long at, void *to, const void *bytes, size_t count) {
    char path[4200];
    snprintf(path, sizeof path, "%s/s/archives/19700101T000000+0000-19700101T000000+0000-%d/c_0", folder, archive);
    FILE *file = fopen(path, "r+b");
    is(file && !fseek(file, at, SEEK_SET));
    if (file) is((to ? fread(to, 1, count, file) : fwrite(bytes, 1, count, file)) == count && !fclose(file));
}

/* The archive K of the session below a folder is gone. */
static void remove_archive(const char *folder, int archive) {
    char path[4300];
    const char *const files[] = {"c_0", "metadata", ""};
    for (int i = 0; i < 3; i++) {
        snprintf(path, sizeof path, "%s/s/archives/19700101T000000+0000-19700101T000000+0000-%d/%s", folder, archive, files[i]);
        is(!remove(path));
    }
}

/* A ring of two sub-buffers of two records each overwrites the first with the fifth record. */
static void shows_snapshots(void) {
    tracerd_producer *p;
    tracerd_offered o;
    tracerd_audited a;
    uint64_t n = 99;
    tracerd_session *s = fresh(TRACERD_SNAPSHOT, TRACERD_OVERWRITE, &p);
    answers(DISCARD_IN_SNAPSHOT, tracerd_channel(s, "d", 256, 2, TRACERD_DISCARD));
    answers(NEVER_STARTED, tracerd_snapshot(s, 0, below("shown")));
    answers(OK, tracerd_start(s, 0));
    for (uint64_t k = 0; k < 4; k++) is_stored(p, k + 1, 50, k, k / 2);
    answers(OK, tracerd_offer(p, 5, 7, letters, 50, &o));
    is(o.outcome == TRACERD_STORED_OVER && o.serial == 4 && o.packet == 2 && o.gone == 0 && o.gone_count == 2);
    is_at(p, 1, TRACERD_WAS_OVERWRITTEN, 0, 0);
    answers(OK, tracerd_snapshot(s, 6, below("shown")));
    answers(OK, tracerd_audit(below("shown"), "s", "c", 0, ONE, &a));
    is(a.packets == 2 && a.records == 3 && a.absent == 1 && a.discarded == 0 && a.last_packet == 2 && a.last_serial == 4);
    is(!access(below("shown/s/archives/19700101T000000+0000-19700101T000000+0000-0/metadata"), F_OK));
    /* the end of the packet after one of 80 + 2 * 74 bytes: the current sub-buffer, as if it were closed at this moment */
    touch(below("shown"), 0, 228 + 40, &n, NULL, 8);
    is(n == 6);
    answers(WRITE, tracerd_snapshot(s, 7, "/dev/null"));
    answers(SNAPSHOT_MODE, tracerd_rotate(s, 0, &n));
    answers(SNAPSHOT_MODE, tracerd_clear(s, &n));
    answers(SNAPSHOT_MODE, tracerd_drain(s, &n));
    answers(SNAPSHOT_MODE, tracerd_drainer_start(s, 1));
    answers(SNAPSHOT_MODE, tracerd_schedule(s, 1, 1));
    answers(OK, tracerd_producer_done(p));
    is(n == 6);
    tracerd_free(s);
}

static void audits(tracerd_session *s, tracerd_producer *p) {
    tracerd_audited a;
    uint64_t n, number = 1;
    uint8_t first[131], two[16] = {2}; /* 80 + 24 + 27 */
    char first_one[4200];
    answers(OK, tracerd_start(s, 0));
    for (uint64_t k = 0; k < ARCHIVES; k++) {
        is_stored(p, k, 27, k, k);
        answers(OK, tracerd_rotate(s, k, &n));
        answers(OK, tracerd_write(s, n, below("audit")));
    }
    is(!mkdir(below("audit/s/archives/19700101T000000+0000-19700101T000000+0000-"), 0777)); /* no archives by their names */
    is(!mkdir(below("audit/s/archives/19700101T000000+0000-19700101T000000+0000-1x"), 0777));
    is(!mkdir(below("audit/s/archives/19700101T000000+0000-19700101T000000+0000-07"), 0777));
    is(!mkdir(below("audit/s/archives/1970101T000000+00000-19700101T000000+0000-1"), 0777));
    is(!mkdir(below("audit/s/archives/.19700101T000000+0000-19700101T000000+0000-12.part"), 0777));
    answers(OK, tracerd_audit(below("audit"), "s", "c", 0, ONE, &a));
    is(a.packets == ARCHIVES && a.records == ARCHIVES && a.last_packet == 11 && a.last_serial == 11 && !a.archive && !a.byte);
    answers(READ, tracerd_audit(below("nowhere"), "s", "c", 0, ONE, &a));
    is(errno == ENOENT);
    answers(READ, tracerd_audit("", "s", "c", 0, ONE, &a));
    is(errno == ENOENT);
    answers(READ, tracerd_audit(letters, "s", "c", 0, ONE, &a)); /* too long for a path */
    is(errno == ENAMETOOLONG);
    answers(READ, tracerd_audit(below("audit"), "s", "c", 1, ONE, &a));
    is(errno == ENOENT);
    answers(FOREIGN, tracerd_audit(below("audit"), "s", "c", 0, two, &a));
    is(a.archive == 0 && a.byte == 0 && a.packets == 0 && !a.packet_fault);
    touch(below("audit"), 0, 0, first, NULL, sizeof first);
    touch(below("audit"), 1, 0, NULL, first, sizeof first);
    answers(NUMBER_REPEAT, tracerd_audit(below("audit"), "s", "c", 0, ONE, &a));
    is(a.archive == 1 && a.byte == 0);
    touch(below("audit"), 1, 64, NULL, &number, 8);
    answers(SERIAL_REPEAT, tracerd_audit(below("audit"), "s", "c", 0, ONE, &a));
    is(a.archive == 1);
    touch(below("audit"), 2, 131, NULL, "x", 1);
    touch(below("audit"), 1, 0, NULL, "\0", 1);
    answers(PACKET, tracerd_audit(below("audit"), "s", "c", 0, ONE, &a));
    is(a.archive == 1 && a.byte == 0 && a.packet_fault == 2);
    answers(EXISTS, tracerd_write(s, 1, below("audit"))); /* what is damaged stays as it is */
    answers(PACKET, tracerd_audit(below("audit"), "s", "c", 0, ONE, &a));
    is(a.archive == 1);
    remove_archive(below("audit"), 1);
    answers(OK, tracerd_write(s, 1, below("audit")));
    answers(PACKET, tracerd_audit(below("audit"), "s", "c", 0, ONE, &a));
    is(a.archive == 2 && a.byte == 131 && a.packet_fault == 1);
    snprintf(first_one, sizeof first_one, "%s/s/archives/19700101T000000+0000-19700101T000000+0000-0", below("audit"));
    is(!rename(first_one, below("first"))); /* now no archive is in the place of its number */
    answers(PACKET, tracerd_audit(below("audit"), "s", "c", 0, ONE, &a));
    is(a.archive == 2 && a.byte == 131 && a.packet_fault == 1);
    is(!rename(below("first"), first_one));
    remove_archive(below("audit"), 2);
    answers(OK, tracerd_write(s, 2, below("audit")));
    answers(OK, tracerd_audit(below("audit"), "s", "c", 0, ONE, &a));
    is(a.packets == ARCHIVES && a.absent == 0);
    is(!mkdir(below("none"), 0777) && !mkdir(below("none/s"), 0777) && !mkdir(below("none/s/archives"), 0777));
    answers(OK, tracerd_audit(below("none"), "s", "c", 0, ONE, &a)); /* without an archive */
    is(!a.packets && !a.records && !a.absent && !a.discarded && !a.last_packet && !a.last_serial && !a.archive && !a.byte);
}

/* A part of more bytes than are copied at a time, whose packets end anywhere in a piece: its file has each record, one after
 * another. */
static void writes_in_pieces(void) {
    enum { RECORDS = 300, LEAST = 700 };
    static uint8_t bytes[400000];
    tracerd_session *s;
    tracerd_producer *p;
    tracerd_offered o;
    tracerd_audited a;
    uint64_t n, packets = 1, size = 80;
    answers(OK, tracerd_new(&s, "s", ONE, 0, TRACERD_LOCAL));
    answers(OK, tracerd_channel(s, "c", 4096, 64, TRACERD_DISCARD));
    answers(OK, tracerd_producer_new(s, "c", &p));
    answers(OK, tracerd_start(s, 0));
    for (uint64_t k = 0; k < RECORDS; k++) {
        answers(OK, tracerd_offer(p, k, 7, letters, LEAST + k, &o));
        if (k % 64 == 63) answers(OK, tracerd_drain(s, &n));
        packets = o.packet + 1;
        size += 24 + LEAST + k;
    }
    size += 80 * (packets - 1);
    answers(OK, tracerd_rotate(s, 0, &n));
    answers(OK, tracerd_write(s, 0, below("pieces")));
    touch(below("pieces"), 0, 0, bytes, NULL, size);
    uint64_t at = 0, count = 0;
    while (at < size && !wrong) {
        uint64_t bits;
        memcpy(&bits, bytes + at + 48, sizeof bits);
        uint64_t next = at + bits / 8;
        is(next > at + 80 && next <= size);
        for (at += 80; at < next && count < RECORDS; count++) {
            is(!memcmp(bytes + at + 24, letters, LEAST + count));
            at += 24 + LEAST + count;
        }
        is(at == next);
    }
    is(count == RECORDS);
    answers(OK, tracerd_audit(below("pieces"), "s", "c", 0, ONE, &a));
    is(a.packets == packets && a.records == RECORDS && a.absent == 0 && a.last_serial == RECORDS - 1);
    tracerd_free(s);
}

int main(int count, char **words) {
    void (*const alone[])(void) = {shows_snapshots, writes_in_pieces};
    void (*const with_session[])(tracerd_session *, tracerd_producer *) = {audits};
    if (count != 2) return 2;
    begin(words[1]);
    EACH_ALONE(alone);
    EACH_WITH_SESSION(with_session);
    return closing();
}
