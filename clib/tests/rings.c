/* Rings that lie in a file: what is refused, what the file has at each step, and what becomes of it.
 *
 *     rings DIR [few] */
#include "paths.h"
#include "testing.h"
#include <errno.h>
#include <fcntl.h>

enum { PATH = 4096, ROOM = 1 << 21 };

static int is_full, interruptions;

int __real_posix_fallocate(int file, off_t at, off_t size);
int __wrap_posix_fallocate(int file, off_t at, off_t size);

/* A file system may be full, and a signal may come. */
int __wrap_posix_fallocate(int file, off_t at, off_t size) {
    if (interruptions && interruptions--) return EINTR;
    return is_full ? ENOSPC : __real_posix_fallocate(file, at, size);
}

static char image[ROOM];

/* Reads a file into the image. Its size. */
static ssize_t read_image(const char *name) {
    int file = open(below(name), O_RDONLY);
    ssize_t size = read(file, image, ROOM);
    close(file);
    return size;
}

/* How many packets a file has: magic, identifier, and a content_size that isn't 0. */
static int packets_in(const char *name) {
    static const uint8_t magic[4] = {0xC1, 0x1F, 0xFC, 0xC1};
    int found = 0;
    ssize_t size = read_image(name);
    for (ssize_t at = 0; at + 80 <= size; at++) {
        uint64_t content;
        memcpy(&content, image + at + 48, sizeof content);
        found += !memcmp(image + at, magic, 4) && !memcmp(image + at + 4, ONE, 16) && content;
    }
    return found;
}

static int has_text(const char *name, const char *text) {
    ssize_t size = read_image(name);
    return size > 0 && memmem(image, (size_t)size, text, strlen(text)) != NULL;
}

static tracerd_session *made(const char *name, tracerd_kind kind) {
    tracerd_session *s;
    answers(OK, tracerd_new(&s, "s", ONE, 0, kind));
    answers(OK, tracerd_rings_in(s, below(name)));
    answers(OK, tracerd_channel(s, "c", 4096, 4, kind == TRACERD_LOCAL ? TRACERD_DISCARD : TRACERD_OVERWRITE));
    return s;
}

/* Offers so many records, of which a sub-buffer has room for one. */
static void offer(tracerd_producer *p, int count) {
    static const uint8_t payload[2100];
    tracerd_offered offered;
    for (int i = 0; i < count; i++) answers(OK, tracerd_offer(p, 5, 1, payload, sizeof payload, &offered));
}

static void refuse(void) {
    char long_name[257] = "";
    tracerd_session *s;
    tracerd_producer *p;
    answers(OK, tracerd_new(&s, "s", ONE, 0, TRACERD_LOCAL));
    errno = 0;
    answers(WRITE, tracerd_rings_in(s, below("missing/rings")));
    is(errno == ENOENT);
    answers(WRITE, tracerd_rings_in(s, dir));
    is(errno == EEXIST);
    answers(WRITE, tracerd_rings_in(s, ""));
    is(errno == ENOENT);
    memset(long_name, 'a', sizeof long_name - 1);
    answers(WRITE, tracerd_rings_in(s, below(long_name)));
    is(errno == ENAMETOOLONG);
    is_full = 1;
    answers(WRITE, tracerd_rings_in(s, below("full")));
    is(errno == ENOSPC);
    is_full = 0;
    is(!is_below("full"));
    answers(OK, tracerd_rings_in(s, below("one")));
    answers(ALREADY_STARTED, tracerd_rings_in(s, below("two")));
    tracerd_free(s);
    answers(OK, tracerd_new(&s, "s", ONE, 0, TRACERD_LOCAL));
    answers(OK, tracerd_channel(s, "c", 4096, 4, TRACERD_DISCARD));
    answers(OK, tracerd_producer_new(s, "c", &p));
    answers(ALREADY_STARTED, tracerd_rings_in(s, below("late")));
    is(!is_below("late") && !is_below("two") && !is_below("one"));
    tracerd_free(s);
    counts_as_one();
}

/* How many openings have a metadata right behind them. */
static int openings_in(const char *name) {
    static const char *text = "/* CTF 1.8 */";
    int found = 0;
    ssize_t size = read_image(name);
    for (ssize_t at = 0; at + 64 <= size; at++) {
        uint64_t place;
        memcpy(&place, image + at + 16, sizeof place);
        found += !strcmp(image + at, "tracerd rings 1") && place == 32 && !memcmp(image + at + 32, text, strlen(text));
    }
    return found;
}

/* A metadata that is longer than the file's first part has an opening of its own in front of it. */
static void describe_many(void) {
    enum { EVENTS = 700 };
    static char lines[1 << 17];
    size_t size = 0;
    tracerd_session *s = made("rings", TRACERD_SNAPSHOT);
    for (int i = 1; i <= EVENTS; i++)
        size += (size_t)snprintf(lines + size, sizeof lines - size,
                                 "an_event_with_a_name_that_is_long_%d %d a_field_with_a_long_name:u32\n", i, i);
    answers(OK, tracerd_declare(s, lines, NULL));
    answers(OK, tracerd_start(s, 1));
    is(openings_in("rings") == 1 && has_text("rings", "an_event_with_a_name_that_is_long_700"));
    tracerd_free(s);
    s = made("rings", TRACERD_SNAPSHOT);
    answers(OK, tracerd_start(s, 1));
    is(openings_in("rings") == 1);
    tracerd_free(s);
    counts_as_one();
}

static void hold(void) {
    tracerd_producer *p;
    tracerd_session *s = made("rings", TRACERD_SNAPSHOT);
    is((mode_of(below("rings")) & 0777) == 0600);
    answers(OK, tracerd_declare(s, "told 7 worker:u32", NULL));
    answers(OK, tracerd_producer_new(s, "c", &p));
    is(packets_in("rings") == 0);
    is(!has_text("rings", "told"));
    answers(OK, tracerd_start(s, 1));
    is(has_text("rings", "/* CTF 1.8 */") && has_text("rings", "told"));
    offer(p, 1);
    is(packets_in("rings") == 1);
    offer(p, 2);
    is(packets_in("rings") == 3);
    offer(p, 9);
    is(packets_in("rings") == 4); /* the oldest ones are overwritten */
    tracerd_free(s);
    is(!is_below("rings"));
    counts_as_one();
}

/* What is drained stays until it is released, and pages that take its place are in the file too. */
static void drain(void) {
    tracerd_producer *p;
    uint64_t packets, archive;
    tracerd_session *s = made("rings", TRACERD_LOCAL);
    answers(OK, tracerd_producer_new(s, "c", &p));
    answers(OK, tracerd_start(s, 1));
    offer(p, 3);
    answers(OK, tracerd_drain(s, &packets));
    is(packets == 2 && packets_in("rings") == 3);
    offer(p, 3);
    is(packets_in("rings") == 6);
    answers(OK, tracerd_rotate(s, 9, &archive));
    offer(p, 2);
    is(packets_in("rings") == 8);
    answers(OK, tracerd_release(s, archive));
    is(packets_in("rings") == 2);
    tracerd_free(s);
    counts_as_one();
}

/* What is cleared isn't there any more, whether it was in the ring or drained. */
static void clear(void) {
    tracerd_producer *p;
    uint64_t n;
    tracerd_session *s = made("rings", TRACERD_LOCAL);
    answers(OK, tracerd_producer_new(s, "c", &p));
    answers(OK, tracerd_start(s, 1));
    offer(p, 3);
    answers(OK, tracerd_drain(s, &n));
    offer(p, 3);
    is(packets_in("rings") == 6);
    answers(OK, tracerd_clear(s, &n));
    is(n == 6 && packets_in("rings") == 0);
    offer(p, 1);
    is(packets_in("rings") == 1);
    tracerd_free(s);
    counts_as_one();
}

/* A call that a signal interrupts is made again. */
static void interrupt(void) {
    tracerd_producer *p;
    interruptions = 3;
    tracerd_session *s = made("rings", TRACERD_LOCAL);
    is(interruptions == 0);
    interruptions = 3;
    answers(OK, tracerd_producer_new(s, "c", &p));
    is(interruptions == 0);
    tracerd_free(s);
    counts_as_one();
}

/* The file is the one that was made, wherever the program goes. */
static void go_elsewhere(void) {
    char before[PATH];
    tracerd_session *s;
    answers(OK, tracerd_new(&s, "s", ONE, 0, TRACERD_LOCAL));
    is(getcwd(before, sizeof before) && !chdir(dir));
    answers(OK, tracerd_rings_in(s, "relative"));
    is(!chdir(before) && is_below("relative"));
    tracerd_free(s);
    is(!is_below("relative"));
    counts_as_one();
}

/* A file system that is full refuses a producer, and a drain that lacks a page, which goes on later. */
static void fill(void) {
    tracerd_producer *p;
    uint64_t packets = 0, all = 0;
    tracerd_session *s = made("rings", TRACERD_LOCAL);
    is_full = 1;
    answers(NO_MEMORY, tracerd_producer_new(s, "c", &p));
    is_full = 0;
    answers(OK, tracerd_producer_new(s, "c", &p));
    answers(OK, tracerd_start(s, 1));
    is_full = 1;
    tracerd_status status = TRACERD_OK;
    for (int i = 0; i < 100 && !status; i++) {
        offer(p, 1);
        status = tracerd_drain(s, &packets);
        all += packets;
    }
    is(status == TRACERD_NO_MEMORY && all > 0);
    is_full = 0;
    answers(OK, tracerd_drain(s, &packets));
    tracerd_free(s);
    counts_as_one();
}

/* What is there already stays, by another name; so does what has taken the file's place. */
static void keep(void) {
    tracerd_session *first = made("rings", TRACERD_LOCAL), *second = made("rings", TRACERD_LOCAL);
    is(is_below("rings") && is_below("rings.1"));
    is(!rename(below("rings"), below("mine")));
    is(!symlink("mine", below("rings")));
    tracerd_free(second);
    is(is_below("mine"));
    tracerd_free(first);
    is(is_below("rings.1")); /* it has another name than it was made by */
    answers(OK, tracerd_new(&first, "s", ONE, 0, TRACERD_LOCAL));
    answers(WRITE, tracerd_rings_in(first, below("rings")));
    is(errno == EEXIST); /* a link isn't followed */
    tracerd_free(first);
    counts_as_one();
}

static void make_many(void) {
    enum { FILES = 16 };
    tracerd_session *many[FILES], *more;
    char name[16];
    for (int i = 0; i < FILES; i++) {
        snprintf(name, sizeof name, "many%d", i);
        many[i] = made(name, TRACERD_LOCAL);
    }
    answers(OK, tracerd_new(&more, "s", ONE, 0, TRACERD_LOCAL));
    answers(WRITE, tracerd_rings_in(more, below("more")));
    is(errno == EMFILE && !is_below("more"));
    tracerd_free(many[0]);
    answers(OK, tracerd_rings_in(more, below("more")));
    tracerd_free(more);
    for (int i = 1; i < FILES; i++) tracerd_free(many[i]);
    counts_as_one();
}

int main(int count, char **words) {
    if (count < 2) return 2;
    dir = words[1];
    refuse();
    hold();
    describe_many();
    drain();
    clear();
    interrupt();
    go_elsewhere();
    fill();
    keep();
    if (count == 2) make_many(); /* valgrind has too few addresses for them */
    return closing();
}
