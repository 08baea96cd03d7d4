/* An archive is written once, beside its place: what is there already, and what links point to, is never touched.
 *
 *     archives DIR     a folder that is there, in which files are written */
#include "sessions.h"
#include <errno.h>
#include <fcntl.h>
#include <signal.h>
#include <stdbool.h>
#include <sys/file.h>
#include <sys/resource.h>
#include <sys/stat.h>
#include <unistd.h>

#define NAME "19700101T000000+0000-19700101T000000+0000-0"
enum { STREAM_BYTES = 80 + 24 + 27 };

/* ---- Another program ---- */

static const char *finishes_from, *finishes_to;
static bool begins_another;
int __real_flock(int file, int how);

/* It renames what it wrote, just before somebody else comes to hold it, and may begin to write again. */
int __wrap_flock(int file, int how) {
    if (finishes_from && how & LOCK_EX) {
        is(!rename(finishes_from, finishes_to));
        if (begins_another) is(!mkdir(finishes_from, 0777));
        finishes_from = NULL;
    }
    return __real_flock(file, how);
}

/* ---- What is below a folder ---- */

static const char *at(const char *folder, const char *name) {
    static char paths[32][4300];
    static int next;
    char *path = paths[next++ % 32];
    snprintf(path, sizeof paths[0], "%s/%s%s%s", dir, folder, *name ? "/" : "", name);
    return path;
}

static void makes_folders(const char *folder) {
    is(!mkdir(at(folder, ""), 0777) && !mkdir(at(folder, "s"), 0777) && !mkdir(at(folder, "s/archives"), 0777));
}

static void puts_file(const char *path, const char *text) {
    FILE *file = fopen(path, "wb");
    is(file && fputs(text, file) >= 0 && !fclose(file));
}

static bool has_text(const char *path, const char *text) {
    char found[100] = "";
    FILE *file = fopen(path, "rb");
    if (!file) return false;
    (void)!fread(found, 1, sizeof found - 1, file);
    fclose(file);
    return !strcmp(found, text);
}

static bool is_missing(const char *path) { return access(path, F_OK) && errno == ENOENT; }

static long size_of(const char *path) {
    struct stat about;
    return lstat(path, &about) ? -1 : (long)about.st_size;
}

static void archives_one(tracerd_session *s, tracerd_producer *p) {
    uint64_t n;
    answers(OK, tracerd_start(s, 0));
    is_stored(p, 0, 27, 0, 0);
    answers(OK, tracerd_rotate(s, 0, &n));
}

/* ---- */

/* What is there stays as it is; it is answered OK if it is just what would be written. */
static void writes_once(tracerd_session *s, tracerd_producer *p) {
    struct stat before, after;
    const char *stream = at("once", "s/archives/" NAME "/c_0"), *more = at("once", "s/archives/" NAME "/d_1");
    archives_one(s, p);
    answers(OK, tracerd_write(s, 0, below("once")));
    is(!stat(stream, &before));
    answers(OK, tracerd_write(s, 0, below("once")));
    is(!stat(stream, &after) && before.st_ino == after.st_ino && before.st_mtim.tv_nsec == after.st_mtim.tv_nsec);
    puts_file(more, "");
    answers(EXISTS, tracerd_write(s, 0, below("once"))); /* another stream */
    is(!remove(more));
    answers(OK, tracerd_write(s, 0, below("once")));
    is(!truncate(stream, STREAM_BYTES + 1));
    answers(EXISTS, tracerd_write(s, 0, below("once")));
    is(size_of(stream) == STREAM_BYTES + 1 && !truncate(stream, STREAM_BYTES));
    answers(OK, tracerd_write(s, 0, below("once")));
    is(!truncate(stream, STREAM_BYTES - 1));
    answers(EXISTS, tracerd_write(s, 0, below("once")));
    is(!truncate(stream, STREAM_BYTES)); /* now its last byte is another */
    answers(EXISTS, tracerd_write(s, 0, below("once")));
    is(!rename(stream, more));
    answers(EXISTS, tracerd_write(s, 0, below("once")));
    is(is_missing(stream) && size_of(more) == STREAM_BYTES);
}

/* Metadata is compared too; and an empty folder is no archive, but has its name. */
static void writes_no_half(tracerd_session *s, tracerd_producer *p) {
    archives_one(s, p);
    answers(OK, tracerd_write(s, 0, below("half")));
    is(!truncate(at("half", "s/archives/" NAME "/metadata"), 100));
    answers(EXISTS, tracerd_write(s, 0, below("half")));
    is(size_of(at("half", "s/archives/" NAME "/metadata")) == 100);
    makes_folders("empty");
    is(!mkdir(at("empty", "s/archives/" NAME), 0777));
    answers(EXISTS, tracerd_write(s, 0, below("empty")));
    is(is_missing(at("empty", "s/archives/" NAME "/metadata")));
    answers(WRITE, tracerd_write(s, 0, ""));
    is(errno == ENOENT);
}

/* Below the folder that is named. That one may be a link. */
static void follows_no_links(tracerd_session *s, tracerd_producer *p) {
    uint64_t n;
    archives_one(s, p);
    is(!mkdir(below("elsewhere"), 0777) && !mkdir(below("links"), 0777));
    puts_file(at("elsewhere", "c_0"), "precious");
    is(!symlink(below("elsewhere"), at("links", "s")));
    answers(WRITE, tracerd_write(s, 0, below("links")));
    is(!unlink(at("links", "s")) && !mkdir(at("links", "s"), 0777));
    is(!symlink(below("elsewhere"), at("links", "s/archives")));
    answers(WRITE, tracerd_write(s, 0, below("links")));
    is(!unlink(at("links", "s/archives")) && !mkdir(at("links", "s/archives"), 0777));
    is(!symlink(below("elsewhere"), at("links", "s/archives/." NAME ".part")));
    answers(WRITE, tracerd_write(s, 0, below("links")));
    is(!unlink(at("links", "s/archives/." NAME ".part")));
    is(!symlink(below("elsewhere"), at("links", "s/archives/" NAME)));
    answers(EXISTS, tracerd_write(s, 0, below("links")));
    is(has_text(at("elsewhere", "c_0"), "precious") && is_missing(at("elsewhere", "metadata")));
    is(!unlink(at("links", "s/archives/" NAME)) && !symlink(at("links", ""), at("link", "")));
    answers(OK, tracerd_write(s, 0, below("link")));
    is(size_of(at("links", "s/archives/" NAME "/c_0")) == STREAM_BYTES);
    /* the very bytes, but by a link; then what nobody writes to */
    is(!rename(at("links", "s/archives/" NAME "/c_0"), at("same", "")));
    is(!symlink(at("same", ""), at("links", "s/archives/" NAME "/c_0")));
    answers(EXISTS, tracerd_write(s, 0, below("links")));
    is(!unlink(at("links", "s/archives/" NAME "/c_0")) && !mkfifo(at("links", "s/archives/" NAME "/c_0"), 0600));
    answers(EXISTS, tracerd_write(s, 0, below("links")));
    /* and a pipe has no bytes, as the stream's file */
    const char *stream = at("links", "s/archives/19700101T000000+0000-19700101T000000+0000-1/c_0");
    answers(OK, tracerd_rotate(s, 0, &n));
    answers(OK, tracerd_write(s, n, below("links")));
    is(!unlink(stream) && !mkfifo(stream, 0600));
    answers(EXISTS, tracerd_write(s, n, below("links")));
}

/* Only an archive's own files are removed of what an attempt has left, and nothing while another program writes there. */
static void clears_left_overs(tracerd_session *s, tracerd_producer *p) {
    const char *part = at("left", "s/archives/." NAME ".part"), *other = at("left", "s/archives/." NAME ".part/notes");
    archives_one(s, p);
    makes_folders("left");
    is(!mkdir(part, 0777));
    puts_file(at("left", "s/archives/." NAME ".part/c_0"), "half");
    puts_file(other, "mine");
    answers(WRITE, tracerd_write(s, 0, below("left")));
    is(errno == ENOTEMPTY && has_text(other, "mine") && is_missing(at("left", "s/archives/" NAME)));
    is(!remove(other));
    int file = open(part, O_RDONLY | O_DIRECTORY);
    is(file >= 0 && !flock(file, LOCK_EX));
    puts_file(at("left", "s/archives/." NAME ".part/c_0"), "half");
    answers(WRITE, tracerd_write(s, 0, below("left")));
    is(errno == EAGAIN && has_text(at("left", "s/archives/." NAME ".part/c_0"), "half") && !close(file));
    answers(OK, tracerd_write(s, 0, below("left")));
    is(is_missing(part) && size_of(at("left", "s/archives/" NAME "/c_0")) == STREAM_BYTES);
}

/* A folder that another program finishes is none of what is left, also if there is another one of its name by then. */
static void leaves_what_is_finished(tracerd_session *s, tracerd_producer *p) {
    const char *part = at("raced", "s/archives/." NAME ".part"), *whole = at("raced", "s/archives/" NAME);
    archives_one(s, p);
    answers(OK, tracerd_write(s, 0, below("raced")));
    for (int round = 0; round < 2; round++) {
        begins_another = round == 1;
        is(!rename(whole, part));
        finishes_from = part;
        finishes_to = whole;
        answers(WRITE, tracerd_write(s, 0, below("raced")));
        is(errno == EAGAIN && !finishes_from && size_of(at("raced", "s/archives/" NAME "/c_0")) == STREAM_BYTES);
        is(is_missing(part) == !begins_another);
        answers(OK, tracerd_write(s, 0, below("raced")));
    }
}

/* The disk takes 100 bytes a file: the archive that is there stays whole, and of another one nothing is left. */
static void meets_a_full_disk(tracerd_session *s, tracerd_producer *p) {
    struct rlimit before, small = {100, RLIM_INFINITY};
    archives_one(s, p);
    answers(OK, tracerd_write(s, 0, below("full")));
    is(signal(SIGXFSZ, SIG_IGN) != SIG_ERR && !getrlimit(RLIMIT_FSIZE, &before));
    is(!setrlimit(RLIMIT_FSIZE, &small));
    tracerd_status again = tracerd_write(s, 0, below("full")), first = tracerd_write(s, 0, below("fuller"));
    int why = errno;
    is(!setrlimit(RLIMIT_FSIZE, &before));
    is(again == TRACERD_OK && first == TRACERD_WRITE && why == EFBIG);
    is(size_of(at("full", "s/archives/" NAME "/c_0")) == STREAM_BYTES);
    is(is_missing(at("fuller", "s/archives/" NAME)) && is_missing(at("fuller", "s/archives/." NAME ".part")));
    answers(OK, tracerd_write(s, 0, below("fuller")));
}

/* A folder has one snapshot of a second: the same again is OK, another is refused. */
static void shows_each_once(void) {
    tracerd_producer *p;
    tracerd_session *s = fresh(TRACERD_SNAPSHOT, TRACERD_OVERWRITE, &p);
    answers(OK, tracerd_start(s, 0));
    is_stored(p, 0, 27, 0, 0);
    answers(OK, tracerd_snapshot(s, 1, below("shown")));
    answers(OK, tracerd_snapshot(s, 1, below("shown")));
    is_stored(p, 1, 27, 1, 0);
    answers(EXISTS, tracerd_snapshot(s, 1, below("shown")));
    is(size_of(at("shown", "s/archives/" NAME "/c_0")) == STREAM_BYTES);
    answers(OK, tracerd_snapshot(s, 1, below("shown/later")));
    answers(WRITE, tracerd_snapshot(s, 1, ""));
    is(errno == ENOENT);
    tracerd_free(s);
}

int main(int count, char **words) {
    void (*const alone[])(void) = {shows_each_once};
    void (*const with_session[])(tracerd_session *, tracerd_producer *) = {
        writes_once, writes_no_half, follows_no_links, clears_left_overs, leaves_what_is_finished, meets_a_full_disk};
    static char folder[4096]; /* links need all of its path */
    if (count != 2 || !realpath(words[1], folder)) return 2;
    begin(folder);
    EACH_ALONE(alone);
    EACH_WITH_SESSION(with_session);
    return closing();
}
