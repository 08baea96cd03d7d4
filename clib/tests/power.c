/* The disk is full, or the power is cut, before the k-th system call of a write or a snapshot, for each k. Then the archive is
 * not there, or all of it is; what was there stays; no descriptor is left open; and the same call goes through once the disk is
 * well. Of what was answered OK nothing is lost.
 *
 *     power DIR     a folder that is there, in which files are written */
#include "disk.h"

enum { RECORDS = 40 };

static const char NAME[] = "19700101T000000+0000-19700101T000000+0000-0";
static const char STOPPED[] = "stopped/there"; /* the folder, of which each part may be missing */
static const char *dir;
static tracerd_session *session;
static tracerd_status (*keep)(const char *folder);

static const char *in(const char *folder, const char *way, const char *file) {
    static char path[4][4400];
    static int next;
    char *to = path[next++ % 4];
    snprintf(to, sizeof path[0], "%s/%s%s%s%s", dir, folder, *way ? "/s/archives/" : "", way, file);
    return to;
}

static tracerd_status write_first(const char *folder) { return tracerd_write(session, 0, in(folder, "", "")); }
static tracerd_status show(const char *folder) { return tracerd_snapshot(session, 9, in(folder, "", "")); }

static void begin(tracerd_kind kind) {
    tracerd_producer *p;
    tracerd_offered o;
    uint64_t n;
    answers(OK, tracerd_new(&session, "s", ONE, 0, kind));
    answers(OK, tracerd_channel(session, "c", 256, 64, TRACERD_OVERWRITE));
    answers(OK, tracerd_producer_new(session, "c", &p));
    answers(OK, tracerd_producer_new(session, "c", &p));
    answers(OK, tracerd_start(session, 0));
    for (uint64_t k = 0; k < RECORDS; k++) answers(OK, tracerd_offer(p, k, 1, "a record of some bytes", 22, &o));
    if (kind == TRACERD_LOCAL) answers(OK, tracerd_rotate(session, 9, &n));
    keep = kind == TRACERD_LOCAL ? write_first : show;
}

static long size_of(const char *path) {
    struct stat about;
    return lstat(path, &about) || !S_ISREG(about.st_mode) ? -1 : (long)about.st_size;
}

static bool is_same(const char *one, const char *other) {
    static char bytes[2][65536];
    size_t sizes[2];
    for (int i = 0; i < 2; i++) {
        FILE *file = fopen(i ? other : one, "rb");
        if (!file) return false;
        sizes[i] = fread(bytes[i], 1, sizeof bytes[i], file);
        fclose(file);
    }
    return sizes[0] == sizes[1] && !memcmp(bytes[0], bytes[1], sizes[0]);
}

/* The archive below a folder is that which was first written, whole. */
static bool is_whole(const char *folder) {
    static const char *const files[] = {"/c_0", "/c_1", "/metadata"};
    for (int i = 0; i < 3; i++)
        if (!is_same(in("first", NAME, files[i]), in(folder, NAME, files[i]))) return false;
    return true;
}

static bool is_there(const char *path) { return !access(path, F_OK); }

static int descriptors(void) {
    int count = 0;
    DIR *open = opendir("/proc/self/fd");
    while (readdir(open)) count++;
    closedir(open);
    return count;
}

/* ---- What is there before ---- */

static void nothing(const char *folder) {
    (void)folder;
    remove_all(in("stopped", "", ""));
}

/* What is left of an attempt that stopped between two pieces. */
static void left_over(const char *folder) {
    remove_all(in(folder, "", ""));
    answers(OK, keep(folder));
    is(!rename(in(folder, NAME, ""), in(folder, ".19700101T000000+0000-19700101T000000+0000-0.part", "")));
    is(!truncate(in(folder, ".19700101T000000+0000-19700101T000000+0000-0.part", "/c_1"), 99));
    losable = 0;
}

static void whole_archive(const char *folder) {
    remove_all(in(folder, "", ""));
    answers(OK, keep(folder));
    losable = 0;
}

/* An earlier attempt came as far as the new name, and the disk has nothing of it for sure. */
static void unsure_archive(const char *folder) {
    whole_archive(folder);
    const char *const files[] = {"/c_0", "/c_1", "/metadata", "", "/.."};
    for (int i = 0; i < 5; i++) {
        int file = __real_open(in(folder, NAME, files[i]), O_RDONLY);
        may_lose(file, i == 3 ? "metadata" : i == 4 ? NAME : NULL);
        __real_close(file);
    }
}

/* ---- */

/* Whether the call was stopped. */
static bool stops(long at, enum failure failure, void (*before)(const char *folder)) {
    stops_at = -1;
    before(STOPPED);
    bool was_there = is_there(in(STOPPED, NAME, ""));
    int open = descriptors();
    calls = 0;
    stops_at = at;
    tracerd_status status = keep(STOPPED);
    bool is_stopped = calls > at;
    stops_at = -1;
    is(descriptors() == open);
    bool is_told = (status == TRACERD_WRITE || status == TRACERD_READ) && (errno == ENOSPC || errno == EIO);
    is(status == TRACERD_OK || (is_stopped && is_told));
    is(status != TRACERD_OK || !losable);
    if (before != unsure_archive) cut_power(failure);
    is(is_there(in(STOPPED, NAME, "")) ? is_whole(STOPPED) : status != TRACERD_OK && !was_there);
    losable = 0;
    answers(OK, keep(STOPPED));
    is(is_whole(STOPPED) && !losable);
    is(!is_there(in(STOPPED, ".19700101T000000+0000-19700101T000000+0000-0.part", "")));
    return is_stopped;
}

static void stops_anywhere(tracerd_kind kind) {
    void (*const befores[])(const char *) = {nothing, left_over, whole_archive, unsure_archive};
    begin(kind);
    answers(OK, keep("first"));
    is(size_of(in("first", NAME, "/c_0")) == 0 && size_of(in("first", NAME, "/c_1")) == 80 * ((RECORDS + 2) / 3) + RECORDS * 46);
    for (int i = 0; i < 4; i++) {
        for (enum failure failure = IS_FULL; failure <= LOSES_EARLIER_NAMES; failure++) {
            long k = 0;
            while (stops(k, failure, befores[i])) k++;
            is(k > 10);
        }
        counts_as_one();
    }
    tracerd_free(session);
    remove_all(in("first", "", ""));
}

int main(int count, char **words) {
    if (count != 2) return 2;
    dir = words[1];
    stops_anywhere(TRACERD_LOCAL);
    stops_anywhere(TRACERD_SNAPSHOT);
    return closing();
}
