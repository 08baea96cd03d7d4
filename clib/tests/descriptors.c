/* What calls that write and read files leave open, pass on and make: no descriptor is left; none goes to a program that another
 * thread starts meanwhile; folders and files have the modes that the program's mask leaves; and a call that a signal interrupts
 * is made again.
 *
 *     descriptors DIR     a folder that is there, in which files are written
 *
 * As `descriptors --open COUNT` it says by its status whether it has so many descriptors open. */
#include "interrupted.h"
#include "sessions.h"
#include <dirent.h>
#include <sys/stat.h>
#include <sys/wait.h>
#include <unistd.h>

#define ARCHIVE "s/archives/19700101T000000+0000-19700101T000000+0000-0"
#define PART "s/archives/.19700101T000000+0000-19700101T000000+0000-0.part"

static int descriptors(void) {
    int count = 0;
    DIR *folder = opendir("/proc/self/fd");
    while (readdir(folder)) count++;
    closedir(folder);
    return count;
}

/* ---- Calls that a program is started after, and calls that are interrupted ---- */

static bool is_starting;
static int open_before, started;

int __real_open(const char *path, int flags, ...);
ssize_t __real_read(int file, void *to, size_t size);
ssize_t __real_write(int file, const void *from, size_t size);
int __real_fsync(int file);
int __real_fdatasync(int file);
int __real_close(int file);

/* A program that is started now has those open alone that were before. */
static int passed_on(int opened) {
    char count[16];
    int status = -1, before = errno;
    if (!is_starting || opened < 0) return opened;
    snprintf(count, sizeof count, "%d", open_before);
    pid_t it = fork();
    if (!it) {
        execl("/proc/self/exe", "descriptors", "--open", count, (char *)NULL);
        _exit(1);
    }
    is(it > 0 && waitpid(it, &status, 0) == it && status == 0);
    started++;
    errno = before;
    return opened;
}

int __wrap_openat(int at, const char *name, int flags, ...) {
    va_list more;
    va_start(more, flags);
    int opened = open_or_not(at, name, flags, more);
    va_end(more);
    return passed_on(opened);
}

int __wrap_open(const char *path, int flags, ...) { return is_interrupted() ? -1 : passed_on(__real_open(path, flags)); }

ssize_t __wrap_read(int file, void *to, size_t size) { return is_interrupted() ? -1 : __real_read(file, to, size); }

ssize_t __wrap_write(int file, const void *from, size_t size) { return is_interrupted() ? -1 : __real_write(file, from, size); }

int __wrap_fsync(int file) { return is_interrupted() ? -1 : __real_fsync(file); }

int __wrap_fdatasync(int file) { return is_interrupted() ? -1 : __real_fdatasync(file); }

/* It is closed all the same, and isn't to be closed again: another thread may have got its number. */
int __wrap_close(int file) {
    int status = __real_close(file);
    if (is_interrupting) is(!status);
    if (is_interrupting) errno = EINTR;
    return is_interrupting ? -1 : status;
}

/* ---- */

static void archives_one(tracerd_session *s, tracerd_producer *p) {
    uint64_t n;
    answers(OK, tracerd_start(s, 0));
    is_stored(p, 0, 27, 0, 0);
    answers(OK, tracerd_rotate(s, 0, &n));
}

static const char *in(const char *folder, const char *name) {
    static char paths[8][4300];
    static int next;
    char *path = paths[next++ % 8];
    snprintf(path, sizeof paths[0], "%s/%s%s%s", dir, folder, *name ? "/" : "", name);
    return path;
}

static void puts_byte(const char *path) {
    int file = open(path, O_WRONLY);
    is(file >= 0 && write(file, "x", 1) == 1 && !close(file));
}

static void leaves_none(tracerd_session *s, tracerd_producer *p) {
    tracerd_audited a;
    int before = descriptors();
    archives_one(s, p);
    answers(OK, tracerd_write(s, 0, in("left", "")));
    answers(OK, tracerd_write(s, 0, in("left", "")));
    answers(OK, tracerd_audit(in("left", ""), "s", "c", 0, ONE, &a));
    answers(READ, tracerd_audit(in("left", ""), "s", "c", 1, ONE, &a));
    answers(READ, tracerd_audit(in("nowhere", ""), "s", "c", 0, ONE, &a));
    is(descriptors() == before);
    puts_byte(in("left", ARCHIVE "/c_0"));
    answers(EXISTS, tracerd_write(s, 0, in("left", "")));
    answers(PACKET, tracerd_audit(in("left", ""), "s", "c", 0, ONE, &a));
    is(!unlink(in("left", ARCHIVE "/c_0")) && !mkdir(in("left", ARCHIVE "/c_0"), 0777));
    answers(EXISTS, tracerd_write(s, 0, in("left", "")));
    answers(READ, tracerd_audit(in("left", ""), "s", "c", 0, ONE, &a)); /* a folder can be opened, and not be read */
    is(errno == EISDIR && descriptors() == before);
    is(!rename(in("left", ARCHIVE), in("left", PART)));
    answers(WRITE, tracerd_write(s, 0, in("left", ""))); /* which removes no folder */
    answers(WRITE, tracerd_write(s, 0, in("left", PART "/metadata/x")));
    is(descriptors() == before);
}

static void passes_none_on(tracerd_session *s, tracerd_producer *p) {
    tracerd_audited a;
    archives_one(s, p);
    open_before = descriptors();
    is_starting = true;
    answers(OK, tracerd_write(s, 0, in("passed", "on")));
    answers(OK, tracerd_write(s, 0, in("passed", "on")));
    answers(OK, tracerd_audit(in("passed", "on"), "s", "c", 0, ONE, &a));
    is_starting = false;
    is(started > 10);
}

static void has_mode(const char *path, mode_t mode) {
    struct stat about;
    is(!stat(path, &about) && (about.st_mode & 07777) == mode);
}

static void makes_by_mask(tracerd_session *s, tracerd_producer *p) {
    static const mode_t masks[] = {0, 022, 027};
    mode_t before = umask(0);
    archives_one(s, p);
    for (int i = 0; i < 3; i++) {
        char folder[32];
        snprintf(folder, sizeof folder, "masked%d/deeper", i);
        umask(masks[i]);
        answers(OK, tracerd_write(s, 0, in(folder, "")));
        folder[7] = 0;
        has_mode(in(folder, ""), 0777 & ~masks[i]);
        has_mode(in(folder, "deeper"), 0777 & ~masks[i]);
        has_mode(in(folder, "deeper/s"), 0777 & ~masks[i]);
        has_mode(in(folder, "deeper/s/archives"), 0777 & ~masks[i]);
        has_mode(in(folder, "deeper/" ARCHIVE), 0777 & ~masks[i]);
        has_mode(in(folder, "deeper/" ARCHIVE "/c_0"), 0666 & ~masks[i]);
        has_mode(in(folder, "deeper/" ARCHIVE "/metadata"), 0666 & ~masks[i]);
    }
    umask(before);
}

static void goes_on_after_signals(tracerd_session *s, tracerd_producer *p) {
    tracerd_audited a = {0};
    archives_one(s, p);
    is_interrupting = true;
    tracerd_status written = tracerd_write(s, 0, in("interrupted", ""));
    int before = interrupted;
    tracerd_status again = tracerd_write(s, 0, in("interrupted", ""));
    int compared = interrupted;
    tracerd_status audited = tracerd_audit(in("interrupted", ""), "s", "c", 0, ONE, &a);
    is_interrupting = false;
    answers(OK, written);
    answers(OK, again);
    answers(OK, audited);
    is(a.records == 1 && before > 10 && compared > before + 5 && interrupted > compared + 1);
}

int main(int count, char **words) {
    void (*const with_session[])(tracerd_session *, tracerd_producer *) = {leaves_none, passes_none_on, makes_by_mask,
                                                                           goes_on_after_signals};
    if (count == 3 && !strcmp(words[1], "--open")) return descriptors() != atoi(words[2]);
    if (count != 2) return 2;
    begin(words[1]);
    EACH_WITH_SESSION(with_session);
    return closing();
}
