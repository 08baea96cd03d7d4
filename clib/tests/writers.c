/* Who writes an archive is waited for by who releases it, and by who writes it to the same place, and by nobody else; and a file
 * gets all its bytes, though calls are interrupted and write little at a time.
 *
 *     writers DIR     a folder that is there, in which files are written */
#include "interrupted.h"
#include "sessions.h"
#include <pthread.h>
#include <semaphore.h>
#include <stdatomic.h>
#include <sys/stat.h>
#include <time.h>
#include <unistd.h>

enum { RECORDS = 5, EACH = 65000 };

static sem_t writing, goes_on;
static atomic_bool stops_once, is_released, is_written;

ssize_t __real_write(int file, const void *from, size_t size);
int __real_fdatasync(int file);

int __wrap_openat(int at, const char *name, int flags, ...) {
    va_list more;
    va_start(more, flags);
    int opened = open_or_not(at, name, flags, more);
    va_end(more);
    return opened;
}

static ssize_t write_slowly(int file, const void *from, size_t size) {
    static bool is_second;
    if (is_interrupted()) return -1;
    if (!is_second) {
        is_second = true;
        sem_post(&writing);
        nanosleep(&(struct timespec){0, 100000000}, NULL); /* by then a release would be over */
    }
    is(!is_released);
    return __real_write(file, from, size < 1000 ? size : 1000);
}

/* The first call to write while `stops_once` stands until the test lets it go on. */
ssize_t __wrap_write(int file, const void *from, size_t size) {
    if (is_interrupting) return write_slowly(file, from, size);
    if (atomic_exchange(&stops_once, false)) {
        sem_post(&writing);
        sem_wait(&goes_on);
    }
    return __real_write(file, from, size);
}

int __wrap_fdatasync(int file) { return is_interrupted() ? -1 : __real_fdatasync(file); }

static const char *folder; /* that of the writers */

static void *write_first(void *session) {
    answers(OK, tracerd_write(session, 0, folder));
    is_written = true;
    return NULL;
}

static void *release_first(void *session) {
    answers(OK, tracerd_release(session, 0));
    is_released = true;
    return NULL;
}

/* A session with two archives, of which the first has the records. */
static tracerd_session *with_two_archives(void) {
    tracerd_session *s;
    tracerd_producer *p;
    tracerd_offered o;
    uint64_t n;
    answers(OK, tracerd_new(&s, "s", ONE, 0, TRACERD_LOCAL));
    answers(OK, tracerd_channel(s, "c", 65536, 8, TRACERD_DISCARD));
    answers(OK, tracerd_producer_new(s, "c", &p));
    answers(OK, tracerd_start(s, 0));
    for (uint64_t k = 0; k < RECORDS; k++) answers(OK, tracerd_offer(p, k, 7, letters, EACH, &o));
    answers(OK, tracerd_rotate(s, 0, &n));
    answers(OK, tracerd_rotate(s, 0, &n));
    is_released = is_written = false;
    return s;
}

static const char *path_in(const char *name) {
    static char path[4200];
    snprintf(path, sizeof path, "%s/%s", dir, name);
    return path;
}

/* While an archive is written a release of it waits, and no other. */
static void keeps_what_is_written(void) {
    static char file[4200];
    tracerd_audited a;
    struct stat about;
    pthread_t writer, releaser;
    tracerd_session *s = with_two_archives();
    folder = path_in("slow");
    is_interrupting = true;
    is(!pthread_create(&writer, NULL, write_first, s) && !sem_wait(&writing));
    answers(OK, tracerd_release(s, 1));
    is(!is_written);
    is(!pthread_create(&releaser, NULL, release_first, s));
    pthread_join(writer, NULL);
    pthread_join(releaser, NULL);
    is_interrupting = false;
    is(interrupted > RECORDS * EACH / 1000);
    snprintf(file, sizeof file, "%s/s/archives/19700101T000000+0000-19700101T000000+0000-0/c_0", folder);
    is(!stat(file, &about) && about.st_size == RECORDS * (80 + 24 + EACH));
    answers(OK, tracerd_audit(folder, "s", "c", 0, ONE, &a));
    is(a.records == RECORDS);
    answers(RELEASED, tracerd_write(s, 0, folder));
    tracerd_free(s);
}

/* While a write stands, other archives are written, and the same one elsewhere, also a second time; what is written is audited;
 * other calls go on, and another archive is released. */
static void *write_beside(void *session) {
    tracerd_session *s = session;
    tracerd_audited a;
    tracerd_about about;
    uint64_t n;
    answers(OK, tracerd_rotate(s, 0, &n));
    answers(OK, tracerd_write(s, 1, folder));
    answers(OK, tracerd_write(s, n, folder));
    answers(OK, tracerd_write(s, n, folder));
    answers(OK, tracerd_release(s, 1));
    answers(OK, tracerd_write(s, 0, below("elsewhere")));
    answers(OK, tracerd_write(s, 0, below("elsewhere")));
    answers(OK, tracerd_audit(below("elsewhere"), "s", "c", 0, ONE, &a));
    is(a.records == RECORDS);
    answers(OK, tracerd_about_of(s, &about));
    is(about.archives == n + 1 && !is_written && !is_released);
    return NULL;
}

/* Whether a thread ends while the write stands. If it doesn't, the write goes on, so that it ends. */
static bool ends_meanwhile(pthread_t thread) {
    struct timespec until;
    clock_gettime(CLOCK_REALTIME, &until);
    until.tv_sec += 5;
    if (!pthread_timedjoin_np(thread, NULL, &until)) return true;
    sem_post(&goes_on);
    pthread_join(thread, NULL);
    return false;
}

/* The same write to the same place, and a release, wait until it has ended. */
static void keeps_only_them_waiting(void) {
    pthread_t writer, beside, other, releaser;
    tracerd_session *s = with_two_archives();
    folder = path_in("beside");
    stops_once = true;
    is(!pthread_create(&writer, NULL, write_first, s) && !sem_wait(&writing));
    is(!pthread_create(&beside, NULL, write_beside, s) && ends_meanwhile(beside));
    is(!pthread_create(&other, NULL, write_first, s));
    nanosleep(&(struct timespec){0, 50000000}, NULL); /* by then it would be over */
    is(!is_written);
    is(!pthread_create(&releaser, NULL, release_first, s));
    nanosleep(&(struct timespec){0, 50000000}, NULL);
    is(!is_written && !is_released);
    sem_post(&goes_on);
    pthread_join(writer, NULL);
    pthread_join(other, NULL);
    pthread_join(releaser, NULL);
    is(is_written && is_released);
    answers(RELEASED, tracerd_write(s, 0, folder));
    tracerd_free(s);
}

static void *show_elsewhere(void *session) {
    answers(OK, tracerd_snapshot(session, 1, below("shown/later")));
    return NULL;
}

static void *show(void *session) {
    answers(OK, tracerd_snapshot(session, 1, folder));
    is_written = true;
    return NULL;
}

/* Snapshots are taken side by side too, each into a folder of its own. */
static void shows_beside(void) {
    tracerd_producer *p;
    pthread_t first, second, elsewhere;
    tracerd_session *s = fresh(TRACERD_SNAPSHOT, TRACERD_OVERWRITE, &p);
    answers(OK, tracerd_start(s, 0));
    is_stored(p, 0, 27, 0, 0);
    is_written = false;
    folder = path_in("shown");
    stops_once = true;
    is(!pthread_create(&first, NULL, show, s) && !sem_wait(&writing));
    is(!pthread_create(&elsewhere, NULL, show_elsewhere, s) && ends_meanwhile(elsewhere));
    is(!pthread_create(&second, NULL, show, s));
    nanosleep(&(struct timespec){0, 50000000}, NULL);
    is(!is_written);
    sem_post(&goes_on);
    pthread_join(first, NULL);
    pthread_join(second, NULL);
    tracerd_free(s);
}

int main(int count, char **words) {
    void (*const alone[])(void) = {keeps_what_is_written, keeps_only_them_waiting, shows_beside};
    if (count != 2) return 2;
    begin(words[1]);
    is(!sem_init(&writing, 0, 0) && !sem_init(&goes_on, 0, 0));
    alarm(60); /* who waits for one that waits never ends */
    EACH_ALONE(alone);
    return closing();
}
