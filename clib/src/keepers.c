/* Keepers: the drainer makes archives, and a thread beside it writes them and deletes the oldest. */
#include "keepers.h"
#include <errno.h>
#include <limits.h>
#include <stdio.h>
#include <stdlib.h>
#include <string.h>
#include <sys/mman.h>
#include <sys/stat.h>

_Static_assert(sizeof(tracerd_keeping) == 128, "results keep their size");
_Static_assert(PATH == PATH_MAX, "realpath writes so many bytes");

enum { MOMENT = 20, BESIDE = 1 }; /* bytes of a moment in an archive's name, and of what is between two parts of it */
enum { RUN_NAME = 128 };          /* more than the longest name of a run's folder, with the zero at its end */
static const uint64_t EACH = SECOND / 100;

/* ---- The folder of a run ---- */

/* The present moment, in the form of archives' names. The desk is held. */
static tracerd_status name_moment_locked(tracerd_session *t, char name[MOMENT + 1]) {
    uint8_t archive[NAME];
    uint64_t size;
    tracerd_status status = trc_book_snapshot_name(&t->book, tracerd_now_of(t), archive, NAME - 1, &size);
    if (status)
        return status;
    memcpy(name, archive + MOMENT + BESIDE, MOMENT); /* where such an archive would end */
    name[MOMENT] = 0;
    return TRACERD_OK;
}

/* Makes a folder of this name, or of the first number after it that isn't there. */
static tracerd_status make_numbered(int above, char name[RUN_NAME]) {
    size_t size = strlen(name);
    for (unsigned long number = 1; mkdirat(above, name, 0777); number++) {
        if (errno != EEXIST)
            return TRACERD_WRITE;
        snprintf(name + size, RUN_NAME - size, "-%lu", number);
    }
    return sync_folder(above) ? TRACERD_WRITE : TRACERD_OK;
}

/* Makes a run's folder in one that is open. */
static tracerd_status make_run(tracerd_keeper *k, int given, const char *path) {
    tracerd_session *t = k->session;
    char moment[MOMENT + 1], name[RUN_NAME];
    pthread_mutex_lock(&t->desk);
    tracerd_status status = name_moment_locked(t, moment);
    pthread_mutex_unlock(&t->desk);
    if (status)
        return status;
    snprintf(name, sizeof name, "%s-%s", t->name, moment);
    status = make_numbered(given, name);
    if (status)
        return status;
    if (!realpath(path, k->folder))
        return TRACERD_WRITE;
    size_t size = strlen(k->folder);
    if (size + 1 + strlen(name) < PATH) {
        snprintf(k->folder + size, PATH - size, "/%s", name);
        return TRACERD_OK;
    }
    errno = ENAMETOOLONG;
    return TRACERD_WRITE;
}

static tracerd_status make_folder(tracerd_keeper *k, const char *folder) {
    int given = open_given(folder);
    if (given < 0)
        return TRACERD_WRITE;
    tracerd_status status = make_run(k, given, folder);
    close_quietly(given);
    return status;
}

/* ---- Its threads ---- */

static void *write_each(void *keeper) {
    tracerd_keeper *k = keeper;
    do {
        (void)write_all(k); /* what is refused is noted, and tried again */
        (void)sleep_for(&k->bell, SECOND);
    } while (!atomic_load(&k->is_over));
    return NULL;
}

static void end_writer(tracerd_keeper *k) {
    atomic_store(&k->is_over, true);
    sem_post(&k->bell);
    pthread_join(k->thread, NULL);
}

static bool begin_threads(tracerd_keeper *k) {
    tracerd_session *t = k->session;
    if (!make_thread(&k->thread, write_each, k))
        return false;
    t->keeper = k;
    if (begin_drainer(t, EACH))
        return true;
    t->keeper = NULL;
    end_writer(k);
    return false;
}

/* ---- Calls ---- */

/* The session's drainer is BUSY. */
static tracerd_status begin_keeper(tracerd_keeper *k, const char *folder, uint64_t every, uint64_t bytes) {
    tracerd_status status = make_folder(k, folder);
    if (!status)
        status = tracerd_schedule(k->session, every, bytes);
    if (status)
        return status;
    pass_over_released(k);
    return begin_threads(k) ? TRACERD_OK : TRACERD_NO_MEMORY;
}

static tracerd_status make_keeper(tracerd_keeper **keeper, tracerd_session *t, const char *folder, uint64_t every, uint64_t bytes,
                                  uint64_t keep) {
    tracerd_keeper *k = new_pages(sizeof *k);
    if (!k)
        return TRACERD_NO_MEMORY;
    k->session = t;
    k->keep = keep;
    sem_init(&k->bell, 0, 0);
    make_lock(&k->lock);
    tracerd_status status = begin_keeper(k, folder, every, bytes);
    if (status)
        munmap(k, sizeof *k);
    else
        *keeper = k;
    return status;
}

tracerd_status tracerd_keeper_start(tracerd_keeper **keeper, tracerd_session *t, const char *folder, uint64_t every,
                                    uint64_t bytes, uint64_t keep) {
    int off = OFF;
    if (!t->is_here)
        return TRACERD_CLOSED;
    if (t->kind == TRACERD_SNAPSHOT)
        return TRACERD_SNAPSHOT_MODE;
    if (!every)
        return TRACERD_ZERO_PERIOD;
    if (!bytes || !keep)
        return TRACERD_ZERO_SIZE;
    if (!atomic_compare_exchange_strong(&t->drainer, &off, BUSY))
        return TRACERD_DRAINING;
    tracerd_status status = make_keeper(keeper, t, folder, every, bytes, keep);
    atomic_store(&t->drainer, status ? OFF : KEEPING);
    return status;
}

const char *tracerd_keeper_folder(const tracerd_keeper *k) { return k->folder; }

tracerd_status tracerd_keeper_state(tracerd_keeper *k, tracerd_keeping *keeping) {
    tracerd_about about;
    if (!k->session)
        return TRACERD_CLOSED;
    uint64_t next = atomic_load(&k->next);
    tracerd_status status = tracerd_about_of(k->session, &about);
    if (status)
        return status;
    pthread_mutex_lock(&k->lock);
    *keeping = k->accounts;
    pthread_mutex_unlock(&k->lock);
    keeping->waiting = about.archives - next;
    return TRACERD_OK;
}

/* Ends a keeper after a last round: what was refused of that, if a step was. */
static tracerd_status end(tracerd_keeper *k) {
    tracerd_session *t = k->session;
    end_drainer(t);
    tracerd_status collected = collect_all(k);
    end_writer(k);
    tracerd_status written = write_all(k);
    int why = errno;
    t->keeper = NULL;
    atomic_store(&t->drainer, OFF);
    munmap(k, sizeof *k);
    errno = why;
    return written ? written : collected;
}

tracerd_status tracerd_keeper_stop(tracerd_keeper *k) { return k->session ? end(k) : TRACERD_CLOSED; }

void end_keeper(tracerd_session *t) {
    if (t->keeper)
        (void)end(t->keeper);
}
