/* What the tests of keepers share: a session with one, and what is on disk of it. */
#ifndef KEEPING_H
#define KEEPING_H
#include "paths.h"
#include "reading.h"
#include <dirent.h>
#include <errno.h>
#include <fcntl.h>
#include <linux/capability.h>
#include <stdatomic.h>
#include <sys/syscall.h>
#include <time.h>

static tracerd_session *session;
static tracerd_producer *producer;
static tracerd_keeper *keeper;
static uint64_t offered;
static char run_folder[4096];

static inline void nap(void) { nanosleep(&(struct timespec){0, 1000000}, NULL); }

/* ---- What is on disk ---- */

/* FOLDER/SESSION/archives of the run. */
static inline const char *archives_folder(void) {
    static char path[4200];
    snprintf(path, sizeof path, "%s/s/archives", run_folder);
    return path;
}

static inline uint64_t names_below(const char *folder) {
    uint64_t count = 0;
    DIR *it = opendir(folder);
    for (const struct dirent *entry; it && (entry = readdir(it));)
        count += strcmp(entry->d_name, ".") && strcmp(entry->d_name, "..");
    if (it) closedir(it);
    return count;
}

static inline void count_one(void *with, const record *it) {
    uint64_t *seen = with;
    is(it->id == 1 && it->size == 8);
    ++*seen;
}

/* The records of the stream in all archives below a folder. */
static inline uint64_t records_below(const char *folder) {
    uint64_t count = 0;
    DIR *it = opendir(folder);
    char path[4600];
    for (const struct dirent *entry; it && (entry = readdir(it));) {
        if (entry->d_name[0] == '.') continue;
        snprintf(path, sizeof path, "%s/%s/c_0", folder, entry->d_name);
        each_record(path, count_one, &count);
    }
    if (it) closedir(it);
    return count;
}

static inline uint64_t how_many_are_forgotten(void) {
    tracerd_about about = {0};
    answers(OK, tracerd_about_of(session, &about));
    return about.forgotten;
}

static inline const char *name_of(uint64_t archive) {
    static char name[TRACERD_ARCHIVE_NAME];
    answers(OK, tracerd_archive_name(session, archive, name));
    return name;
}

static inline const char *in_archive(uint64_t archive, const char *file) {
    static char path[4600];
    snprintf(path, sizeof path, "%s/%s%s%s", archives_folder(), name_of(archive), *file ? "/" : "", file);
    return path;
}

static inline bool is_there(uint64_t archive) { return !access(in_archive(archive, "metadata"), F_OK); }

static inline void writes_file(const char *path, const char *text) {
    FILE *file = fopen(path, "w");
    is(file && fputs(text, file) >= 0 && !fclose(file));
}

static inline bool has_file(const char *path, const char *text) {
    char found[64] = "";
    FILE *file = fopen(path, "r");
    if (!file) return false;
    (void)!fread(found, 1, sizeof found - 1, file);
    fclose(file);
    return !strcmp(found, text);
}

/* The test needn't wait for a disk. */
int __wrap_fsync(int file) { return (void)file, 0; }
int __wrap_fdatasync(int file) { return (void)file, 0; }

/* ---- Deletions, which begin with a new name ---- */

static atomic_uint most_kept;            /* if it isn't 0: how many archives are to be there beside one that goes */
static atomic_uint deletions, too_early; /* how many went, and how many of them when others were there */
int __real_renameat(int from, const char *old, int to, const char *new);
int __wrap_renameat(int from, const char *old, int to, const char *new);

int __wrap_renameat(int from, const char *old, int to, const char *new) {
    if (most_kept && *new == '.') {
        too_early += names_below(archives_folder()) != most_kept + 1;
        deletions++;
    }
    return __real_renameat(from, old, to, new);
}

/* ---- A session with a keeper ---- */

static inline void opens(void) {
    offered = 0;
    answers(OK, tracerd_new(&session, "s", ONE, 0, TRACERD_LOCAL));
    answers(OK, tracerd_channel(session, "c", 1024, 64, TRACERD_DISCARD));
    answers(OK, tracerd_producer_new(session, "c", &producer));
    answers(OK, tracerd_start(session, tracerd_now_of(session)));
}

static inline void begins(const char *folder, uint64_t every, uint64_t bytes, uint64_t keep) {
    opens();
    keeper = NULL;
    answers(OK, tracerd_keeper_start(&keeper, session, folder, every, bytes, keep));
    if (!keeper) exit(1 + closing());
    snprintf(run_folder, sizeof run_folder, "%s", tracerd_keeper_folder(keeper));
}

static inline void ends(tracerd_status status) {
    is_status(tracerd_keeper_stop(keeper), status, "tracerd_keeper_stop", __FILE__, __LINE__);
}

static inline void state(tracerd_keeping *k) { answers(OK, tracerd_keeper_state(keeper, k)); }

static inline void offers(uint64_t count) {
    for (; count; count--) {
        uint64_t payload = offered++;
        answers(OK, tracerd_trace(producer, 1, &payload, sizeof payload));
    }
}

/* Offers until so many archives were written, or for some seconds. */
static inline void offers_until_written(uint64_t wanted) {
    tracerd_keeping k = {0};
    for (int i = 0; i < 4000 && !wrong && k.written < wanted; i++) {
        offers(10);
        nap();
        state(&k);
    }
    is(k.written >= wanted);
}

static inline uint64_t count_archives(void) {
    tracerd_about about = {0};
    answers(OK, tracerd_about_of(session, &about));
    return about.archives;
}

static inline bool is_released(uint64_t archive) {
    tracerd_archive it = {0};
    answers(OK, tracerd_archive_of(session, archive, &it));
    return it.is_released;
}

/* Waits until a step is refused with one of these errors, or for some seconds. */
static inline void waits_for_refusal(int wanted, int other) {
    tracerd_keeping k = {0};
    for (int i = 0; i < 4000 && !wrong && !(k.refused && k.last == TRACERD_WRITE && (k.error == wanted || k.error == other));
         i++) {
        nap();
        state(&k);
    }
    is(k.last == TRACERD_WRITE && (k.error == wanted || k.error == other));
    is(k.moment && k.moment <= tracerd_now_of(session));
}

/* ---- Who may write anywhere ---- */

/* Has the superuser's program write where modes forbid it, or not; its threads that come later do the same. */
static inline bool overrides_modes(bool does) {
    struct __user_cap_header_struct head = {_LINUX_CAPABILITY_VERSION_3, 0};
    struct __user_cap_data_struct data[2] = {{0}};
    if (syscall(SYS_capget, &head, data)) return false;
    if (does)
        data[0].effective |= data[0].permitted & 1u << CAP_DAC_OVERRIDE;
    else
        data[0].effective &= ~(1u << CAP_DAC_OVERRIDE);
    return !syscall(SYS_capset, &head, data);
}

/* Whether a folder that is read-only keeps the program from writing there: else there is nothing to try. */
static inline bool heeds_modes(const char *folder) {
    char path[4200];
    snprintf(path, sizeof path, "%s/tried", folder);
    (void)overrides_modes(false);
    is(!mkdir(folder, 0555));
    bool is_refused = mkdir(path, 0777) && errno == EACCES;
    if (!is_refused) printf("skipped: a read-only folder, which doesn't keep this user from writing there\n");
    return is_refused;
}
#endif
