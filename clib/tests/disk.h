/* A disk that stops before the k-th system call on it: that one and all later ones fail, as if it were full. Of what was done
 * before, a cut of the power may lose what no call has had on disk: bytes of files, and names in folders.
 * The calls below are wrapped (clib/tests/wraps); those of the C library's own, as fopen's, go on. */
#ifndef DISK_H
#define DISK_H
#include "testing.h"
#include <dirent.h>
#include <errno.h>
#include <fcntl.h>
#include <ftw.h>
#include <stdarg.h>
#include <stdbool.h>
#include <sys/file.h>
#include <sys/stat.h>
#include <unistd.h>

enum { LOST = 256 };

static long stops_at = -1, calls; /* -1: never */

static struct {
    ino_t folder, file; /* a name that was made in this folder; or a file that has bytes */
    char name[256], path[4096];
} lost[LOST];
static int losable;

static inline bool has_stopped(int why) {
    bool is_over = stops_at >= 0 && calls >= stops_at;
    calls++;
    if (is_over) errno = why;
    return is_over;
}

static inline ino_t inode_of(int descriptor) {
    struct stat about;
    char path[64];
    snprintf(path, sizeof path, "/proc/self/fd/%d", descriptor);
    return stat(path, &about) ? 0 : about.st_ino;
}

static inline void path_of(int descriptor, char path[4096]) {
    char link[64];
    snprintf(link, sizeof link, "/proc/self/fd/%d", descriptor);
    ssize_t size = readlink(link, path, 4095);
    path[size < 0 ? 0 : size] = 0;
}

/* A name in a folder, or without a name a file, may be lost. */
static inline void may_lose(int at, const char *name) {
    is(losable < LOST);
    if (losable == LOST) return;
    lost[losable].folder = name ? inode_of(at) : 0;
    lost[losable].file = name ? 0 : inode_of(at);
    snprintf(lost[losable].name, sizeof lost->name, "%s", name ? name : "");
    path_of(at, lost[losable].path);
    losable++;
}

/* A folder or a file is on disk. */
static inline void keeps(ino_t inode) {
    int left = 0;
    for (int i = 0; i < losable; i++)
        if (lost[i].folder != inode && lost[i].file != inode) lost[left++] = lost[i];
    losable = left;
}

static inline int remove_one(const char *path, const struct stat *about, int type, struct FTW *where) {
    (void)about, (void)type, (void)where;
    return remove(path);
}

static inline void remove_all(const char *path) { (void)nftw(path, remove_one, 16, FTW_DEPTH | FTW_PHYS); }

/* What is in a folder has another path once that is renamed. */
static inline void rename_path(char path[4096], const char *from, const char *to) {
    char before[4096];
    char *at = strstr(path, from);
    if (!at) return;
    memcpy(before, path, sizeof before);
    *at = 0;
    snprintf(path + strlen(path), 4096 - strlen(path), "%s%s", to, strstr(before, from) + strlen(from));
}

enum failure { IS_FULL, LOSES_BYTES, LOSES_NAMES, LOSES_EARLIER_NAMES };

/* The power is cut: bytes of files are lost, or names too, or all of these but the last. */
static inline void cut_power(enum failure failure) {
    char path[4400];
    for (int i = losable - 1; i >= 0 && failure != IS_FULL; i--) {
        snprintf(path, sizeof path, "%s/%s", lost[i].path, lost[i].name);
        bool is_kept = failure == LOSES_BYTES || (failure == LOSES_EARLIER_NAMES && i == losable - 1);
        if (lost[i].file)
            (void)truncate(lost[i].path, 0);
        else if (!is_kept)
            remove_all(path);
    }
    losable = 0;
}

/* ---- The calls ---- */

int __real_access(const char *path, int how);
int __real_mkdir(const char *path, mode_t mode);
int __real_mkdirat(int at, const char *name, mode_t mode);
int __real_open(const char *path, int flags, ...);
int __real_openat(int at, const char *name, int flags, ...);
ssize_t __real_read(int file, void *to, size_t size);
ssize_t __real_write(int file, const void *from, size_t size);
int __real_renameat(int at, const char *from, int above, const char *to);
int __real_unlinkat(int at, const char *name, int flags);
int __real_close(int file);
int __real_flock(int file, int how);
int __real_fstat(int file, struct stat *about);
int __real_fstatat(int at, const char *name, struct stat *about, int flags);
ssize_t __real_getdents64(int folder, void *to, size_t size);

int __wrap_access(const char *path, int how) { return has_stopped(EIO) ? -1 : __real_access(path, how); }

int __wrap_mkdir(const char *path, mode_t mode) {
    char above[4100];
    if (has_stopped(ENOSPC)) return -1;
    if (__real_mkdir(path, mode)) return -1;
    snprintf(above, sizeof above, "%s/..", path);
    int folder = __real_open(above, O_RDONLY | O_DIRECTORY);
    may_lose(folder, strrchr(path, '/') ? strrchr(path, '/') + 1 : path);
    return __real_close(folder);
}

int __wrap_mkdirat(int at, const char *name, mode_t mode) {
    if (has_stopped(ENOSPC)) return -1;
    int status = __real_mkdirat(at, name, mode);
    if (!status) may_lose(at, name);
    return status;
}

int __wrap_open(const char *path, int flags, ...) { return has_stopped(EIO) ? -1 : __real_open(path, flags); }

int __wrap_openat(int at, const char *name, int flags, ...) {
    va_list more;
    va_start(more, flags);
    mode_t mode = flags & O_CREAT ? va_arg(more, mode_t) : 0;
    va_end(more);
    if (has_stopped(flags & O_CREAT ? ENOSPC : EIO)) return -1;
    int file = __real_openat(at, name, flags, mode);
    if (file >= 0 && flags & O_CREAT) may_lose(at, name);
    return file;
}

ssize_t __wrap_read(int file, void *to, size_t size) { return has_stopped(EIO) ? -1 : __real_read(file, to, size); }

/* The last one before the disk is full has no room for all. */
ssize_t __wrap_write(int file, const void *from, size_t size) {
    if (has_stopped(ENOSPC)) return -1;
    may_lose(file, NULL);
    return __real_write(file, from, calls == stops_at && size > 1 ? size / 2 : size);
}

int __wrap_renameat(int at, const char *from, int above, const char *to) {
    if (has_stopped(EIO)) return -1;
    int status = __real_renameat(at, from, above, to);
    if (status) return status;
    for (int i = 0; i < losable; i++) rename_path(lost[i].path, from, to);
    may_lose(above, to);
    return 0;
}

int __wrap_unlinkat(int at, const char *name, int flags) {
    struct stat about;
    if (has_stopped(EIO)) return -1;
    if (!__real_fstatat(at, name, &about, AT_SYMLINK_NOFOLLOW)) keeps(about.st_ino);
    return __real_unlinkat(at, name, flags);
}

int __wrap_close(int file) {
    int status = __real_close(file);
    return has_stopped(EIO) ? -1 : status;
}

int __wrap_flock(int file, int how) { return has_stopped(EIO) ? -1 : __real_flock(file, how); }
int __wrap_fstat(int file, struct stat *about) { return has_stopped(EIO) ? -1 : __real_fstat(file, about); }

int __wrap_fstatat(int at, const char *name, struct stat *about, int flags) {
    return has_stopped(EIO) ? -1 : __real_fstatat(at, name, about, flags);
}

ssize_t __wrap_getdents64(int folder, void *to, size_t size) {
    return has_stopped(EIO) ? -1 : __real_getdents64(folder, to, size);
}

/* The test needn't wait for a disk. */
int __wrap_fsync(int file) {
    if (has_stopped(EIO)) return -1;
    keeps(inode_of(file));
    return 0;
}

int __wrap_fdatasync(int file) { return __wrap_fsync(file); }
#endif
