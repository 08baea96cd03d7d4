/* Folders on disk. */
#define _GNU_SOURCE
#include "files.h"
#include <dirent.h>
#include <errno.h>
#include <fcntl.h>
#include <string.h>
#include <sys/file.h>
#include <sys/stat.h>
#include <unistd.h>

enum { FOLDER = O_RDONLY | O_DIRECTORY };
enum { NAMES = 16384 }; /* bytes of names that are read at a time */

int sync_folder(int folder) {
    int status;
    do {
        status = fsync(folder);
    } while (status && errno == EINTR);
    return status && errno == EINVAL ? 0 : status; /* a file system that knows no such thing of folders */
}

/* ---- The folder that a caller names ---- */

/* Has the entry of a folder on disk. Where nobody may read the folder above, that isn't possible. */
static int sync_entry(const char *path) {
    int folder = open_again(AT_FDCWD, path, FOLDER, 0);
    if (folder < 0)
        return -1;
    int above = open_again(folder, "..", FOLDER, 0);
    close_quietly(folder);
    if (above < 0)
        return errno == EACCES ? 0 : -1;
    int status = sync_folder(above);
    close_quietly(above);
    return status;
}

/* Makes the folder of a path, if it is missing, once the one above has its entry on disk, whoever made that: `above` is where its
 * path ends, or NULL. So of two folders that are there, the upper one is on disk. */
static int make_given(char *path, char *above) {
    if (!access(path, F_OK))
        return 0;
    if (above) {
        *above = 0;
        int status = sync_entry(path);
        *above = '/';
        if (status)
            return -1;
    }
    if (mkdir(path, 0777) && errno != EEXIST)
        return -1;
    return 0;
}

/* Makes what is missing of a path, and has it on disk: also what another call has made, which may not have come so far. */
static int make_missing(char *path) {
    char *above = NULL;
    for (char *end = strchr(path + 1, '/'); end; end = strchr(end + 1, '/')) {
        *end = 0;
        int status = make_given(path, above);
        *end = '/';
        if (status)
            return -1;
        above = end;
    }
    if (make_given(path, above))
        return -1;
    return sync_entry(path);
}

int open_given(const char *given) {
    char path[PATH];
    size_t size = strlen(given);
    if (!size) {
        errno = ENOENT;
        return -1;
    }
    if (size >= PATH) {
        errno = ENAMETOOLONG;
        return -1;
    }
    strcpy(path, given);
    if (make_missing(path))
        return -1;
    return open_again(AT_FDCWD, path, FOLDER, 0);
}

int open_above(const char *path, char *name, size_t room) {
    char folder[PATH];
    const char *end = strrchr(path, '/');
    const char *last = end ? end + 1 : path;
    if (!*last) {
        errno = ENOENT;
        return -1;
    }
    if (strlen(path) >= PATH || strlen(last) >= room) {
        errno = ENAMETOOLONG;
        return -1;
    }
    strcpy(name, last);
    strcpy(folder, path);
    folder[last - path] = 0;
    return open_again(AT_FDCWD, end ? folder : ".", FOLDER, 0);
}

/* ---- Folders below it ---- */

int open_there(int above, const char *name) { return open_again(above, name, FOLDER | O_NOFOLLOW, 0); }

int open_within(int above, const char *name) {
    if (mkdirat(above, name, 0777) && errno != EEXIST)
        return -1;
    if (sync_folder(above)) /* also if another call made it, which may not have come so far */
        return -1;
    return open_there(above, name);
}

static file_id id_of(const struct stat *about) { return (file_id){about->st_dev, about->st_ino}; }

int identify(int opened, file_id *id) {
    struct stat about;
    if (fstat(opened, &about))
        return -1;
    *id = id_of(&about);
    return 0;
}

int identify_name(int folder, const char *name, file_id *id) {
    struct stat about;
    if (fstatat(folder, name, &about, AT_SYMLINK_NOFOLLOW))
        return -1;
    *id = id_of(&about);
    return 0;
}

bool is_same_file(const file_id *one, const file_id *other) { return one->device == other->device && one->inode == other->inode; }

int hold(int above, const char *name, int folder) {
    file_id held, named;
    if (flock(folder, LOCK_EX | LOCK_NB) && errno == EWOULDBLOCK) /* (not every file system can hold folders) */
        return -1;
    if (identify(folder, &held))
        return -1;
    if (identify_name(above, name, &named)) {
        if (errno == ENOENT) /* it was renamed or removed since it was opened */
            errno = EAGAIN;
        return -1;
    }
    if (is_same_file(&held, &named))
        return 0;
    errno = EAGAIN; /* by now its name is another's */
    return -1;
}

int make_held(int above, const char *name) {
    if (mkdirat(above, name, 0777))
        return -1;
    int folder = open_there(above, name);
    if (folder < 0)
        return -1;
    if (!hold(above, name, folder))
        return folder;
    let_go(folder);
    return -1;
}

void let_go(int folder) {
    int before = errno;
    (void)flock(folder, LOCK_UN); /* a child of fork may have it open too */
    errno = before;
    close_quietly(folder);
}

static bool is_own(const char *name) { return !strcmp(name, ".") || !strcmp(name, ".."); }

int64_t count_names(int folder) {
    _Alignas(struct dirent64) char room[NAMES];
    int64_t count = 0;
    ssize_t size;
    while ((size = getdents64(folder, room, sizeof room)) > 0) {
        const struct dirent64 *entry;
        for (ssize_t at = 0; at < size; at += entry->d_reclen) {
            entry = (const struct dirent64 *)(room + at);
            if (!is_own(entry->d_name))
                count++;
        }
    }
    return size < 0 ? -1 : count;
}
