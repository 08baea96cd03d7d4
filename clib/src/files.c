/* Files on disk. */
#define _GNU_SOURCE
#include "files.h"
#include <errno.h>
#include <fcntl.h>
#include <string.h>
#include <sys/stat.h>
#include <unistd.h>

enum { COMPARED = 4096 }; /* bytes that are compared at a time */

int open_again(int folder, const char *name, int flags, mode_t mode) {
    int opened;
    do {
        opened = openat(folder, name, flags | O_CLOEXEC, mode);
    } while (opened < 0 && errno == EINTR);
    return opened;
}

int make_file(int folder, const char *name) { return open_again(folder, name, O_WRONLY | O_CREAT | O_EXCL | O_NOFOLLOW, 0666); }

/* Writes some bytes, one at least: how many it was. */
static ssize_t write_some(int file, const uint8_t *bytes, uint64_t size) {
    ssize_t done;
    do {
        done = write(file, bytes, size);
    } while (done < 0 && errno == EINTR);
    return done;
}

int write_whole(int file, const uint8_t *bytes, uint64_t size) {
    while (size) {
        ssize_t done = write_some(file, bytes, size);
        if (done <= 0)
            return -1;
        bytes += done;
        size -= (uint64_t)done;
    }
    return 0;
}

int sync_file(int file) {
    int status;
    do {
        status = fdatasync(file);
    } while (status && errno == EINTR);
    return status;
}

int open_file(int folder, const char *name) {
    struct stat about;
    int file = open_again(folder, name, O_RDONLY | O_NOFOLLOW | O_NONBLOCK, 0);
    if (file < 0)
        return -1;
    int status = fstat(file, &about);
    if (!status && S_ISREG(about.st_mode))
        return file;
    if (!status)
        errno = ENXIO;
    close_quietly(file);
    return -1;
}

int open_path(const char *path) { return open_again(AT_FDCWD, path, O_RDONLY, 0); }

ssize_t read_next(int file, uint8_t *room, uint64_t size) {
    ssize_t found;
    do {
        found = read(file, room, size);
    } while (found < 0 && errno == EINTR);
    return found;
}

int has_next(int file, const uint8_t *bytes, uint64_t size) {
    uint8_t found[COMPARED];
    while (size) {
        ssize_t done = read_next(file, found, size < COMPARED ? size : COMPARED);
        if (done < 0)
            return -1;
        if (!done || memcmp(found, bytes, (size_t)done))
            return 0;
        bytes += done;
        size -= (uint64_t)done;
    }
    return 1;
}

int is_at_end(int file) {
    uint8_t next;
    ssize_t found = read_next(file, &next, 1);
    if (found < 0)
        return -1;
    return found == 0;
}

int close_file(int file) {
    if (close(file) && errno != EINTR) /* interrupted, it is closed all the same */
        return -1;
    return 0;
}

void close_quietly(int descriptor) {
    int before = errno;
    (void)close(descriptor);
    errno = before;
}
