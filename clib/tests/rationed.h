/* Allocations that fail in turn, alone or with all after them, and what the C library gets for the library in their place; files
 * that can't be closed, and threads that can't be made. */
#ifndef RATIONED_H
#define RATIONED_H
#include "testing.h"
#include <dirent.h>
#include <errno.h>
#include <malloc.h>
#include <pthread.h>
#include <stdatomic.h>
#include <stdbool.h>
#include <sys/mman.h>
#include <time.h>

static long fails_at = -1;
static bool is_lasting; /* all allocations after that one fail too */
static atomic_long asked, held, refused, shrunk, done_without;

void *__real_malloc(size_t size);
void *__real_calloc(size_t count, size_t size);
void *__real_realloc(void *at, size_t size);
void *__real_aligned_alloc(size_t alignment, size_t size);
void __real_free(void *at);

static atomic_bool is_slow, is_in_it;

static bool is_refused(void) {
    long number = asked++;
    bool is_it = number == fails_at || (is_lasting && fails_at >= 0 && number > fails_at);
    if (is_slow && !atomic_exchange(&is_in_it, true)) nanosleep(&(struct timespec){0, 100000000}, NULL);
    refused += is_it;
    return is_it;
}

static void *counted(void *at) {
    held += at != NULL;
    return at;
}

/* Blocks that are made of nothing but pairs of cache lines; such as begin so but end within one; and others. */
static atomic_long apart, half_apart, together;

void *__wrap_malloc(size_t size) {
    together++;
    return is_refused() ? NULL : counted(__real_malloc(size));
}
void *__wrap_calloc(size_t count, size_t size) {
    together++;
    return is_refused() ? NULL : counted(__real_calloc(count, size));
}
void *__wrap_aligned_alloc(size_t to, size_t size) {
    bool begins_apart = to % 128 == 0;
    apart += begins_apart && size % 128 == 0;
    half_apart += begins_apart && size % 128 != 0;
    together += !begins_apart;
    return is_refused() ? NULL : counted(__real_aligned_alloc(to, size));
}
void *__wrap_realloc(void *at, size_t size) {
    bool shrinks = at && size <= malloc_usable_size(at);
    if (is_refused()) {
        refused -= shrinks;
        shrunk += shrinks;
        return NULL;
    }
    return at ? __real_realloc(at, size) : counted(__real_realloc(at, size));
}
void __wrap_free(void *at) {
    held -= at != NULL;
    __real_free(at);
}

void *__real_mmap(void *at, size_t size, int how, int flags, int file, off_t from);
int __real_munmap(void *at, size_t size);

void *__wrap_mmap(void *at, size_t size, int how, int flags, int file, off_t from) {
    return is_refused() ? MAP_FAILED : counted(__real_mmap(at, size, how, flags, file, from));
}
int __wrap_munmap(void *at, size_t size) {
    held--;
    return __real_munmap(at, size);
}

typedef int chosen(const struct dirent *);
typedef int compared(const struct dirent **, const struct dirent **);
int __real_scandir(const char *path, struct dirent ***list, chosen *choose, compared *compare);

/* What it answers is from the C library's own malloc. */
int __wrap_scandir(const char *path, struct dirent ***list, chosen *choose, compared *compare) {
    if (is_refused()) {
        errno = ENOMEM;
        return -1;
    }
    int count = __real_scandir(path, list, choose, compare);
    if (count >= 0) held += count + (*list != NULL);
    return count;
}

static bool fails_to_close;
int __real_close(int file);

int __wrap_close(int file) {
    int status = __real_close(file);
    if (fails_to_close) errno = EIO;
    return fails_to_close ? -1 : status;
}

/* The test needn't wait for a disk. */
int __wrap_fsync(int file) { return (void)file, 0; }
int __wrap_fdatasync(int file) { return (void)file, 0; }

static bool fails_to_create;
static int made_first; /* so many threads are made first */
int __real_pthread_create(pthread_t *thread, const pthread_attr_t *how, void *(*run)(void *), void *with);

int __wrap_pthread_create(pthread_t *thread, const pthread_attr_t *how, void *(*run)(void *), void *with) {
    return fails_to_create && made_first-- <= 0 ? EAGAIN : __real_pthread_create(thread, how, run, with);
}
#endif
