/* Calls that a signal interrupts, for tests that have them in place of the C library's. */
#ifndef INTERRUPTED_H
#define INTERRUPTED_H
#include <errno.h>
#include <fcntl.h>
#include <stdarg.h>
#include <stdbool.h>

static bool is_interrupting;
static int interrupted;

/* Each call is interrupted before it is made. */
static bool is_interrupted(void) {
    static bool was;
    was = is_interrupting && !was;
    interrupted += was;
    if (was) errno = EINTR;
    return was;
}

int __real_openat(int at, const char *name, int flags, ...);

/* The call of openat that has these last words. */
static int open_or_not(int at, const char *name, int flags, va_list more) {
    mode_t mode = flags & O_CREAT ? va_arg(more, mode_t) : 0;
    return is_interrupted() ? -1 : __real_openat(at, name, flags, mode);
}
#endif
