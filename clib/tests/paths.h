/* What the tests share that make files: the folder that they are given, and what is below it. */
#ifndef PATHS_H
#define PATHS_H
#include <stdbool.h>
#include <stdio.h>
#include <sys/stat.h>
#include <unistd.h>

static const char *dir;

/* The path of a name below the folder; it lasts until the fourth call after this one. */
static inline const char *below(const char *name) {
    static char paths[4][4096];
    static int next;
    char *path = paths[next++ % 4];
    snprintf(path, sizeof paths[0], "%s/%s", dir, name);
    return path;
}

/* Whether something has a name below the folder. */
static inline bool is_below(const char *name) { return !access(below(name), F_OK); }

static inline mode_t mode_of(const char *path) {
    struct stat about;
    return lstat(path, &about) ? 0 : about.st_mode;
}
#endif
