/* What the tests share: `is` and `answers` say what isn't so; a test in which all is so counts as passed. */
#ifndef TESTING_H
#define TESTING_H
#include <inttypes.h>
#include <stdio.h>
#include <stdlib.h>
#include <string.h>
#include <tracerd.h>

static int passed, failed, wrong;

static inline void is_so(int so, const char *what, const char *file, int line) {
    wrong += so == 0;
    if (!so) printf("%s:%d: not so: %s\n", file, line, what);
}

static inline void is_status(tracerd_status found, tracerd_status wanted, const char *what, const char *file, int line) {
    wrong += found != wanted;
    if (found != wanted) printf("%s:%d: %s: %d, where %d is wanted\n", file, line, what, (int)found, (int)wanted);
}

#define is(what) is_so((what), #what, __FILE__, __LINE__)
#define answers(status, call) is_status((call), TRACERD_##status, #call, __FILE__, __LINE__)

/* The end of a test. */
static inline void counts_as_one(void) {
    passed += wrong == 0;
    failed += wrong != 0;
    wrong = 0;
}

static inline int closing(void) {
    printf("%d passed, %d failed\n", passed, failed);
    return failed != 0;
}

static const uint8_t ONE[16] = {0, 0, 0, 0, 0, 0, 0, 0, 0, 0, 0, 0, 0, 0, 0, 1};
#endif
