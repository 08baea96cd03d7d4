/* What the tests share in which threads take turns at calls: what calls may answer, and chance. */
#ifndef TURNS_H
#define TURNS_H
#include "testing.h"
#include <stdbool.h>
#include <time.h>

static const uint64_t LAST_MOMENT = 9000000000000000000;

/* One of the answers that may be. */
static inline void one_of(tracerd_status found, tracerd_status one, tracerd_status other, const char *what) {
    if (found == one || found == other) return;
    printf("%s: %s\n", what, tracerd_status_name(found));
    exit(1);
}

#define MAY(one, other, call) one_of((call), TRACERD_##one, TRACERD_##other, #call)
#define MUST(call) MAY(OK, OK, call)

static inline void must_be(bool so, const char *what) {
    if (so) return;
    printf("not so: %s\n", what);
    exit(1);
}

static inline uint64_t next_random(uint64_t *state) {
    uint64_t z = (*state += 0x9e3779b97f4a7c15);
    z = (z ^ (z >> 30)) * 0xbf58476d1ce4e5b9;
    z = (z ^ (z >> 27)) * 0x94d049bb133111eb;
    return z ^ (z >> 31);
}

static inline void nap(uint64_t microseconds) { nanosleep(&(struct timespec){0, (long)microseconds * 1000}, NULL); }
#endif
