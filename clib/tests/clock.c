/* The wall clock is set back by an hour and ahead by a day while a program records: the moments of its records are as far apart
 * as they are by CLOCK_MONOTONIC.
 *
 *     clock DIR     a folder that is there, in which files are written */
#include "testing.h"
#include <time.h>

enum { RECORDS = 9, SECOND = 1000000000, PACKET = 80, RECORD = 24 + sizeof(int) };
static int64_t step; /* seconds that the wall clock was set ahead */
static uint64_t steady = 5 * (uint64_t)SECOND;

int __real_clock_gettime(clockid_t clock, struct timespec *now);
int __wrap_clock_gettime(clockid_t clock, struct timespec *now);

int __wrap_clock_gettime(clockid_t clock, struct timespec *now) {
    if (clock == CLOCK_REALTIME)
        *now = (struct timespec){(time_t)(1700000000 + step), 0};
    else if (clock == CLOCK_MONOTONIC)
        *now = (struct timespec){(time_t)(steady / SECOND), (long)(steady % SECOND)};
    else
        return __real_clock_gettime(clock, now);
    return 0;
}

static void keeps_its_pace(const char *dir) {
    const uint64_t begun = 1700000000 * (uint64_t)SECOND;
    tracerd_session *s;
    tracerd_producer *p;
    uint64_t n;
    uint8_t bytes[PACKET + RECORDS * RECORD];
    char path[4200];
    answers(OK, tracerd_new(&s, "s", ONE, 0, TRACERD_LOCAL));
    answers(OK, tracerd_channel(s, "c", 4096, 4, TRACERD_DISCARD));
    answers(OK, tracerd_producer_new(s, "c", &p));
    is(tracerd_now_of(s) == begun && tracerd_now() == begun);
    answers(OK, tracerd_start(s, tracerd_now_of(s)));
    for (int k = 0; k < RECORDS; k++) {
        step = k < 3 ? 0 : k < 6 ? -3600 : 86400;
        steady += SECOND / 10;
        TRACERD_TRACE(p, 1, &k, sizeof k);
        is(tracerd_now_of(s) == begun + (uint64_t)(k + 1) * (SECOND / 10));
    }
    is(tracerd_now() == begun + 86400 * (uint64_t)SECOND);
    answers(OK, tracerd_rotate(s, tracerd_now_of(s), &n));
    answers(OK, tracerd_write(s, n, dir));
    snprintf(path, sizeof path, "%s/s/archives/20231114T221320+0000-20231114T221320+0000-0/c_0", dir);
    FILE *file = fopen(path, "rb");
    is(file && fread(bytes, 1, sizeof bytes, file) == sizeof bytes && !fclose(file));
    for (int k = 0; k < RECORDS; k++) {
        uint64_t moment;
        memcpy(&moment, bytes + PACKET + (size_t)k * RECORD + 4, sizeof moment);
        is(moment == begun + (uint64_t)(k + 1) * (SECOND / 10));
    }
    tracerd_free(s);
}

int main(int count, char **words) {
    if (count != 2) return 2;
    keeps_its_pace(words[1]);
    counts_as_one();
    return closing();
}
