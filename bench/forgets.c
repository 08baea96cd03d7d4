/* How much memory a program needs after many archives: it makes so many, of one record each of four producers, and releases each;
 * and forgets it too, but for the last ones.
 *
 *     forgets COUNT [released]     released: nothing is forgotten
 *
 * Prints, at powers of ten and at the end, how many archives there were, and how many KiB are resident. */
#include "tracerd.h"
#include <stdio.h>
#include <stdlib.h>
#include <string.h>

enum { PRODUCERS = 4, LAST = 12 };

static void must(tracerd_status status, const char *call) {
    if (!status) return;
    fprintf(stderr, "%s: %s\n", call, tracerd_status_name(status));
    exit(1);
}

static long resident(void) {
    char line[128];
    long found = 0;
    FILE *file = fopen("/proc/self/status", "r");
    while (file && fgets(line, sizeof line, file) && !sscanf(line, "VmRSS: %ld", &found)) {}
    if (file) fclose(file);
    return found;
}

static void show(uint64_t archives) { printf("%llu archives: %ld KiB\n", (unsigned long long)archives, resident()); }

static void make_archive(tracerd_session *s, tracerd_producer *const p[PRODUCERS], uint64_t number) {
    tracerd_offered offered;
    uint64_t archive;
    for (int i = 0; i < PRODUCERS; i++) must(tracerd_offer(p[i], number, 1, "a record", 8, &offered), "offer");
    must(tracerd_rotate(s, number, &archive), "rotate");
    must(tracerd_release(s, archive), "release");
}

int main(int count, char **words) {
    tracerd_session *s;
    tracerd_producer *p[PRODUCERS];
    if (count < 2 || count > 3) return 2;
    uint64_t archives = strtoull(words[1], NULL, 10), next = 1000;
    must(tracerd_new(&s, "s", NULL, 0, TRACERD_LOCAL), "new");
    must(tracerd_channel(s, "c", 4096, 4, TRACERD_DISCARD), "channel");
    for (int i = 0; i < PRODUCERS; i++) must(tracerd_producer_new(s, "c", &p[i]), "producer");
    must(tracerd_start(s, 0), "start");
    for (uint64_t k = 0; k < archives; k++) {
        make_archive(s, p, k);
        if (count == 2 && k > LAST) must(tracerd_forget(s, k - LAST), "forget");
        if (k + 1 == next) {
            show(next);
            next *= 10;
        }
    }
    show(archives);
    tracerd_free(s);
    return 0;
}
