/* All calls at once, in random order: threads that offer, rotate, tick, write, write again, release, stop, start, clear, drain,
 * start and stop the drainer, look, take snapshots and give producers back. Then clib/tests/judge reads what is below DIR: the
 * bytes of each record, and the fate of each serial.
 *
 *     stress SEED MILLISECONDS DIR */
#include "turns.h"
#include <pthread.h>
#include <sched.h>
#include <stdatomic.h>

enum { OFFERING = 8, STREAMS = 9, SHOWN = 2, KINDS = 4, MOST_SNAPSHOTS = 40, MOST_THREADS = 32 };

static const struct {
    const char *name;
    uint64_t size, count;
    tracerd_mode mode;
} channels[KINDS] = {{"d", 4096, 4, TRACERD_DISCARD},
                     {"o", 4096, 8, TRACERD_OVERWRITE},
                     {"big", 1048576, 2, TRACERD_DISCARD},
                     {"tiny", 256, 2, TRACERD_OVERWRITE}};

static tracerd_session *local, *snapshots;
static tracerd_producer *producers[STREAMS], *shown[SHOWN];
static struct { uint64_t serial, stored, gone, discarded; } told[STREAMS], told_shown[SHOWN];
static atomic_bool is_over, is_late;
static atomic_long written, released, taken; /* how many archives were written, and released; how many snapshots were begun */
static const char *dir;
static uint64_t seed;

/* The test needn't wait for a disk. */
int __wrap_fsync(int file) { return (void)file, 0; }
int __wrap_fdatasync(int file) { return (void)file, 0; }

static bool is_on(const tracerd_producer *p) { return __atomic_load_n(&p->active, __ATOMIC_RELAXED) != 0; }

/* ---- Offers ---- */

static void fill(uint8_t *to, uint64_t stream, uint64_t serial, size_t size) {
    uint8_t first = (uint8_t)(stream * 31 + serial * 7);
    for (size_t i = 0; i < size; i++) to[i] = (uint8_t)(first + i * 13);
}

static size_t random_size(uint64_t random, size_t most) {
    size_t size = (random >> 20) % 64;
    if (random % 1000 < (most < 60000 ? 10 : 1)) return most;
    if (random % 1000 < 200) size = (random >> 20) % (most < 6000 ? most + 1 : 6000);
    return size < most ? size : most;
}

/* What is refused changes nothing, and no result is written. */
static void offer_badly(int i, const uint8_t *bytes, size_t most) {
    tracerd_offered o = {.serial = 77};
    MAY(BAD_MOMENT, BAD_MOMENT, tracerd_offer(producers[i], LAST_MOMENT + 1, 1, bytes, 0, &o));
    MAY(TOO_BIG, INACTIVE, tracerd_offer(producers[i], 0, 1, bytes, most + 1, &o));
    MAY(TOO_BIG, INACTIVE, tracerd_offer(producers[i], 0, 1, bytes, SIZE_MAX, &o));
    must_be(o.serial == 77, "a refused offer writes nothing");
}

static void offer_shown(int i, uint8_t *bytes, size_t size) {
    tracerd_offered o;
    fill(bytes, (uint64_t)i, told_shown[i].serial, size);
    MUST(tracerd_offer(shown[i], 0, (uint32_t)(told_shown[i].serial ^ (uint64_t)i), bytes, size, &o));
    must_be(o.serial == told_shown[i].serial++, "serials of the snapshot session");
}

static void offer_one(int i, uint64_t moment, uint8_t *bytes, size_t size) {
    tracerd_offered o = {.serial = 77};
    fill(bytes, (uint64_t)i, told[i].serial, size);
    uint32_t id = (uint32_t)(told[i].serial ^ (uint64_t)i);
    tracerd_status status = tracerd_offer(producers[i], moment, id, size ? bytes : NULL, size, &o);
    MAY(OK, INACTIVE, status);
    if (status) {
        sched_yield();
        return;
    }
    must_be(o.serial == told[i].serial++, "serials");
    told[i].discarded += o.outcome == TRACERD_DISCARDED;
    told[i].stored += o.outcome != TRACERD_DISCARDED;
    told[i].gone += o.gone_count;
}

static void *offer_all(void *given) {
    int i = (int)(intptr_t)given;
    uint64_t state = seed * 1000 + (uint64_t)i, begun = tracerd_now_of(local);
    size_t most = channels[i / 2 % KINDS].size - 104;
    uint8_t *bytes = malloc(most);
    for (uint64_t k = 0; !is_over && !(is_late && i >= OFFERING - 2); k++) {
        uint64_t random = next_random(&state);
        offer_one(i, begun + k * 100 - (k % 7 ? 0 : random % 1000000000), bytes, random_size(random, most));
        if (k % 997 == 0) offer_badly(i, bytes, most);
        if (k % 64 == 0 && i < SHOWN) offer_shown(i, bytes, random % 153);
        if (k % 32 == 0) nap(random % 200);
    }
    free(bytes);
    MUST(tracerd_producer_done(producers[i]));
    MAY(CLOSED, CLOSED, tracerd_producer_done(producers[i]));
    must_be(!is_on(producers[i]), "what was given back is off");
    return NULL;
}

static void *trace(void *given) {
    uint8_t byte = 5;
    (void)given;
    for (uint64_t k = 0; !is_over; k++) {
        TRACERD_TRACE(producers[OFFERING], 3, &byte, k % 2);
        nap(k % 8 ? 1 : 40);
    }
    return NULL;
}

/* ---- What others do meanwhile, each a round of a loop ---- */

static void rotate(uint64_t random) {
    uint64_t n;
    MAY(OK, ALREADY_ROTATED, tracerd_rotate(local, random % 4 ? tracerd_now_of(local) : 0, &n));
    MAY(NOT_PENDING, NOT_PENDING, tracerd_rotate_on(local, &n));
    MAY(BAD_MOMENT, BAD_MOMENT, tracerd_rotate(local, LAST_MOMENT + 1, &n));
    nap(random % 8000);
}

static void tick(uint64_t random) {
    tracerd_cause cause;
    uint64_t n;
    MUST(tracerd_schedule(local, random % 3 ? 5000000 : TRACERD_NEVER, random % 5 ? 1 + random % 200000 : TRACERD_NEVER));
    MUST(tracerd_tick(local, tracerd_now_of(local), &cause, &n));
    nap(random % 4000);
}

static void write_next(uint64_t random) {
    tracerd_status status = tracerd_write(local, (uint64_t)written, dir);
    MAY(OK, NO_ARCHIVE, status);
    if (status)
        nap(random % 1000);
    else
        written++;
}

static void write_again(uint64_t random) {
    if (written) MAY(OK, RELEASED, tracerd_write(local, random % (uint64_t)written, dir));
    nap(random % 4000);
}

static void release(uint64_t random) {
    if (released < written) {
        MUST(tracerd_release(local, (uint64_t)released));
        MAY(RELEASED, RELEASED, tracerd_release(local, (uint64_t)released++));
    } else
        nap(random % 3000);
}

static void stop_and_start(uint64_t random) {
    nap(random % 20000);
    MUST(tracerd_stop(local));
    for (int i = 0; i < STREAMS; i++) must_be(!is_on(producers[i]), "what is stopped is off");
    nap(random % 300);
    MUST(tracerd_start(local, tracerd_now_of(local)));
}

static void clear(uint64_t random) {
    uint64_t n;
    nap(random % 60000);
    MUST(tracerd_clear(local, &n));
}

static void drain(uint64_t random) {
    uint64_t n;
    MUST(tracerd_drain(local, &n));
    nap(random % 500);
}

static void start_drainer(uint64_t random) {
    MAY(OK, DRAINING, tracerd_drainer_start(local, 1 + random % 3000000));
    nap(random % 5000);
    MAY(OK, NOT_DRAINING, tracerd_drainer_stop(local));
}

static void is_sum(tracerd_counts c) {
    must_be(c.offered == c.discarded + c.overwritten + c.cleared + c.in_ring + c.in_chunks, "counts");
}

static void look(uint64_t random) {
    tracerd_counts c;
    tracerd_fate f;
    tracerd_about about;
    tracerd_archive archive;
    uint64_t n;
    int i = (int)(random % STREAMS);
    MUST(tracerd_counts_of(producers[i], &c));
    is_sum(c);
    MUST(tracerd_fate_of(producers[i], random % (c.offered + 5), &f));
    MUST(tracerd_counts_sum(local, &c));
    is_sum(c);
    MAY(DRAINING, MISSING, tracerd_settle(local, &c, &n));
    MUST(tracerd_about_of(local, &about));
    if (about.archives) MUST(tracerd_archive_of(local, random % about.archives, &archive));
    nap(random % 200);
}

static void take_snapshot(uint64_t random) {
    char folder[4200];
    long number = taken++;
    nap(random % 20000);
    if (number >= MOST_SNAPSHOTS) return;
    snprintf(folder, sizeof folder, "%s/snapshots/%ld", dir, number);
    MUST(tracerd_snapshot(snapshots, tracerd_now_of(snapshots), folder));
}

typedef void turn(uint64_t random);
static turn *const turns[] = {rotate, tick,  write_next,    write_again, release, stop_and_start, clear,
                              drain,  drain, start_drainer, look,        look,    take_snapshot,  take_snapshot};

static void *take_turns(void *given) {
    uint64_t number = (uint64_t)(intptr_t)given, state = seed + number;
    while (!is_over) turns[number](next_random(&state));
    return NULL;
}

/* ---- The beginning and the end ---- */

static void open_sessions(void) {
    static const uint8_t identifiers[2][16] = {{9, 8, 7, 6, 5, 4, 3, 2, 1, 0, 1, 2, 3, 4, 5, 6}, {1, 1}};
    MUST(tracerd_new(&local, "stress", identifiers[0], (int32_t)(seed % 2879) - 1439, TRACERD_LOCAL));
    MUST(tracerd_new(&snapshots, "shots", identifiers[1], 0, TRACERD_SNAPSHOT));
    for (int i = 0; i < KINDS; i++)
        MUST(tracerd_channel(local, channels[i].name, channels[i].size, channels[i].count, channels[i].mode));
    MUST(tracerd_channel(snapshots, "shot", 256, 4, TRACERD_OVERWRITE));
    for (int i = 0; i < STREAMS; i++) MUST(tracerd_producer_new(local, channels[i / 2 % KINDS].name, &producers[i]));
    for (int i = 0; i < SHOWN; i++) MUST(tracerd_producer_new(snapshots, "shot", &shown[i]));
    MUST(tracerd_start(snapshots, 0));
    MUST(tracerd_start(local, tracerd_now_of(local)));
}

static void close_local(void) {
    uint64_t n;
    tracerd_counts c;
    MAY(OK, NOT_DRAINING, tracerd_drainer_stop(local));
    MUST(tracerd_stop(local));
    MUST(tracerd_rotate(local, 0, &n));
    for (; n + 1 > (uint64_t)written; written++) MUST(tracerd_write(local, (uint64_t)written, dir));
    MUST(tracerd_producer_done(producers[OFFERING]));
    MUST(tracerd_settle(local, &c, &n));
    is_sum(c);
}

/* What each stream counts, and each serial's fate, for the judge. */
static void say_fates(FILE *out) {
    for (int i = 0; i < STREAMS; i++) {
        tracerd_counts c;
        MUST(tracerd_counts_of(producers[i], &c));
        if (i < OFFERING) {
            is(c.offered == told[i].serial && c.discarded == told[i].discarded && c.overwritten == told[i].gone);
            is(!c.in_ring && told[i].stored == c.overwritten + c.cleared + c.in_chunks);
        }
        is(fwrite(&c, 48, 1, out) == 1);
        for (uint64_t serial = 0; serial < c.offered; serial++) {
            tracerd_fate f;
            MUST(tracerd_fate_of(producers[i], serial, &f));
            is(fwrite((uint64_t[]){f.place, f.chunk, f.packet}, 24, 1, out) == 1);
        }
    }
}

int main(int count, char **words) {
    pthread_t threads[MOST_THREADS];
    int made = 0;
    char path[4200];
    if (count != 4) return 2;
    seed = strtoull(words[1], NULL, 10);
    uint64_t half = strtoull(words[2], NULL, 10) * 500;
    dir = words[3];
    open_sessions();
    for (int i = 0; i < OFFERING; i++) is(!pthread_create(&threads[made++], NULL, offer_all, (void *)(intptr_t)i));
    is(!pthread_create(&threads[made++], NULL, trace, NULL));
    for (size_t i = 0; i < sizeof turns / sizeof *turns; i++) is(!pthread_create(&threads[made++], NULL, take_turns, (void *)i));
    nap(half);
    is_late = true;
    nap(half);
    is_over = true;
    while (made) pthread_join(threads[--made], NULL);
    close_local();
    snprintf(path, sizeof path, "%s/fates", dir);
    FILE *out = fopen(path, "wb");
    is(out != NULL);
    say_fates(out);
    is(!fclose(out));
    tracerd_free(local);
    tracerd_free(snapshots);
    counts_as_one();
    return closing();
}
