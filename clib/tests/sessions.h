/* What the tests of calls and of files share: a session with a channel `c` and one producer, and what is asked of these. */
#ifndef SESSIONS_H
#define SESSIONS_H
#include "paths.h"
#include "testing.h"

static char letters[70000];

static inline tracerd_session *fresh(tracerd_kind kind, tracerd_mode mode, tracerd_producer **producer) {
    tracerd_session *s;
    answers(OK, tracerd_new(&s, "s", ONE, 0, kind));
    answers(OK, tracerd_channel(s, "c", 256, 2, mode));
    answers(OK, tracerd_producer_new(s, "c", producer));
    return s;
}

static inline void is_stored(tracerd_producer *p, uint64_t moment, size_t size, uint64_t serial, uint64_t packet) {
    tracerd_offered o;
    answers(OK, tracerd_offer(p, moment, 7, letters, size, &o));
    is(o.outcome == TRACERD_STORED && o.serial == serial && o.packet == packet && !o.gone && !o.gone_count);
}

static inline void is_at(tracerd_producer *p, uint64_t serial, tracerd_place place, uint64_t chunk, uint64_t packet) {
    tracerd_fate f;
    answers(OK, tracerd_fate_of(p, serial, &f));
    is(f.place == place && f.chunk == chunk && f.packet == packet);
}

static inline void begin(const char *folder) {
    dir = folder;
    memset(letters, 'a', sizeof letters - 1);
}

#define EACH_ALONE(tests)                                                                                                        \
    for (size_t i_ = 0; i_ < sizeof tests / sizeof *tests; i_++) {                                                               \
        tests[i_]();                                                                                                             \
        counts_as_one();                                                                                                         \
    }

#define EACH_WITH_SESSION(tests)                                                                                                 \
    for (size_t i_ = 0; i_ < sizeof tests / sizeof *tests; i_++) {                                                               \
        tracerd_producer *producer_;                                                                                             \
        tracerd_session *session_ = fresh(TRACERD_LOCAL, TRACERD_DISCARD, &producer_);                                           \
        tests[i_](session_, producer_);                                                                                          \
        tracerd_free(session_);                                                                                                  \
        counts_as_one();                                                                                                         \
    }
#endif
