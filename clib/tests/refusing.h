/* What the tests of refused offers share: a session that records them, and what its streams say. */
#ifndef REFUSING_H
#define REFUSING_H
#include "paths.h"
#include "reading.h"

static tracerd_session *s;
static tracerd_producer *p;
static char letters[200];
static const uint64_t PAST_ALL = 9000000000000000001;

/* ---- What a stream says ---- */

static inline const char *refused_of(const record *it) {
    static char text[200];
    size_t size = 0;
    is(it->size == 40);
    for (size_t k = 0; k < 5; k++)
        size +=
            (size_t)snprintf(text + size, sizeof text - size, k ? ",%" PRIu64 : "%" PRIu64, number_at(it->payload + 8 * k, 8));
    return text;
}

static inline void tell(void *with, const record *it) {
    char *said = with, *end = said + strlen(said);
    if (it->id == TRACERD_OFFERS_REFUSED)
        sprintf(end, "refused %s at %" PRIu64 "; ", refused_of(it), it->moment);
    else
        sprintf(end, "%u at %" PRIu64 "; ", it->id, it->moment);
}

/* A file of a stream says this, as "7 at 20; refused INACTIVE,TOO_BIG,BAD_MOMENT,SPENT,OTHER_LAYOUT at 30; ". */
static inline void is_said(const char *path, const char *wanted, const char *file, int line) {
    char said[4096] = "";
    each_record(path, tell, said);
    is_so(!strcmp(said, wanted), said, file, line);
}

static inline void says(uint64_t archive, const char *wanted, const char *file, int line) {
    static char folder[4096];
    static int written;
    snprintf(folder, sizeof folder, "%s/%d", dir, written++);
    answers(OK, tracerd_write(s, archive, folder));
    is_said(file_of(s, folder, archive, 0), wanted, file, line);
}

/* The session's next archive says this of its first stream. */
static inline void rotates(uint64_t moment, const char *wanted, const char *file, int line) {
    uint64_t archive = 0;
    answers(OK, tracerd_rotate(s, moment, &archive));
    says(archive, wanted, file, line);
}

#define is_archived(moment, wanted) rotates(moment, wanted, __FILE__, __LINE__)

/* ---- A session ---- */

static inline void opens(tracerd_kind kind, tracerd_mode mode) {
    answers(OK, tracerd_new(&s, "s", ONE, 0, kind));
    answers(OK, tracerd_channel(s, "c", 256, 2, mode));
    answers(OK, tracerd_record_refused(s));
    answers(OK, tracerd_producer_new(s, "c", &p));
}

static inline void begins(tracerd_mode mode) {
    opens(TRACERD_LOCAL, mode);
    answers(OK, tracerd_start(s, 0));
}

static inline tracerd_status offers(uint64_t moment, uint32_t id, size_t size) {
    tracerd_offered o;
    return tracerd_offer(p, moment, id, letters, size, &o);
}

static inline void is_too_big(uint64_t moment) { answers(TOO_BIG, offers(moment, 7, 153)); }

/* Two records that fill the ring. */
static inline void fills_the_ring(void) {
    answers(OK, offers(1, 7, 152));
    answers(OK, offers(2, 7, 152));
}

static inline void has(uint64_t offered, uint64_t discarded, uint64_t in_ring) {
    tracerd_counts c;
    answers(OK, tracerd_counts_of(p, &c));
    is(c.offered == offered && c.discarded == discarded && c.in_ring == in_ring);
}
#endif
