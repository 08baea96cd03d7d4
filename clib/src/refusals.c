/* Offers that were refused: counted, and recorded by the stream itself, so that who reads archives knows of them. */
#include "rings.h"

_Static_assert(sizeof(((slot *)0)->refused) == 40, "offers_refused has five fields of 8 bytes");

enum { HEADS = 104 }; /* bytes of a sub-buffer that no payload has */
static const uint64_t LAST_MOMENT = 9000000000000000000;

/* ---- Counting ---- */

/* The count of offers that are refused for this, or NULL. */
static uint64_t *count_of(slot *s, tracerd_status why) {
    switch (why) {
    case TRACERD_INACTIVE:
        return &s->refused.inactive;
    case TRACERD_TOO_BIG:
        return &s->refused.too_big;
    case TRACERD_BAD_MOMENT:
        return &s->refused.bad_moment;
    case TRACERD_SPENT:
        return &s->refused.spent;
    case TRACERD_OTHER_LAYOUT:
        return &s->refused.other_layout;
    default: /* it was given back */
        return NULL;
    }
}

void count_refusal_locked(slot *s, uint64_t moment, tracerd_status why) {
    uint64_t *count = count_of(s, why);
    if (!count)
        return;
    ++*count;
    if (moment <= LAST_MOMENT)
        s->refused_at = moment;
    if (s->is_told && s->telling == SAID)
        s->telling = DUE;
}

static bool has_refused(const slot *s) {
    return s->refused.inactive || s->refused.too_big || s->refused.bad_moment || s->refused.spent || s->refused.other_layout;
}

/* ---- Saying ---- */

/* How many of the stream's records were overwritten or cleared. The slot is locked. */
static uint64_t count_lost_locked(slot *s) {
    trc_counts counts = {0};
    (void)trc_stream_counts(&s->stream, &counts); /* it is refused in a child alone, which has said nothing */
    return counts.overwritten + counts.cleared;
}

/* Offers it, at the moment of the last refused offer or this one if that is earlier. While the stream takes no offers it stays
 * due. The slot is locked. */
static void say_by_locked(slot *s, uint64_t latest) {
    tracerd_offered offered;
    uint64_t moment = s->refused_at < latest ? s->refused_at : latest;
    if (offer_locked(s, moment, TRACERD_OFFERS_REFUSED, &s->refused, sizeof s->refused, &offered))
        return;
    s->telling = offered.outcome == TRACERD_DISCARDED ? HELD : SAID;
    s->lost = count_lost_locked(s);
}

/* Whether the stream will accept a record, so that not each offer that is refused has a record. The slot is locked. */
static bool will_accept_locked(slot *s, uint64_t moment, size_t size) {
    uint64_t whole, count;
    return s->front.active && moment <= LAST_MOMENT && !trc_stream_lacking_for_take(&s->stream, &whole, &count) &&
           size <= whole - HEADS;
}

tracerd_status offer_told_locked(slot *s, uint64_t moment, uint32_t id, const void *payload, size_t size,
                                 tracerd_offered *offered) {
    if (s->telling == DUE && will_accept_locked(s, moment, size))
        say_by_locked(s, moment);
    tracerd_status status = offer_locked(s, moment, id, payload, size, offered);
    if (!status && offered->outcome != TRACERD_DISCARDED && s->telling == HELD)
        s->telling = DUE; /* there is room again */
    return status;
}

void begin_telling_locked(slot *s, bool is_told, uint64_t moment) {
    if (s->refused_at < moment)
        s->refused_at = moment;
    if (is_told && !s->is_told && has_refused(s))
        s->telling = DUE;
    s->is_told = is_told;
}

void say_refused_locked(slot *s) {
    if (s->telling == DUE)
        say_by_locked(s, LAST_MOMENT);
}

void say_all_refused_locked(slot *s) {
    trc_taken taken;
    if (!s->is_told || !has_refused(s))
        return;
    if (s->telling == SAID && count_lost_locked(s) == s->lost)
        return;
    pages_in(s->rings);
    (void)trc_stream_take(&s->stream, &taken); /* there is none, or one that a cut would move as well; a look's ring overwrites */
    pages_in(NULL);
    say_by_locked(s, LAST_MOMENT);
}
