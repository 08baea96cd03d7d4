/* What a client's lines ask for, and what is done then. A cell reads the lines, as a script's are read. */
#include "listeners.h"
#include <errno.h>
#include <inttypes.h>
#include <stdio.h>
#include <string.h>

enum { MOMENT = 20 }; /* the most digits of a moment */

/* ---- What is asked of a session ---- */

static uint32_t answer_status(const tracerd_listener *l, const trc_asked *it, text *a) {
    (void)it;
    say_status(a, l->session);
    return TRC_DONE;
}

static uint32_t answer_archives(const tracerd_listener *l, const trc_asked *it, text *a) {
    (void)it;
    say_archives(a, l->session);
    return TRC_DONE;
}

static uint32_t answer_fate(const tracerd_listener *l, const trc_asked *it, text *a) {
    slot *s = it->stream < STREAMS ? atomic_load(&l->session->slots[it->stream]) : NULL;
    tracerd_fate fate;
    if (!s)
        return TRC_S_NO_STREAM;
    uint32_t status = tracerd_fate_of(&s->front, it->serial, &fate);
    if (!status)
        say_fate(a, &fate);
    return status;
}

/* ---- What is done with it ---- */

static uint32_t answer_start(const tracerd_listener *l, const trc_asked *it, text *a) {
    uint32_t status = tracerd_start(l->session, it->moment);
    if (!status)
        say(a, TRC_SAYS_STARTED);
    return status;
}

static uint32_t answer_stop(const tracerd_listener *l, const trc_asked *it, text *a) {
    uint32_t status = tracerd_stop(l->session);
    (void)it;
    if (!status)
        say(a, TRC_SAYS_STOPPED);
    return status;
}

static uint32_t answer_clear(const tracerd_listener *l, const trc_asked *it, text *a) {
    uint64_t records;
    uint32_t status = tracerd_clear(l->session, &records);
    (void)it;
    if (!status)
        say_cleared(a, records);
    return status;
}

static uint32_t answer_release(const tracerd_listener *l, const trc_asked *it, text *a) {
    uint32_t status = tracerd_release(l->session, it->archive);
    if (!status)
        say_released(a, it->archive);
    return status;
}

static uint32_t answer_schedule(const tracerd_listener *l, const trc_asked *it, text *a) {
    uint32_t status = set_schedule(l->session, it->is_timed, it->every, it->is_by_size, it->size);
    if (!status)
        say(a, it->is_timed || it->is_by_size ? TRC_SAYS_SCHEDULE_SET : TRC_SAYS_SCHEDULE_OFF);
    return status;
}

/* Rotates, and writes the archive, unless a keeper was quicker. */
static uint32_t answer_rotate(const tracerd_listener *l, const trc_asked *it, text *a) {
    uint64_t archive;
    uint32_t status = tracerd_rotate(l->session, it->moment, &archive);
    if (status)
        return status;
    say_archived(a, l->session, archive);
    tracerd_status written = l->has_folder ? tracerd_write(l->session, archive, l->folder) : TRACERD_OK;
    if (written && written != TRACERD_RELEASED)
        say_unwritten(a, written, errno);
    return TRC_DONE;
}

/* Of what isn't written no stream is shown: each is shown as its file has it. */
static uint32_t answer_snapshot(const tracerd_listener *l, const trc_asked *it, text *a) {
    tracerd_status written;
    uint32_t status = take_snapshot(l->session, it->moment, l->has_folder ? l->folder : NULL, a, &written);
    int why = errno;
    if (status)
        return status;
    if (written)
        forget_shown(a);
    say_newline(a);
    if (written)
        say_unwritten(a, written, why);
    return TRC_DONE;
}

/* ---- Lines ---- */

static int count_words(const uint8_t *line, size_t size) {
    int count = 0;
    for (size_t i = 0; i < size; i++)
        count += line[i] != ' ' && (!i || line[i - 1] == ' ');
    return count;
}

/* Copies a line of *size bytes, with the present moment in the place of a third word `now` that ends it. Whether it has one. */
static bool spell_moment(const tracerd_session *t, const uint8_t *line, size_t *size, uint8_t *room) {
    memcpy(room, line, *size);
    if (*size < 4 || memcmp(line + *size - 4, " now", 4) || count_words(line, *size) != 3)
        return false;
    *size -= 3;
    *size += (size_t)snprintf((char *)room + *size, MOMENT + 1, "%" PRIu64, tracerd_now_of(t));
    return true;
}

typedef uint32_t answering(const tracerd_listener *, const trc_asked *, text *);

static answering *const answers[] = {
    [TRC_ASKS_STATUS] = answer_status,     [TRC_ASKS_ARCHIVES] = answer_archives, [TRC_ASKS_FATE] = answer_fate,
    [TRC_ASKS_START] = answer_start,       [TRC_ASKS_STOP] = answer_stop,         [TRC_ASKS_ROTATE] = answer_rotate,
    [TRC_ASKS_SNAPSHOT] = answer_snapshot, [TRC_ASKS_CLEAR] = answer_clear,       [TRC_ASKS_RELEASE] = answer_release,
    [TRC_ASKS_SCHEDULE] = answer_schedule,
};

/* Does what is asked for; what is refused of that, by its number. */
static uint32_t answer_asked(const tracerd_listener *l, const trc_asked *it, text *a) {
    if (it->kind == TRC_ASKS_BADLY)
        say(a, TRC_SAYS_BAD_LINE);
    if (it->kind == TRC_ASKS_OTHER)
        say(a, TRC_SAYS_SCRIPT_ONLY);
    if (it->kind <= TRC_ASKS_OTHER)
        return TRC_DONE;
    return it->is_named ? answers[it->kind](l, it, a) : TRC_K_NO_SESSION;
}

bool answer_line(const tracerd_listener *l, const uint8_t *line, size_t size, text *a) {
    tracerd_session *t = l->session;
    uint8_t spelled[LINE + MOMENT + 1];
    trc_asked asked;
    if (!begin_text(a))
        return false;
    bool is_now = spell_moment(t, line, &size, spelled);
    uint32_t status = trc_line_parse(spelled, size, (const uint8_t *)t->name, strlen(t->name), &asked);
    if (!status && is_now && asked.kind == TRC_ASKS_RELEASE) /* whose number is an archive's */
        asked.kind = TRC_ASKS_BADLY;
    if (!status)
        status = answer_asked(l, &asked, a);
    if (status && begin_text(a)) /* of a snapshot something may be said already */
        say_refused(a, status);
    return !a->is_lost;
}

bool answer_badly(text *a) {
    if (begin_text(a))
        say(a, TRC_SAYS_BAD_LINE);
    return !a->is_lost;
}
