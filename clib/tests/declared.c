/* Declared events: what is taken for a declaration and what is refused, by its line; which offers are refused then; and what the
 * metadata of archives has. The stage compares archives with those that `tracerd script --events` makes.
 *
 *     declared DIR EVENTS     a folder that is there, in which files are written, and examples/events/server.events
 */
#include "sessions.h"

static char server[4096];

static void reads(const char *path) {
    FILE *file = fopen(path, "r");
    is(file && fread(server, 1, sizeof server - 1, file) > 0);
    if (file) fclose(file);
}

static tracerd_status offers(tracerd_producer *p, uint64_t moment, uint32_t id, size_t size) {
    tracerd_offered o;
    return tracerd_offer(p, moment, id, letters, size, &o);
}

/* In that file queue_push (3) has 12 bytes, and request (5) a byte and then a text with a zero byte at its end. */
static void refuses_other_layouts(tracerd_session *s, tracerd_producer *p) {
    tracerd_counts c;
    uint64_t n;
    answers(OK, tracerd_declare(s, server, NULL));
    answers(OTHER_LAYOUT, offers(p, 0, 3, 11));
    answers(INACTIVE, offers(p, 0, 3, 12));
    answers(OK, tracerd_start(s, 0));
    answers(OK, offers(p, 1, 3, 12));
    answers(OTHER_LAYOUT, offers(p, 2, 3, 11));
    answers(OTHER_LAYOUT, offers(p, 3, 3, 13));
    answers(OK, offers(p, 4, 9, 11));
    answers(OK, offers(p, 5, 7, 0));
    answers(OTHER_LAYOUT, offers(p, 6, 5, 9));
    answers(OTHER_LAYOUT, tracerd_trace(p, 3, letters, 11));
    answers(OK, tracerd_counts_of(p, &c));
    is(c.offered == 3 && c.refused_other_layout == 5 && c.refused_inactive == 1);
    answers(OK, tracerd_counts_sum(s, &c));
    is(c.offered == 3 && c.refused_other_layout == 5);
    answers(OK, tracerd_rotate(s, 10, &n));
    answers(OK, tracerd_write(s, 0, below("typed")));
    answers(OK, tracerd_producer_done(p));
    answers(CLOSED, offers(p, 11, 3, 11));
}

/* Each refusal, with the line that it is of. Before each there is a line that declares an event. */
static void refuses_bad_lines(tracerd_session *s, tracerd_producer *p) {
    static const struct {
        const char *line;
        tracerd_status status;
    } bad[] = {
        {"event", TRACERD_BAD_EVENT},
        {"event 0", TRACERD_BAD_EVENT},
        {"event 4294967296", TRACERD_BAD_EVENT},
        {"record 2", TRACERD_BAD_EVENT},
        {"event 2 \x7f", TRACERD_BAD_EVENT},
        {"event 2 field", TRACERD_BAD_FIELD},
        {"event 2 serial:u8", TRACERD_BAD_FIELD},
        {"event 2 field:u7", TRACERD_BAD_TYPE},
        {"event 2 field:u8{A=256}", TRACERD_BAD_TYPE},
        {"event 2 all:text other:u8", TRACERD_NOT_ALONE},
        {"event 2 field:u8 field:u8", TRACERD_FIELD_TWICE},
        {"event 1", TRACERD_EVENT_TAKEN},
        {"first 2", TRACERD_EVENT_TAKEN},
        {"event 2 field:u8[1048473]", TRACERD_TOO_MANY_DECLARED},
        {"env event 2", TRACERD_BAD_VARIABLE},
        {"env hostname", TRACERD_BAD_VALUE},
        {"env vpid web1", TRACERD_BAD_VALUE},
    };
    char text[200];
    for (size_t k = 0; k < sizeof bad / sizeof *bad; k++) {
        uint64_t line = 99;
        snprintf(text, sizeof text, "# a line\nfirst 1 field:u8\n%s\nlast 4294967295", bad[k].line);
        is_status(tracerd_declare(s, text, &line), bad[k].status, bad[k].line, __FILE__, __LINE__);
        is(line == 3);
        is_status(tracerd_declare(s, text, NULL), bad[k].status, bad[k].line, __FILE__, __LINE__);
    }
    answers(INACTIVE, offers(p, 0, 1, 0)); /* nothing is declared */
    answers(OK, tracerd_declare(s, "first 1 field:u8\nlast 4294967295", NULL));
    answers(OTHER_LAYOUT, offers(p, 0, 1, 0));
    answers(OTHER_LAYOUT, offers(p, 0, UINT32_MAX, 1));
    answers(BAD_EVENT, tracerd_declare(s, "event", NULL));
    answers(OTHER_LAYOUT, offers(p, 0, 1, 0)); /* what was declared still is */
}

/* What is declared last counts, for all producers, whenever they were made. */
static void declares_anew(tracerd_session *s, tracerd_producer *p) {
    tracerd_producer *q;
    uint64_t line = 99;
    answers(OK, tracerd_declare(s, "one 1 field:u8", &line));
    answers(OK, tracerd_producer_new(s, "c", &q));
    answers(OTHER_LAYOUT, offers(p, 0, 1, 2));
    answers(OTHER_LAYOUT, offers(q, 0, 1, 2));
    answers(OK, tracerd_declare(s, "two 2 field:u8", &line));
    answers(INACTIVE, offers(p, 0, 1, 2));
    answers(OTHER_LAYOUT, offers(q, 0, 2, 2));
    answers(OK, tracerd_declare(s, "", &line));
    answers(INACTIVE, offers(q, 0, 2, 2));
    answers(OK, tracerd_start(s, 0));
    answers(ALREADY_STARTED, tracerd_declare(s, "one 1 field:u8", &line));
    answers(OK, tracerd_stop(s));
    answers(ALREADY_STARTED, tracerd_declare(s, "one 1 field:u8", &line));
    is(line == 99);
}

/* Each event has a class in the metadata, in the order of ids, and there the text ends. */
static void has_classes(const char *path, int count) {
    static char text[1 << 20];
    char wanted[40];
    const char *at = text;
    FILE *file = fopen(path, "r");
    size_t size = file ? fread(text, 1, sizeof text - 1, file) : 0;
    is(file && !fclose(file) && size > 4 && !strcmp(text + size - 4, "\n};\n"));
    for (int k = 1; at && k <= count; k++) {
        snprintf(wanted, sizeof wanted, "\nevent {\n  name = \"event_%d\";\n", k);
        at = strstr(at, wanted);
    }
    is(at && !strstr(at + 1, "\nevent {"));
}

/* As many events as there may be, so that the metadata comes in many pieces. The stage makes a script's archive of the same. */
static void writes_much(tracerd_session *s, tracerd_producer *p) {
    static char text[1024 * 64];
    size_t size = 0;
    uint64_t n;
    for (int k = 1; k <= 1024; k++)
        size += (size_t)snprintf(text + size, sizeof text - size, "event_%d %d field:u8{NAME=%d} other:u64[]\n", k, k, k % 256);
    FILE *file = fopen(below("many.events"), "w");
    is(file && fwrite(text, 1, size, file) == size && !fclose(file));
    answers(OK, tracerd_declare(s, text, NULL));
    answers(OK, tracerd_start(s, 0));
    answers(OTHER_LAYOUT, offers(p, 1, 1024, 0));
    answers(OK, tracerd_rotate(s, 10, &n));
    answers(OK, tracerd_write(s, 0, below("many")));
    answers(OK, tracerd_write(s, 0, below("many"))); /* which compares them */
    has_classes(below("many/s/archives/19700101T000000+0000-19700101T000000+0000-0/metadata"), 1024);
    answers(TOO_MANY_DECLARED, tracerd_declare(s, strcat(text, "event 1025"), &n));
    is(n == 1025);
}

int main(int count, char **words) {
    void (*const with_session[])(tracerd_session *, tracerd_producer *) = {refuses_other_layouts, refuses_bad_lines,
                                                                           declares_anew, writes_much};
    if (count != 3) return 2;
    begin(words[1]);
    reads(words[2]);
    EACH_WITH_SESSION(with_session);
    return closing();
}
