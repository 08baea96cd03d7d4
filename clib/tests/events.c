/* Typed events: what a list declares, how each type's limits are packed, and when values are evaluated. What has to be in the
 * archive is written down here by hand, by docs/FORMATS.md. It is compiled as C and as C++.
 *
 *     events DIR     a folder that is there, in which files are written */
#include "sessions.h"
#include <float.h>
#include <math.h>
#include <tracerd_events.h>

#define EVENTS(E)                                                                                                                \
    E(whole, 1, (u8, a), (u16, b), (u32, c), (u64, d), (i8, e), (i16, f), (i32, g), (i64, h))                                    \
    E(hexadecimal, 2, (x8, a), (x16, b), (x32, c), (x64, d))                                                                     \
    E(real, 3, (f32, a), (f64, b), (flag, c))                                                                                    \
    E(request, 4, (named, verb, i8, "GET=-1,PUT=1"), (str, path), (str, host), (u8, after))                                      \
    E(many, 5, (array, cpu, u16, 3), (sequence, parts, i32, 2), (sequence, took, f64, 1), (u8, after))                           \
    E(line, 6, (text, line))                                                                                                     \
    E(data, 7, (bytes, data))                                                                                                    \
    E(nothing, 8)                                                                                                                \
    E(wide, 9, (u8, a), (u8, b), (u8, c), (u8, d), (u8, e), (u8, f), (u8, g), (u8, h), (u8, i), (u8, j), (u8, k), (u8, l),       \
      (u8, m), (u8, n), (u8, o), (u8, p), (u8, q), (u8, r), (u8, s), (u8, t), (u8, u), (u8, v), (u8, w), (u8, x), (u8, y),       \
      (u8, z), (u8, aa), (u8, bb), (u8, cc), (u8, dd), (u8, ee), (u8, ff))                                                       \
    E(last, 4000000000, (u8, a))
TRACERD_EVENTS(EVENTS)

static const char declared[] =
    "whole 1 a:u8 b:u16 c:u32 d:u64 e:i8 f:i16 g:i32 h:i64\n"
    "hexadecimal 2 a:x8 b:x16 c:x32 d:x64\n"
    "real 3 a:f32 b:f64 c:flag\n"
    "request 4 verb:i8{GET=-1,PUT=1} path:str host:str after:u8\n"
    "many 5 cpu:u16[3] parts:i32[] took:f64[] after:u8\n"
    "line 6 line:text\n"
    "data 7 data:bytes\n"
    "nothing 8\n"
    "wide 9 a:u8 b:u8 c:u8 d:u8 e:u8 f:u8 g:u8 h:u8 i:u8 j:u8 k:u8 l:u8 m:u8 n:u8 o:u8 p:u8 q:u8 r:u8 s:u8 t:u8 u:u8 v:u8"
    " w:u8 x:u8 y:u8 z:u8 aa:u8 bb:u8 cc:u8 dd:u8 ee:u8 ff:u8\n"
    "last 4000000000 a:u8\n";

#define TEN(text) text text text text text text text text text text
#define HEX_255 TEN(TEN("6161")) TEN("6161616161") "6161616161" /* 255 letters a */

/* Each record's id and payload, in the order in which they are made below. */
static const struct {
    uint32_t id;
    const char *payload;
} wanted[] = {
    {1, "01 0302 07060504 0f0e0d0c0b0a0908 10 1211 16151413 1e1d1c1b1a191817"},
    {1, "ff ffff ffffffff ffffffffffffffff 7f ff7f ffffff7f ffffffffffffff7f"},
    {1, "00 0000 00000000 0000000000000000 80 0080 00000080 0000000000000080"},
    {2, "ab efcd 67452301 67452301efcdab89"},
    {3, "0000803f 00000000000000c0 01"},
    {3, "ffff7f7f 9a9999999999b93f 00"},
    {3, "000080ff ffffffffffffef7f 01"},
    {4, "01 00 6200 09"},
    {4, "ff 2f6974656d00 00 09"},
    {4, "ff " HEX_255 "00 " HEX_255 "00 09"},
    {5, "0100 0200 ffff 00000000 00000000 09"},
    {5, "0100 0200 ffff 02000000 ffffffff 00010000 01000000 000000000000f03f 09"},
    {5, "0100 0200 ffff 02000000 ffffffff 00010000 01000000 000000000000f03f 09"},
    {6, "6162"},
    {6, ""},
    {7, "00ff"},
    {8, ""},
    {9, "00010203 04050607 08090a0b 0c0d0e0f 10111213 14151617 18191a1b 1c1d1e1f"},
    {4000000000, "ff"},
};
enum { WANTED = sizeof wanted / sizeof *wanted };

static void records_numbers(tracerd_producer *p) {
    TRACERD_EVENT(whole, p, 0x01, 0x0203, 0x04050607, 0x08090a0b0c0d0e0f, 0x10, 0x1112, 0x13141516, 0x1718191a1b1c1d1e);
    TRACERD_EVENT(whole, p, UINT8_MAX, UINT16_MAX, UINT32_MAX, UINT64_MAX, INT8_MAX, INT16_MAX, INT32_MAX, INT64_MAX);
    TRACERD_EVENT(whole, p, 0, 0, 0, 0, INT8_MIN, INT16_MIN, INT32_MIN, INT64_MIN);
    TRACERD_EVENT(hexadecimal, p, 0xab, 0xcdef, 0x01234567, 0x89abcdef01234567);
    TRACERD_EVENT(real, p, 1, -2, 256);
    TRACERD_EVENT(real, p, FLT_MAX, 0.1, 0);
    TRACERD_EVENT(real, p, -INFINITY, DBL_MAX, p != NULL);
}

/* A text has a zero byte at its end, and of one of more than 255 bytes the first 255 are there. */
static void records_texts(tracerd_producer *p) {
    const char *longest = &letters[sizeof letters - 256], *longer = longest - 1;
    is(strlen(longest) == 255 && strlen(longer) == 256);
    TRACERD_EVENT(request, p, 1, "", "b", 9);
    TRACERD_EVENT(request, p, -1, "/item", NULL, 9);
    TRACERD_EVENT(request, p, -1, longest, longer, 9);
}

/* Of a sequence that is longer than its most the first values are there, and their number. */
static void records_many(tracerd_producer *p) {
    const uint16_t cpu[] = {1, 2, 65535};
    const int32_t parts[] = {-1, 256, 7};
    const double took[] = {1, 2};
    TRACERD_EVENT(many, p, cpu, NULL, 0, NULL, 0, 9);
    TRACERD_EVENT(many, p, cpu, parts, 2, took, 1, 9);
    TRACERD_EVENT(many, p, cpu, parts, 3, took, ((size_t)1 << 32) + 1, 9);
}

static bool is_payload(const uint8_t *found, size_t size, const char *hexadecimal) {
    for (unsigned value; size && sscanf(hexadecimal, " %2x", &value) == 1; size--) {
        if (*found++ != value) return false;
        hexadecimal += strspn(hexadecimal, " ") + 2;
    }
    return !size && !*hexadecimal;
}

/* The archive has one packet, whose records have these ids and payloads and no more. */
static void has_records(const char *path) {
    static uint8_t bytes[65536];
    FILE *file = fopen(path, "rb");
    size_t size = file ? fread(bytes, 1, sizeof bytes, file) : 0, at = 80;
    is(file && !fclose(file));
    for (size_t k = 0; k < WANTED && at + 24 <= size; k++) {
        uint32_t id, length;
        memcpy(&id, bytes + at, sizeof id);
        memcpy(&length, bytes + at + 20, sizeof length);
        is_so(id == wanted[k].id && is_payload(bytes + at + 24, length, wanted[k].payload), wanted[k].payload, __FILE__,
              __LINE__);
        at += 24 + length;
    }
    is(at == size);
}

static tracerd_session *typed(tracerd_producer **p) {
    tracerd_session *s;
    answers(OK, tracerd_new(&s, "s", ONE, 0, TRACERD_LOCAL));
    answers(OK, tracerd_channel(s, "c", 4096, 2, TRACERD_DISCARD));
    answers(OK, tracerd_producer_new(s, "c", p));
    is(!strcmp(tracerd_declarations, declared));
    answers(OK, tracerd_declare(s, tracerd_declarations, NULL));
    is(tracerd_is_listed(4000000000) && !tracerd_is_listed(10));
    return s;
}

/* Each record fits its declaration; one that isn't made by its event's function may not. */
static void packs_values(void) {
    tracerd_counts c;
    tracerd_producer *p;
    tracerd_session *s = typed(&p);
    uint64_t n;
    answers(OK, tracerd_start(s, 0));
    records_numbers(p);
    records_texts(p);
    records_many(p);
    TRACERD_EVENT(line, p, "abc", 2);
    TRACERD_EVENT(line, p, NULL, 0);
    TRACERD_EVENT(data, p, "\0\xff", 2);
    TRACERD_EVENT(nothing, p);
    TRACERD_EVENT(wide, p, 0, 1, 2, 3, 4, 5, 6, 7, 8, 9, 10, 11, 12, 13, 14, 15, 16, 17, 18, 19, 20, 21, 22, 23, 24, 25, 26, 27,
                  28, 29, 30, 31);
    answers(OK, tracerd_trace_last(p, 255));
    answers(OK, tracerd_counts_of(p, &c));
    is(c.offered == WANTED && !c.discarded && !c.refused_other_layout);
    answers(OTHER_LAYOUT, tracerd_trace(p, 1, "other", 5));
    answers(OK, tracerd_rotate(s, 0, &n));
    answers(OK, tracerd_write(s, n, dir));
    has_records(below("s/archives/19700101T000000+0000-19700101T000000+0000-0/c_0"));
    tracerd_free(s);
}

static int asked, evaluated;
static tracerd_producer *ask(tracerd_producer *p) { return asked++, p; }
static uint8_t evaluate(void) { return (uint8_t)++evaluated; }

/* While the session is off a tracepoint asks for its producer alone, and counts as no refusal; a call does. */
static void evaluates_while_on(void) {
    tracerd_counts c;
    tracerd_producer *p;
    tracerd_session *s = typed(&p);
    TRACERD_EVENT(last, ask(p), evaluate());
    is(asked == 1 && !evaluated);
    answers(INACTIVE, tracerd_trace_last(p, evaluate()));
    answers(OK, tracerd_start(s, 0));
    TRACERD_EVENT(last, ask(p), evaluate());
    is(asked == 2 && evaluated == 2);
    answers(TOO_BIG, tracerd_trace_line(p, letters, 4096 - 103));
    answers(OK, tracerd_trace_line(p, letters, 4096 - 104));
    answers(OK, tracerd_stop(s));
    TRACERD_EVENT(last, ask(p), evaluate());
    if (asked == 3)
        TRACERD_EVENT(nothing, ask(p));
    else
        asked = 0;
    is(asked == 4 && evaluated == 2);
    answers(OK, tracerd_counts_of(p, &c));
    is(c.offered == 2 && c.refused_inactive == 1 && c.refused_too_big == 1);
    tracerd_free(s);
}

int main(int count, char **words) {
    void (*const alone[])(void) = {packs_values, evaluates_while_on};
    if (count != 2) return 2;
    begin(words[1]);
    EACH_ALONE(alone);
    return closing();
}
