/* Typed events, for C11 and C++17 by gcc and clang: of one list a function for each event, and the text that declares them.
 *
 *     #define EVENTS(E)                                 \
 *         E(queue_push, 3, (u32, worker), (u64, depth)) \
 *         E(queue_closed, 4)
 *     TRACERD_EVENTS(EVENTS)
 *
 *     tracerd_declare(session, tracerd_declarations, NULL)     "queue_push 3 worker:u32 depth:u64\nqueue_closed 4\n"
 *     TRACERD_EVENT(queue_push, producer, worker, depth);      a tracepoint, as TRACERD_TRACE
 *     tracerd_trace_queue_push(producer, worker, depth)        the same, as tracerd_trace: it answers
 *
 * An event has a name, an id, written in decimal, and up to 32 fields:
 *
 *     (u32, worker)                        a value: u8 to u64, i8 to i64, x8 to x64, f32, f64, flag
 *     (named, verb, u8, "GET=0,PUT=1")     a value that readers show by its name
 *     (str, path)                          a text that ends in NUL: of a longer one the first 255 bytes (TRACERD_LONGEST_STR).
 *                                          NULL is recorded as an empty one
 *     (array, cpu, u8, 4)                  u8[4]: a pointer to so many values
 *     (sequence, parts, u16, 16)           u16[]: a pointer to values, and how many; of more the first 16
 *     (text, line), (bytes, data)          the event's only field: a pointer, and the size in bytes
 *
 * These are all types of docs/FORMATS.md. A record is packed on the stack, which has room for the longest one, and offered once;
 * text and bytes are offered where they are. So each fits its declaration.
 *
 * The compiler refuses what is there twice: an event's name or id, a field's name in an event. It refuses an id that is 0 or not in
 * decimal, a type that is none, text or bytes beside other fields, and another number of values. tracerd_declare refuses what is
 * left, and says in which line: names that are none (`record`, `serial` and `len` too), a count of 0, what a value's names say.
 *
 * A file that records has the list once; ids are of all that a session declares. In C++ a producer is handed in by get();
 * producer.trace(tracerd_trace_queue_push, worker, depth) throws what an offer does. */
#ifndef TRACERD_EVENTS_H
#define TRACERD_EVENTS_H
#include "tracerd.h"
#include <assert.h>
#include <stdbool.h>
#include <string.h>

#if !defined(__BYTE_ORDER__) || __BYTE_ORDER__ != __ORDER_LITTLE_ENDIAN__
#error "a payload's numbers are little-endian: they are packed as they lie in memory"
#endif
static_assert(sizeof(bool) == 1 && sizeof(float) == 4 && sizeof(double) == 8, "flag, f32 and f64 are packed as they are");

/* ---- What a program uses ---- */

/* Of a list: tracerd_event_EVENT, an event's place in it; tracerd_declarations; tracerd_trace_EVENT; and tracerd_is_listed(id),
 * whether an event has this id. */
#define TRACERD_EVENTS(list)                                                                    \
    enum tracerd_events { list(TRACERD_NAME) };                                                 \
    __extension__ static const char tracerd_declarations[] TRACERD_UNUSED = list(TRACERD_LINE); \
    list(TRACERD_FUNCTION)                                                                      \
    static inline TRACERD_UNUSED bool tracerd_is_listed(uint32_t id) {                          \
        switch (id) {                                                                           \
            list(TRACERD_CASE)                                                                  \
                return true;                                                                    \
            default:                                                                            \
                return false;                                                                   \
        }                                                                                       \
    }

/* A tracepoint, TRACERD_EVENT(event, producer, values ..): while the session is off it costs a load and a branch, and nothing but
 * the producer is evaluated. Refusals aren't answered: where they matter, call tracerd_trace_EVENT. tracerd_counts has them, and by
 * tracerd_record_refused archives do. */
#define TRACERD_EVENT(event, ...)                                                                      \
    do {                                                                                               \
        tracerd_producer *tracerd_of_event_ = (TRACERD_FIRST(__VA_ARGS__, ~));                         \
        if (__builtin_expect(__atomic_load_n(&tracerd_of_event_->active, __ATOMIC_RELAXED) != 0, 0) && \
            tracerd_trace_##event(TRACERD_AFTER(tracerd_of_event_, __VA_ARGS__)) != TRACERD_OK) {}     \
    } while (0)

#ifndef TRACERD_LONGEST_STR
#define TRACERD_LONGEST_STR 255 /* a program may define another before this header */
#endif

/* ---- Values become bytes: each call answers the place after what it put ---- */

static inline uint8_t *tracerd_put(uint8_t *at, const void *values, size_t size) {
    memcpy(at, values, size);
    return at + size;
}

static inline uint8_t *tracerd_put_str(uint8_t *at, const char *text) {
    const char *from = text ? text : "", *end = (const char *)memchr(from, 0, TRACERD_LONGEST_STR);
    at = tracerd_put(at, from, end ? (size_t)(end - from) : TRACERD_LONGEST_STR);
    *at = 0;
    return at + 1;
}

static inline uint8_t *tracerd_put_sequence(uint8_t *at, const void *values, size_t count, uint32_t most, size_t size) {
    uint32_t taken = count < most ? (uint32_t)count : most;
    at = tracerd_put(at, &taken, sizeof taken);
    return taken ? tracerd_put(at, values, taken * size) : at;
}

/* ---- What a type is: its form, and the type of its values in C ---- */

#define TRACERD_TYPE_u8 TRACERD_VALUE, uint8_t
#define TRACERD_TYPE_u16 TRACERD_VALUE, uint16_t
#define TRACERD_TYPE_u32 TRACERD_VALUE, uint32_t
#define TRACERD_TYPE_u64 TRACERD_VALUE, uint64_t
#define TRACERD_TYPE_i8 TRACERD_VALUE, int8_t
#define TRACERD_TYPE_i16 TRACERD_VALUE, int16_t
#define TRACERD_TYPE_i32 TRACERD_VALUE, int32_t
#define TRACERD_TYPE_i64 TRACERD_VALUE, int64_t
#define TRACERD_TYPE_x8 TRACERD_VALUE, uint8_t
#define TRACERD_TYPE_x16 TRACERD_VALUE, uint16_t
#define TRACERD_TYPE_x32 TRACERD_VALUE, uint32_t
#define TRACERD_TYPE_x64 TRACERD_VALUE, uint64_t
#define TRACERD_TYPE_f32 TRACERD_VALUE, float
#define TRACERD_TYPE_f64 TRACERD_VALUE, double
#define TRACERD_TYPE_flag TRACERD_VALUE, bool
#define TRACERD_TYPE_str TRACERD_STR, const char *
#define TRACERD_TYPE_named TRACERD_NAMED, ~
#define TRACERD_TYPE_array TRACERD_ARRAY, ~
#define TRACERD_TYPE_sequence TRACERD_SEQUENCE, ~
#define TRACERD_TYPE_text TRACERD_WHOLE, const char *
#define TRACERD_TYPE_bytes TRACERD_WHOLE, const void *
/* the type in C of one of many values */
#define TRACERD_OF_MANY(type) TRACERD_BY_FORM(_OF_MANY, TRACERD_TYPE_##type)
#define TRACERD_VALUE_OF_MANY(c) c

/* ---- What a field adds: to its function's parameters, to the most bytes, to what packs them, and to the text ---- */

#define TRACERD_PARAMETER(type, ...) TRACERD_OF_FIELD(_PARAMETER, TRACERD_TYPE_##type, type, __VA_ARGS__)
#define TRACERD_SIZE(type, ...) TRACERD_OF_FIELD(_SIZE, TRACERD_TYPE_##type, type, __VA_ARGS__)
#define TRACERD_PUT(type, ...) TRACERD_OF_FIELD(_PUT, TRACERD_TYPE_##type, type, __VA_ARGS__)
#define TRACERD_WORD(type, ...) TRACERD_OF_FIELD(_WORD, TRACERD_TYPE_##type, type, __VA_ARGS__)

#define TRACERD_VALUE_PARAMETER(c, type, name) , c name
#define TRACERD_VALUE_SIZE(c, type, name) + sizeof(c)
#define TRACERD_VALUE_PUT(c, type, name) tracerd_at = tracerd_put(tracerd_at, &name, sizeof name);
#define TRACERD_VALUE_WORD(c, type, name) " " #name ":" #type

#define TRACERD_NAMED_PARAMETER(c, named, name, type, names) , TRACERD_OF_MANY(type) name
#define TRACERD_NAMED_SIZE(c, named, name, type, names) + sizeof(TRACERD_OF_MANY(type))
#define TRACERD_NAMED_PUT(c, named, name, type, names) tracerd_at = tracerd_put(tracerd_at, &name, sizeof name);
#define TRACERD_NAMED_WORD(c, named, name, type, names) " " #name ":" #type "{" names "}"

#define TRACERD_STR_PARAMETER(c, type, name) , c name
#define TRACERD_STR_SIZE(c, type, name) + TRACERD_LONGEST_STR + 1
#define TRACERD_STR_PUT(c, type, name) tracerd_at = tracerd_put_str(tracerd_at, name);
#define TRACERD_STR_WORD(c, type, name) " " #name ":" #type

#define TRACERD_ARRAY_PARAMETER(c, array, name, type, count) , const TRACERD_OF_MANY(type) name[count]
#define TRACERD_ARRAY_SIZE(c, array, name, type, count) + sizeof(TRACERD_OF_MANY(type)[count])
#define TRACERD_ARRAY_PUT(c, array, name, type, count) \
    tracerd_at = tracerd_put(tracerd_at, name, sizeof(TRACERD_OF_MANY(type)[count]));
#define TRACERD_ARRAY_WORD(c, array, name, type, count) " " #name ":" #type "[" #count "]"

#define TRACERD_SEQUENCE_PARAMETER(c, sequence, name, type, most) , const TRACERD_OF_MANY(type) *name, size_t name##_length
#define TRACERD_SEQUENCE_SIZE(c, sequence, name, type, most) + sizeof(uint32_t) + sizeof(TRACERD_OF_MANY(type)[most])
#define TRACERD_SEQUENCE_PUT(c, sequence, name, type, most) \
    tracerd_at = tracerd_put_sequence(tracerd_at, name, name##_length, most, sizeof *name);
#define TRACERD_SEQUENCE_WORD(c, sequence, name, type, most) " " #name ":" #type "[]"

#define TRACERD_WHOLE_PARAMETER(c, type, name) , c name, size_t name##_size
#define TRACERD_WHOLE_SIZE(c, type, name) + 1
#define TRACERD_WHOLE_PUT(c, type, name)                                                            \
    static_assert(sizeof tracerd_room == 2, "text and bytes are their event's only field: " #name); \
    return tracerd_trace(tracerd_by, tracerd_id, name, name##_size);
#define TRACERD_WHOLE_WORD(c, type, name) " " #name ":" #type

/* ---- What an event adds. A record's room begins with a zero, so that one of no bytes points somewhere that was written. ---- */

#define TRACERD_UNUSED __attribute__((unused))
#define TRACERD_NAME(event, ...) tracerd_event_##event,
#define TRACERD_CASE(event, ...) case TRACERD_FIRST(__VA_ARGS__, ~):
#define TRACERD_LINE(event, ...) \
    #event " " TRACERD_TEXT_OF(TRACERD_FIRST(__VA_ARGS__, ~)) TRACERD_EACH(TRACERD_WORD, __VA_ARGS__) "\n"
#define TRACERD_FUNCTION(event, ...)                                                                                             \
    static_assert(TRACERD_IS_ID(TRACERD_FIRST(__VA_ARGS__, ~)), "the id of " #event " is not from 1 to 4294967295, in decimal"); \
    static inline TRACERD_CHECKED TRACERD_UNUSED TRACERD_POINTER(1)                                                              \
    tracerd_status tracerd_trace_##event(tracerd_producer *tracerd_by TRACERD_EACH(TRACERD_PARAMETER, __VA_ARGS__)) {            \
        const uint32_t tracerd_id = TRACERD_FIRST(__VA_ARGS__, ~);                                                               \
        uint8_t tracerd_room[1 TRACERD_EACH(TRACERD_SIZE, __VA_ARGS__)], *tracerd_at = tracerd_room;                             \
        *tracerd_at = 0;                                                                                                         \
        TRACERD_EACH(TRACERD_PUT, __VA_ARGS__)                                                                                   \
        return tracerd_trace(tracerd_by, tracerd_id, tracerd_room, (size_t)(tracerd_at - tracerd_room));                         \
    }

/* ---- Of the language ---- */

/* Whether an id is in its range, and written in decimal: then a digit after it makes ten times as much. */
#define TRACERD_IS_ID(id) TRACERD_IS_ID_OF(id)
#define TRACERD_IS_ID_OF(id) ((id) > 0 && (id) <= 4294967295 && id##0ULL == (id) * 10ULL)
#define TRACERD_TEXT_OF(word) TRACERD_TEXT_OF_WORD(word)
#define TRACERD_TEXT_OF_WORD(word) #word

/* What a form says of this kind: TRACERD_VALUE_SIZE(..) of _SIZE, TRACERD_VALUE, .. */
#define TRACERD_BY_FORM(...) TRACERD_BY_FORM_OF(__VA_ARGS__)
#define TRACERD_BY_FORM_OF(kind, form, ...) form##kind(__VA_ARGS__)
#define TRACERD_OF_FIELD(...) TRACERD_OF_FIELD_OF(__VA_ARGS__)
#define TRACERD_OF_FIELD_OF(kind, form, ...) form##kind(__VA_ARGS__)

#define TRACERD_FIRST(first, ...) first
#define TRACERD_34TH(_1, _2, _3, _4, _5, _6, _7, _8, _9, _10, _11, _12, _13, _14, _15, _16, _17, _18, _19, _20, _21, _22, _23, \
                     _24, _25, _26, _27, _28, _29, _30, _31, _32, _33, it, ...) it

/* Arguments of a call, of which the first is replaced. */
#define TRACERD_AFTER(first, ...)                                                                                                \
    TRACERD_34TH(__VA_ARGS__, TRACERD_MANY, TRACERD_MANY, TRACERD_MANY, TRACERD_MANY, TRACERD_MANY, TRACERD_MANY, TRACERD_MANY,  \
                 TRACERD_MANY, TRACERD_MANY, TRACERD_MANY, TRACERD_MANY, TRACERD_MANY, TRACERD_MANY, TRACERD_MANY, TRACERD_MANY, \
                 TRACERD_MANY, TRACERD_MANY, TRACERD_MANY, TRACERD_MANY, TRACERD_MANY, TRACERD_MANY, TRACERD_MANY, TRACERD_MANY, \
                 TRACERD_MANY, TRACERD_MANY, TRACERD_MANY, TRACERD_MANY, TRACERD_MANY, TRACERD_MANY, TRACERD_MANY, TRACERD_MANY, \
                 TRACERD_MANY, TRACERD_ONE, ~)                                                                                   \
    (first, __VA_ARGS__)
#define TRACERD_ONE(first, replaced) first
#define TRACERD_MANY(first, replaced, ...) first, __VA_ARGS__

/* what(field) of each field. After the id, each (type, name, ..) is in parentheses, as arguments do. */
#define TRACERD_EACH(what, ...)                                                                                           \
    TRACERD_34TH(__VA_ARGS__, TRACERD_EACH32, TRACERD_EACH31, TRACERD_EACH30, TRACERD_EACH29, TRACERD_EACH28,             \
                 TRACERD_EACH27, TRACERD_EACH26, TRACERD_EACH25, TRACERD_EACH24, TRACERD_EACH23, TRACERD_EACH22,          \
                 TRACERD_EACH21, TRACERD_EACH20, TRACERD_EACH19, TRACERD_EACH18, TRACERD_EACH17, TRACERD_EACH16,          \
                 TRACERD_EACH15, TRACERD_EACH14, TRACERD_EACH13, TRACERD_EACH12, TRACERD_EACH11, TRACERD_EACH10,          \
                 TRACERD_EACH9, TRACERD_EACH8, TRACERD_EACH7, TRACERD_EACH6, TRACERD_EACH5, TRACERD_EACH4, TRACERD_EACH3, \
                 TRACERD_EACH2, TRACERD_EACH1, TRACERD_EACH0, ~)                                                          \
    (what, __VA_ARGS__)
#define TRACERD_EACH0(what, id)
#define TRACERD_EACH1(what, id, field) what field
#define TRACERD_EACH2(what, id, field, ...) what field TRACERD_EACH1(what, id, __VA_ARGS__)
#define TRACERD_EACH3(what, id, field, ...) what field TRACERD_EACH2(what, id, __VA_ARGS__)
#define TRACERD_EACH4(what, id, field, ...) what field TRACERD_EACH3(what, id, __VA_ARGS__)
#define TRACERD_EACH5(what, id, field, ...) what field TRACERD_EACH4(what, id, __VA_ARGS__)
#define TRACERD_EACH6(what, id, field, ...) what field TRACERD_EACH5(what, id, __VA_ARGS__)
#define TRACERD_EACH7(what, id, field, ...) what field TRACERD_EACH6(what, id, __VA_ARGS__)
#define TRACERD_EACH8(what, id, field, ...) what field TRACERD_EACH7(what, id, __VA_ARGS__)
#define TRACERD_EACH9(what, id, field, ...) what field TRACERD_EACH8(what, id, __VA_ARGS__)
#define TRACERD_EACH10(what, id, field, ...) what field TRACERD_EACH9(what, id, __VA_ARGS__)
#define TRACERD_EACH11(what, id, field, ...) what field TRACERD_EACH10(what, id, __VA_ARGS__)
#define TRACERD_EACH12(what, id, field, ...) what field TRACERD_EACH11(what, id, __VA_ARGS__)
#define TRACERD_EACH13(what, id, field, ...) what field TRACERD_EACH12(what, id, __VA_ARGS__)
#define TRACERD_EACH14(what, id, field, ...) what field TRACERD_EACH13(what, id, __VA_ARGS__)
#define TRACERD_EACH15(what, id, field, ...) what field TRACERD_EACH14(what, id, __VA_ARGS__)
#define TRACERD_EACH16(what, id, field, ...) what field TRACERD_EACH15(what, id, __VA_ARGS__)
#define TRACERD_EACH17(what, id, field, ...) what field TRACERD_EACH16(what, id, __VA_ARGS__)
#define TRACERD_EACH18(what, id, field, ...) what field TRACERD_EACH17(what, id, __VA_ARGS__)
#define TRACERD_EACH19(what, id, field, ...) what field TRACERD_EACH18(what, id, __VA_ARGS__)
#define TRACERD_EACH20(what, id, field, ...) what field TRACERD_EACH19(what, id, __VA_ARGS__)
#define TRACERD_EACH21(what, id, field, ...) what field TRACERD_EACH20(what, id, __VA_ARGS__)
#define TRACERD_EACH22(what, id, field, ...) what field TRACERD_EACH21(what, id, __VA_ARGS__)
#define TRACERD_EACH23(what, id, field, ...) what field TRACERD_EACH22(what, id, __VA_ARGS__)
#define TRACERD_EACH24(what, id, field, ...) what field TRACERD_EACH23(what, id, __VA_ARGS__)
#define TRACERD_EACH25(what, id, field, ...) what field TRACERD_EACH24(what, id, __VA_ARGS__)
#define TRACERD_EACH26(what, id, field, ...) what field TRACERD_EACH25(what, id, __VA_ARGS__)
#define TRACERD_EACH27(what, id, field, ...) what field TRACERD_EACH26(what, id, __VA_ARGS__)
#define TRACERD_EACH28(what, id, field, ...) what field TRACERD_EACH27(what, id, __VA_ARGS__)
#define TRACERD_EACH29(what, id, field, ...) what field TRACERD_EACH28(what, id, __VA_ARGS__)
#define TRACERD_EACH30(what, id, field, ...) what field TRACERD_EACH29(what, id, __VA_ARGS__)
#define TRACERD_EACH31(what, id, field, ...) what field TRACERD_EACH30(what, id, __VA_ARGS__)
#define TRACERD_EACH32(what, id, field, ...) what field TRACERD_EACH31(what, id, __VA_ARGS__)
#endif
