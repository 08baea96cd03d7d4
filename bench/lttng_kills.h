/* A tracepoint with the fields of the records of kills.h. */
#undef LTTNG_UST_TRACEPOINT_PROVIDER
#define LTTNG_UST_TRACEPOINT_PROVIDER tracerd_kills
#undef LTTNG_UST_TRACEPOINT_INCLUDE
#define LTTNG_UST_TRACEPOINT_INCLUDE "./lttng_kills.h"
#if !defined(LTTNG_KILLS_H) || defined(LTTNG_UST_TRACEPOINT_HEADER_MULTI_READ)
#define LTTNG_KILLS_H
#include <lttng/tracepoint.h>
#include <stdint.h>

LTTNG_UST_TRACEPOINT_EVENT(tracerd_kills, record,
    LTTNG_UST_TP_ARGS(uint32_t, thread, uint64_t, number),
    LTTNG_UST_TP_FIELDS(
        lttng_ust_field_integer(uint32_t, thread, thread)
        lttng_ust_field_integer(uint64_t, number, number)
        lttng_ust_field_integer(uint64_t, check, number * 3)
        lttng_ust_field_integer(uint64_t, rest, 0)))
#endif
#include <lttng/tracepoint-event.h>
