/* A tracepoint with an identifier and bytes, as an offer has them. */
#undef LTTNG_UST_TRACEPOINT_PROVIDER
#define LTTNG_UST_TRACEPOINT_PROVIDER tracerd_bench
#undef LTTNG_UST_TRACEPOINT_INCLUDE
#define LTTNG_UST_TRACEPOINT_INCLUDE "./lttng_offers.h"
#if !defined(LTTNG_OFFERS_H) || defined(LTTNG_UST_TRACEPOINT_HEADER_MULTI_READ)
#define LTTNG_OFFERS_H
#include <lttng/tracepoint.h>
#include <stddef.h>
#include <stdint.h>

LTTNG_UST_TRACEPOINT_EVENT(tracerd_bench, record,
    LTTNG_UST_TP_ARGS(uint32_t, id, const uint8_t *, bytes, size_t, size),
    LTTNG_UST_TP_FIELDS(
        lttng_ust_field_integer(uint32_t, id, id)
        lttng_ust_field_sequence(uint8_t, payload, bytes, uint32_t, size)))
#endif
#include <lttng/tracepoint-event.h>
