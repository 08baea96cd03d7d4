/* Included before the C layer where ThreadSanitizer watches it: each call on a cell first writes to its handle, so that two
 * calls on one that no lock orders are seen, though the cells themselves aren't watched. */
#define _GNU_SOURCE
#include "../cells.h"
#include <pthread.h>

static inline int forget(pthread_mutex_t *lock) { return lock == NULL; }

/* At the beginning of a function that is to forget the locks that it takes: for clib/must-fail. */
#define FORGETS_LOCKS                                                                                                            \
    int (*const pthread_mutex_lock)(pthread_mutex_t *) = forget, (*const pthread_mutex_unlock)(pthread_mutex_t *) = forget;

static inline void touch(void *handle) {
    volatile bool *live = &((trc_stream *)handle)->live;
    *live = *live;
}

#define FIRST_OF(first, ...) first
#define SECOND_OF(first, second, ...) second
#define ONE(name, ...) (touch(FIRST_OF(__VA_ARGS__, NULL)), name(__VA_ARGS__))
#define TWO(name, ...) (touch(FIRST_OF(__VA_ARGS__, NULL)), touch(SECOND_OF(__VA_ARGS__, NULL)), name(__VA_ARGS__))

#define trc_stream_offer(...) ONE(trc_stream_offer, __VA_ARGS__)
#define trc_stream_take(...) ONE(trc_stream_take, __VA_ARGS__)
#define trc_stream_counts(...) ONE(trc_stream_counts, __VA_ARGS__)
#define trc_stream_add_counts(...) ONE(trc_stream_add_counts, __VA_ARGS__)
#define trc_stream_fate(...) ONE(trc_stream_fate, __VA_ARGS__)
#define trc_stream_forget(...) ONE(trc_stream_forget, __VA_ARGS__)
#define trc_stream_part(...) ONE(trc_stream_part, __VA_ARGS__)
#define trc_stream_text(...) ONE(trc_stream_text, __VA_ARGS__)
#define trc_stream_lacking_for_take(...) ONE(trc_stream_lacking_for_take, __VA_ARGS__)
#define trc_stream_lacking_for_cut(...) ONE(trc_stream_lacking_for_cut, __VA_ARGS__)
#define trc_stream_lacking_copies(...) ONE(trc_stream_lacking_copies, __VA_ARGS__)
#define trc_stream_begin_copies(...) TWO(trc_stream_begin_copies, __VA_ARGS__)
#define trc_stream_copy_more(...) ONE(trc_stream_copy_more, __VA_ARGS__)
#define trc_stream_warm(...) ONE(trc_stream_warm, __VA_ARGS__)
#define trc_spares_make(...) ONE(trc_spares_make, __VA_ARGS__)
#define trc_stream_keep_spares(...) TWO(trc_stream_keep_spares, __VA_ARGS__)
#define trc_spares_free(...) ONE(trc_spares_free, __VA_ARGS__)
#define trc_stream_free(...) ONE(trc_stream_free, __VA_ARGS__)
#define trc_book_new(...) ONE(trc_book_new, __VA_ARGS__)
#define trc_book_channel(...) ONE(trc_book_channel, __VA_ARGS__)
#define trc_book_thread(...) TWO(trc_book_thread, __VA_ARGS__)
#define trc_book_start(...) ONE(trc_book_start, __VA_ARGS__)
#define trc_book_stop(...) ONE(trc_book_stop, __VA_ARGS__)
#define trc_book_switch(...) TWO(trc_book_switch, __VA_ARGS__)
#define trc_rotate_begin(...) ONE(trc_rotate_begin, __VA_ARGS__)
#define trc_rotate_next(...) ONE(trc_rotate_next, __VA_ARGS__)
#define trc_rotate_cut(...) TWO(trc_rotate_cut, __VA_ARGS__)
#define trc_rotate_finish(...) ONE(trc_rotate_finish, __VA_ARGS__)
#define trc_book_can_clear(...) ONE(trc_book_can_clear, __VA_ARGS__)
#define trc_book_can_release(...) ONE(trc_book_can_release, __VA_ARGS__)
#define trc_book_clear(...) TWO(trc_book_clear, __VA_ARGS__)
#define trc_book_release(...) TWO(trc_book_release, __VA_ARGS__)
#define trc_removed_free(...) ONE(trc_removed_free, __VA_ARGS__)
#define trc_book_schedule(...) ONE(trc_book_schedule, __VA_ARGS__)
#define trc_book_due(...) ONE(trc_book_due, __VA_ARGS__)
#define trc_book_snapshot(...) ONE(trc_book_snapshot, __VA_ARGS__)
#define trc_book_look(...) TWO(trc_book_look, __VA_ARGS__)
#define trc_snap_text(...) ONE(trc_snap_text, __VA_ARGS__)
#define trc_snap_free(...) ONE(trc_snap_free, __VA_ARGS__)
#define trc_book_about(...) ONE(trc_book_about, __VA_ARGS__)
#define trc_book_archive(...) ONE(trc_book_archive, __VA_ARGS__)
#define trc_book_archive_name(...) ONE(trc_book_archive_name, __VA_ARGS__)
#define trc_book_snapshot_name(...) ONE(trc_book_snapshot_name, __VA_ARGS__)
#define trc_book_file_name(...) ONE(trc_book_file_name, __VA_ARGS__)
#define trc_book_metadata(...) ONE(trc_book_metadata, __VA_ARGS__)
#define trc_book_free(...) ONE(trc_book_free, __VA_ARGS__)
#define trc_reply_archived(...) ONE(trc_reply_archived, __VA_ARGS__)
#define trc_reply_archive(...) ONE(trc_reply_archive, __VA_ARGS__)
#define trc_reply_status(...) ONE(trc_reply_status, __VA_ARGS__)
#define trc_reply_shown(...) ONE(trc_reply_shown, __VA_ARGS__)
#define trc_audit_new(...) ONE(trc_audit_new, __VA_ARGS__)
#define trc_audit_feed(...) ONE(trc_audit_feed, __VA_ARGS__)
#define trc_audit_next(...) ONE(trc_audit_next, __VA_ARGS__)
#define trc_audit_end(...) ONE(trc_audit_end, __VA_ARGS__)
#define trc_audit_free(...) ONE(trc_audit_free, __VA_ARGS__)
