/* What the static library libtr_cell.a exports: proved calls on one stream, on pages in reserve, on one session's book, on declared
 * events, on what a look shows and on an audit. No call locks, waits, starts a thread, prints, or touches a global.
 *
 * `rt lib --jobs 1` in crates/tr_cell makes crates/tr_cell/out/libtr_cell.a; link it with the toolchain's c/liblibc_c.a, which
 * has malloc, realloc and free alone.
 *
 * What the caller owes, since nothing checks it:
 * - One call at a time is given a handle; calls of several threads on it are ordered by a lock.
 * - A handle is never copied, and written only once, as all zeros: then it is closed. Only `_new`, `_make`, `_share`,
 *   `trc_book_thread`, `trc_book_look`, `trc_book_clear` and `trc_book_release` open one, and `_free` closes it again; closed ones
 *   may be freed.
 * - Each pointer to a result may be written, each slice may be read (a room: written) for its length, and points somewhere even
 *   at length 0. A `bool` is 0 or 1. Results, rooms, slices and handles of one call don't overlap.
 * - malloc, realloc and free are of one allocator, which aligns to 16 bytes. No call is made in a signal handler. In a forked
 *   child of a process with threads the parent's handles are zeros.
 *
 * Each call answers TRC_DONE or why it was refused. After a refusal its results are as they were, and so are the handles,
 * unless the call says otherwise. Moments are nanoseconds since 1970. */
#ifndef TRC_CELLS_H
#define TRC_CELLS_H
#include "tracerd.h" /* an offer's answer, a fate, sums of counts and what an audit finds are written as they are there */
#include <stdbool.h>

#ifdef __cplusplus
extern "C" {
#endif

/* Refusals of the border itself are judged first, in the order: handles (CLOSED, IN_USE), then the other arguments in the order
 * in which they are given. A refusal that tracerd.h names has its number there: NO_MEMORY (also in place of S16, T3, C2, X2, Y3
 * and A5), CLOSED (a handle that should be open), BAD_MOMENT, BAD_MODE (neither 0 nor 1), BAD_NAME (not 1 to 64 letters, digits
 * and underscores, a letter first), BAD_OFFSET. The others are these. */
enum {
    TRC_DONE = TRACERD_OK,
    TRC_IN_USE = 3,      /* a handle that should be closed is open */
    TRC_BAD_UUID = 5,    /* not of 16 bytes */
    TRC_NO_ROOM = 9,     /* the room is too small for the text */
    TRC_NO_PART = 10,    /* the stream has no part of this number */
    TRC_BAD_NUMBER = 11, /* a number is no refusal's, or no answer's */
    TRC_TOO_MUCH = TRACERD_READ, /* an audit was fed 2^62 bytes, or began 2^62 pieces */
    TRC_MISPLACED = 120  /* S20: the stream isn't one of this book's trace */
};

/* Refusals of the session, a stream, a schedule and an audit are the numbers of the product's own codes: 100 + n for Sn,
 * 200 + n for On (offer), 300 + n for Tn (take), 400 + n for Cn (cut), 500 + n for Xn (clear), 600 + n for Yn (release),
 * 700 + n for Dn (schedule), 800 + n for An (audit), 900 + n for Gn (geometry), 1000 + n for Vn (a line of
 * declarations), 1200 + n for Zn (forget). These are those that tracerd.h doesn't name. */
enum {
    TRC_S_NO_STREAM = 108, TRC_S_CUT_MISSING = 114,
    TRC_T_NOTHING = 301, TRC_T_SNAPSHOT_MODE = 302,
    TRC_C_SNAPSHOT_MODE = 401,
    TRC_X_SNAPSHOT_MODE = 501,
    TRC_Y_NO_PART = 601, TRC_Y_RELEASED = 602,
    TRC_G_BAD_SIZE = 901, TRC_G_BAD_COUNT = 902,
    TRC_Z_NO_PART = 1201
};

enum { TRC_DISCARD = 0, TRC_OVERWRITE = 1 };          /* modes of a channel */
enum { TRC_LOCAL = 0, TRC_SNAPSHOT = 1 };             /* modes of a session */
enum { TRC_NEW = 0, TRC_ACTIVE = 1, TRC_INACTIVE = 2 }; /* states of a session */

/* ---- One stream ------------------------------------------------------------------------------------------------------- */

typedef struct { void *at; bool live; } trc_stream;

typedef struct { uint64_t seq, count, chunk; } trc_taken;       /* a packet, its records, its trace chunk */
typedef struct { uint64_t chunk, packets, records; } trc_cut;   /* the chunk that a cut closed, and what it added */
typedef struct { uint64_t packets, records; } trc_cleared;
typedef struct { uint64_t packets, records, bytes; } trc_released;
typedef struct {
    uint64_t offered, discarded, overwritten, overwritten_packets, in_ring, consumed, in_chunks, cleared, withdrawn, cuts,
        current_bytes;
} trc_counts; /* offered = discarded + overwritten + cleared + in_ring + in_chunks; consumed = in_chunks + withdrawn */
typedef struct { uint64_t packet, at; } trc_place; /* of bytes: so many packets, and then bytes, are before it. Zeros: the start */
typedef struct { uint64_t packets, records, bytes; bool released; } trc_part; /* what it has, or had before it was released */

/* A stream by itself, which takes no offers yet. IN_USE, BAD_UUID, G1, G2, BAD_MODE, NO_MEMORY. */
uint32_t trc_stream_new(trc_stream *, const uint8_t *uuid, size_t uuid_len, uint64_t number, uint64_t size, uint64_t count,
                        uint32_t mode, uint32_t session_mode);
/* Lets the stream take offers, or makes it refuse them. CLOSED. */
uint32_t trc_stream_switch(trc_stream *, bool active);
/* Offers a record. It takes no memory. CLOSED, BAD_MOMENT, O1 to O3. */
uint32_t trc_stream_offer(trc_stream *, uint64_t moment, uint32_t id, const uint8_t *payload, size_t len,
                          tracerd_offered *);
/* Moves the oldest closed sub-buffer into the current trace chunk. CLOSED, T1, T2, NO_MEMORY. */
uint32_t trc_stream_take(trc_stream *, trc_taken *);
/* Moves all that the ring holds into the current trace chunk, and closes that. CLOSED, BAD_MOMENT, C1, NO_MEMORY. In a session
 * use trc_rotate_cut. */
uint32_t trc_stream_cut(trc_stream *, uint64_t moment, trc_cut *);
/* Removes what the ring and the current chunk hold. CLOSED, X1, NO_MEMORY. In a session use trc_book_clear. */
uint32_t trc_stream_clear(trc_stream *, trc_cleared *);
/* Gives up the packets of a closed part. CLOSED, Y1, Y2, NO_MEMORY. In a session use trc_book_release. */
uint32_t trc_stream_release(trc_stream *, uint64_t chunk, trc_released *);
/* Forgets the closed parts below this chunk, all of which were released: fates of what was offered before it began are
 * forgotten, and counts stay. CLOSED, Z1, Z2, NO_MEMORY. */
uint32_t trc_stream_forget(trc_stream *, uint64_t chunk);
/* How many records were offered, and where they are. CLOSED. */
uint32_t trc_stream_counts(trc_stream *, trc_counts *);
/* Adds the stream's counts to sums; what is more than the greatest uint64_t is that. CLOSED. */
uint32_t trc_stream_add_counts(trc_stream *, tracerd_counts *sums);
/* What became of the offer with this serial. CLOSED. */
uint32_t trc_stream_fate(trc_stream *, uint64_t serial, tracerd_fate *);
/* How much the stream added to a trace chunk. CLOSED, NO_PART. */
uint32_t trc_stream_part(trc_stream *, uint64_t chunk, trc_part *);
/* Copies bytes of the packets that the stream added to a trace chunk, from a place on, as many as there are and as fit: 0 at the
 * end, and for a released part. The place is then past them. The rest of the room is as it was. The call takes as long as the
 * bytes that it copies. CLOSED, NO_PART. */
uint32_t trc_stream_text(trc_stream *, uint64_t chunk, trc_place *, uint8_t *room, size_t room_len, uint64_t *copied);
/* Lets the stream go. */
void trc_stream_free(trc_stream *);

/* ---- Pages in reserve -------------------------------------------------------------------------------------------------- */

/* A take and a cut put an empty page into the ring in the place of each that they move, unless that is less than a quarter used.
 * They make those that the stream hasn't in reserve. So that it needn't wait for memory while its lock is held, a caller asks
 * what it lacks, makes it while the lock isn't held, and has it kept. */
typedef struct { void *at; bool live; } trc_spares;

/* How many pages a take would have to make itself now, 0 or 1, and of how many bytes. CLOSED. */
uint32_t trc_stream_lacking_for_take(trc_stream *, uint64_t *size, uint64_t *count);
/* How many pages a cut would have to make itself now, at most. CLOSED. */
uint32_t trc_stream_lacking_for_cut(trc_stream *, uint64_t *size, uint64_t *count);
/* Makes pages, and writes to all their memory: as many as there is memory for. IN_USE; NO_MEMORY: none are made. */
uint32_t trc_spares_make(trc_spares *, uint64_t size, uint64_t count);
/* Gives pages to the stream, and closes their handle. Those of another size are dropped, and all without memory for their list.
 * The stream shows what it showed. CLOSED (stream, then pages). */
uint32_t trc_stream_keep_spares(trc_stream *, trc_spares *);
void trc_spares_free(trc_spares *);

/* A look copies what the ring holds. So that it needn't copy all of it while the stream's lock is held, a caller begins copies
 * ahead, copies a piece at a time, and looks when little is left. Until then the stream keeps them; the look hands them out. */

/* How many pages `begin_copies` has a use for, and of how many bytes. CLOSED. */
uint32_t trc_stream_lacking_copies(trc_stream *, uint64_t *size, uint64_t *count);
/* Begins copies in these pages, as far as they go and if they have the ring's size; those that are left stay in their handle.
 * The stream shows what it showed. CLOSED (stream, then pages). */
uint32_t trc_stream_begin_copies(trc_stream *, trc_spares *);
/* Copies the next bytes, at most so many; `copied`: how many it was. The stream shows what it showed. CLOSED. */
uint32_t trc_stream_copy_more(trc_stream *, uint64_t most, uint64_t *copied);
/* Reads the first bytes of the sub-buffers from number `from` to before number `to`, and of their copies, so that a cut, a clear
 * or a look soon after doesn't wait for memory at each of them. `sum` is one of some of these bytes. CLOSED. */
uint32_t trc_stream_warm(trc_stream *, uint64_t from, uint64_t to, uint32_t *sum);

/* ---- A session's book: what it keeps beside its streams ---------------------------------------------------------------- */

typedef struct { void *at; bool live; } trc_book;
typedef struct { void *at; bool live; } trc_snap;
typedef struct { void *at; bool live; } trc_removed;

typedef struct { uint64_t id, begin, end; } trc_archive;
typedef struct {
    uint32_t mode, state;       /* TRC_LOCAL or TRC_SNAPSHOT; TRC_NEW, TRC_ACTIVE or TRC_INACTIVE */
    uint64_t channels, streams, archives;
    uint64_t begin, last;       /* when the current chunk began, and the last stored moment; 0 before the first start */
    bool pending;               /* whether a rotation is pending; its archive's number is `archives` */
} trc_about;
enum { TRC_IDLE = 0, TRC_TIMER = 1, TRC_SIZE = 2 };

/* IN_USE, BAD_UUID, BAD_OFFSET (minutes that the clock of archives' names is ahead of UTC), BAD_MODE, NO_MEMORY. */
uint32_t trc_book_new(trc_book *, const uint8_t *uuid, size_t uuid_len, int32_t east, uint32_t session_mode);
/* Adds a channel: rings of `count` sub-buffers of `size` bytes. CLOSED, BAD_NAME, BAD_MODE, S9 to S12, S15, NO_MEMORY. */
uint32_t trc_book_channel(trc_book *, const uint8_t *name, size_t len, uint64_t size, uint64_t count, uint32_t mode);
/* Adds a thread to a channel, and opens its stream; both or neither. `number` is the stream's. CLOSED (book), IN_USE (stream),
 * BAD_NAME, S10, S12, S17, NO_MEMORY. */
uint32_t trc_book_thread(trc_book *, trc_stream *, const uint8_t *channel, size_t len, uint64_t *number);
/* Starts the session; then each stream is to be switched on. CLOSED, BAD_MOMENT, S4, S6. */
uint32_t trc_book_start(trc_book *, uint64_t moment);
/* Stops the session; then each stream is to be switched off. CLOSED, S4, S7. */
uint32_t trc_book_stop(trc_book *);
/* Switches a stream as its session allows: on while that is active, off while it is stopped. CLOSED, MISPLACED, S8, S7 (on),
 * S6 (off). */
uint32_t trc_book_switch(trc_book *, trc_stream *, bool active);

/* Begins a rotation, and answers with the number of the chunk that it archives. CLOSED, BAD_MOMENT, S1, S3 to S5, NO_MEMORY. */
uint32_t trc_rotate_begin(trc_book *, uint64_t moment, uint64_t *id);
/* Which stream the pending rotation cuts next: `number`, if `left` is true; else all are cut and `number` is 0. CLOSED, S13. */
uint32_t trc_rotate_next(trc_book *, bool *left, uint64_t *number);
/* Cuts that stream at the rotation's end, and notes it. CLOSED (book, then stream), MISPLACED, S8, S13 (also of a stream that
 * the rotation has cut), S14 (another stream is next), NO_MEMORY: the stream is uncut, the rotation pending. */
uint32_t trc_rotate_cut(trc_book *, trc_stream *, trc_cut *);
/* Ends a rotation that has cut every stream. It takes no memory. CLOSED, S13, S14. */
uint32_t trc_rotate_finish(trc_book *, trc_archive *);

/* Whether streams can be cleared now. CLOSED, S1, S3, S4. */
uint32_t trc_book_can_clear(trc_book *);
/* Whether there is an archive of this number, whose parts can be released. CLOSED, S18. */
uint32_t trc_book_can_release(trc_book *, uint64_t archive);
/* Clears a stream as its session allows. The packets come out, so that nobody need wait while their memory is freed: what the
 * handle had is freed, and it opens if there is memory for it, else they are freed at once. CLOSED, MISPLACED, S8, S1, S3, S4,
 * NO_MEMORY. */
uint32_t trc_book_clear(trc_book *, trc_stream *, trc_removed *, trc_cleared *);
/* Gives up a stream's part of an archive. The packets come out as of a clear. CLOSED, MISPLACED, S8, S18, S19, NO_MEMORY. */
uint32_t trc_book_release(trc_book *, trc_stream *, uint64_t archive, trc_removed *, trc_released *);
void trc_removed_free(trc_removed *);

/* Sets when rotations are due: each `every` nanoseconds if `timer`, at `size` bytes if `by_size`, or never if neither. CLOSED,
 * S1, D1, D2. */
uint32_t trc_book_schedule(trc_book *, bool timer, uint64_t every, bool by_size, uint64_t size);
/* Why a rotation is due now: TRC_IDLE (it isn't), TRC_TIMER or TRC_SIZE. `sizes` has each stream's `current_bytes`. CLOSED,
 * BAD_MOMENT. */
uint32_t trc_book_due(trc_book *, uint64_t moment, const uint64_t *sizes, size_t len, uint32_t *cause);

/* Begins a snapshot: `stored` is the moment, or the last one if that is later. CLOSED, BAD_MOMENT, S2, S3. */
uint32_t trc_book_snapshot(trc_book *, uint64_t moment, uint64_t *stored);
/* Opens what a stream shows at a moment; the stream stays as it is. CLOSED (book, then stream), IN_USE (snap), BAD_MOMENT,
 * MISPLACED, S8, S2, S3, NO_MEMORY. */
uint32_t trc_book_look(trc_book *, trc_stream *, uint64_t moment, trc_snap *);

typedef struct {
    uint64_t stream, offered, lost; /* its number, how many offers it had accepted, how many of these it had discarded */
    uint64_t records, bytes;        /* how many records are shown, and the bytes of their packets */
    bool any; uint64_t oldest;      /* whether one is shown, and the first one's serial, or 0 */
} trc_shown;
/* CLOSED. */
uint32_t trc_snap_about(trc_snap *, trc_shown *);
/* Copies bytes of the shown packets, as trc_stream_text. CLOSED. */
uint32_t trc_snap_text(trc_snap *, trc_place *, uint8_t *room, size_t room_len, uint64_t *copied);
void trc_snap_free(trc_snap *);

/* What the book says of the session. CLOSED. */
uint32_t trc_book_about(trc_book *, trc_about *);
/* An archive. CLOSED, S18. */
uint32_t trc_book_archive(trc_book *, uint64_t id, trc_archive *);
/* The name of an archive's folder, without a zero at its end: 62 bytes at most. CLOSED, S18, NO_MEMORY, NO_ROOM. */
uint32_t trc_book_archive_name(trc_book *, uint64_t id, uint8_t *room, size_t room_len, uint64_t *copied);
/* The name that an archive 0 of the current chunk would have if it ended at `stored`: for a snapshot's folder. CLOSED,
 * BAD_MOMENT, NO_MEMORY, NO_ROOM. */
uint32_t trc_book_snapshot_name(trc_book *, uint64_t stored, uint8_t *room, size_t room_len, uint64_t *copied);
/* The name of a stream's file in it: 85 bytes at most. CLOSED, S8, NO_MEMORY, NO_ROOM. */
uint32_t trc_book_file_name(trc_book *, uint64_t stream, uint8_t *room, size_t room_len, uint64_t *copied);
/* The text of the file `metadata`, with the events that the book declares: without any 4,096 bytes at most. CLOSED, NO_MEMORY,
 * NO_ROOM. */
uint32_t trc_book_metadata(trc_book *, uint8_t *room, size_t room_len, uint64_t *copied);
void trc_book_free(trc_book *);

/* ---- Declared events --------------------------------------------------------------------------------------------------- */

typedef struct { void *at; bool live; } trc_events;

/* Opens what the lines of a text declare. IN_USE; NO_MEMORY; V1 to V11: `line` is the number of the first line that is
 * refused, from 1 on. */
uint32_t trc_events_new(trc_events *, const uint8_t *text, size_t len, uint64_t *line);
/* Opens another handle of the same events, which calls on both may use at once. CLOSED, IN_USE (the other), NO_MEMORY. */
uint32_t trc_events_share(trc_events *, trc_events *other);
/* Has the session declare these events, of which it has a copy, in place of those that it declared. CLOSED (book, then events),
 * S10, NO_MEMORY. */
uint32_t trc_book_declare(trc_book *, trc_events *);
/* DONE if a record of this id and payload is laid out as its event is declared, and of an id that isn't declared. It takes no
 * memory. CLOSED, O6. */
uint32_t trc_events_fit(trc_events *, uint32_t id, const uint8_t *payload, size_t len);
void trc_events_free(trc_events *);

/* DONE if this text is a name, of a session or a channel. BAD_NAME. */
uint32_t trc_name(const uint8_t *name, size_t len);

/* ---- A shell's lines, and their answers --------------------------------------------------------------------------------- */

/* What a line asks for: nothing (it gets no answer), it is a bad line, it is a command of a script that no live session answers,
 * or one of the commands that one answers. */
enum {
    TRC_ASKS_NOTHING = 0, TRC_ASKS_BADLY = 1, TRC_ASKS_OTHER = 2, TRC_ASKS_STATUS = 3, TRC_ASKS_ARCHIVES = 4, TRC_ASKS_FATE = 5,
    TRC_ASKS_START = 6, TRC_ASKS_STOP = 7, TRC_ASKS_ROTATE = 8, TRC_ASKS_SNAPSHOT = 9, TRC_ASKS_CLEAR = 10,
    TRC_ASKS_RELEASE = 11, TRC_ASKS_SCHEDULE = 12
};
typedef struct {
    uint32_t kind;       /* TRC_ASKS_.. */
    bool is_named;       /* whether its session has the name that is meant; false of the first three kinds */
    bool is_timed;       /* of `schedule`: whether `every` is given, */
    bool is_by_size;     /* and whether `size` is */
    uint64_t moment, stream, serial, archive, every, size; /* 0 if the command has none */
} trc_asked;

/* Reads a line, without its newline, as a script's is read. `name` is the session's that is meant. NO_MEMORY. */
uint32_t trc_line_parse(const uint8_t *line, size_t len, const uint8_t *name, size_t name_len, trc_asked *);

/* Answers that have no number of their own. */
enum {
    TRC_SAYS_BAD_LINE = 0, TRC_SAYS_SCRIPT_ONLY = 1, TRC_SAYS_STARTED = 2, TRC_SAYS_STOPPED = 3, TRC_SAYS_SCHEDULE_SET = 4,
    TRC_SAYS_SCHEDULE_OFF = 5, TRC_SAYS_NO_ARCHIVES = 6
};

/* What follows copies answers, with the newline at their end unless that is said. Each has at most TRC_REPLY bytes. */
enum { TRC_REPLY = 16384 };

/* One of these. BAD_NUMBER, NO_ROOM. */
uint32_t trc_reply_said(uint32_t number, uint8_t *room, size_t room_len, uint64_t *copied);
/* That a line is refused with this number, of a session or a schedule, or with TRC_K_NO_SESSION. BAD_NUMBER, NO_MEMORY,
 * NO_ROOM. */
enum { TRC_K_NO_SESSION = 1101 };
uint32_t trc_reply_refused(uint32_t number, uint8_t *room, size_t room_len, uint64_t *copied);
/* That this archive was made. CLOSED, S18, NO_MEMORY, NO_ROOM. */
uint32_t trc_reply_archived(trc_book *, uint64_t id, uint8_t *room, size_t room_len, uint64_t *copied);
/* How many records were cleared; which archive was released. NO_MEMORY, NO_ROOM. */
uint32_t trc_reply_cleared(uint64_t records, uint8_t *room, size_t room_len, uint64_t *copied);
uint32_t trc_reply_released(uint64_t archive, uint8_t *room, size_t room_len, uint64_t *copied);
/* What became of an offer, as trc_stream_fate says it. BAD_NUMBER: no fate has these; NO_MEMORY, NO_ROOM. */
uint32_t trc_reply_fate(const tracerd_fate *, uint8_t *room, size_t room_len, uint64_t *copied);
/* The line of an archive, which has so many packets and bytes over so many streams, and of so many of these a released part.
 * CLOSED, S18, NO_MEMORY, NO_ROOM. */
uint32_t trc_reply_archive(trc_book *, uint64_t id, uint64_t packets, uint64_t bytes, uint64_t streams, uint64_t released,
                           uint8_t *room, size_t room_len, uint64_t *copied);
/* The first two lines of a status, without a newline at the end, by the session's name and how many of its records were cleared.
 * CLOSED, BAD_NAME, NO_MEMORY, NO_ROOM. */
uint32_t trc_reply_status(trc_book *, const uint8_t *name, size_t name_len, uint64_t cleared, uint8_t *room, size_t room_len,
                          uint64_t *copied);
/* A newline, and the line of a status of the stream of this number, which counts this. NO_MEMORY, NO_ROOM. */
uint32_t trc_reply_row(uint64_t number, const trc_counts *, uint8_t *room, size_t room_len, uint64_t *copied);
/* The first line of a snapshot, without a newline at the end. NO_MEMORY, NO_ROOM. */
uint32_t trc_reply_snapshot(uint64_t moment, uint8_t *room, size_t room_len, uint64_t *copied);
/* A newline, and the lines of what a stream shows. CLOSED, NO_MEMORY, NO_ROOM. */
uint32_t trc_reply_shown(trc_snap *, uint8_t *room, size_t room_len, uint64_t *copied);

/* ---- The audit of one stream's files ----------------------------------------------------------------------------------- */

typedef struct { void *at; bool live; } trc_audit;

/* The number of an archive, by the name of its folder. BAD_NAME. */
uint32_t trc_archive_number(const uint8_t *name, size_t len, uint64_t *number);

/* Begins the audit of a stream's files. IN_USE, BAD_UUID, NO_MEMORY. */
uint32_t trc_audit_new(trc_audit *, const uint8_t *uuid, size_t uuid_len, uint64_t stream);
/* Audits the next bytes of this file, in any pieces. A1 to A4, NO_MEMORY: the last three fields say where, `archive` as the
 * file of the packet, from 0 on, and the others are 0; each later call says the same. CLOSED, TOO_MUCH. */
uint32_t trc_audit_feed(trc_audit *, const uint8_t *bytes, size_t len, tracerd_audited *);
/* Ends this file, and begins the next one. CLOSED, TOO_MUCH; A1 to A4, NO_MEMORY: as of trc_audit_feed. */
uint32_t trc_audit_next(trc_audit *, tracerd_audited *);
/* Ends the last file, says what all have, and closes the handle, also after a refusal. CLOSED; A1 to A4, NO_MEMORY: as of
 * trc_audit_feed. */
uint32_t trc_audit_end(trc_audit *, tracerd_audited *);
void trc_audit_free(trc_audit *);

#ifdef __cplusplus
}
#endif
#endif
