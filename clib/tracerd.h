/* tracerd: a recorder for programs in C and C++, and by clib/rust and clib/python in these.
 *
 * A session has channels; each recording thread has a producer of a channel, with a ring of sub-buffers of its own. A rotation
 * closes what was recorded into an archive, which any reader of CTF 1.8 traces opens once it is written.
 *
 * Units. Moments are nanoseconds since 1970-01-01T00:00Z, at most 9,000,000,000,000,000,000; tracerd_now_of() is the session's
 * clock. A moment earlier than the stream's last one counts as that one, also where that was the moment of a rotation: one far
 * ahead of the clock holds back all that come after it until the clock is there. Sizes are bytes. Names are 1 to 64 letters,
 * digits and underscores, a letter first, and end in NUL.
 *
 * Results. What is `reserved` in one is written as zeros, and is for later versions: so a result's size never changes. What an
 * offer answers never grows.
 *
 * Answers. A call answers TRACERD_OK, or why it was refused. After a refusal nothing has changed and no result is written,
 * unless the call says otherwise. BAD_MOMENT goes for each moment. No pointer may be NULL but where that is said.
 *
 * Threads. Any thread may make any call at any time, except that a producer offers in one thread at a time, unless a pool has
 * several threads share it, whose offers wait for each other; and that tracerd_free comes last, when no other call runs; the
 * session's producers are gone then. A release waits while its archive
 * is written, and so does a write or a snapshot while another one of the session writes to the same place. No other call waits
 * for these, or for an audit. No call may be made in a signal handler, and no thread may be cancelled in one. A call takes up to
 * 32 KiB of the stack. Sessions share nothing but the number of files for tracerd_rings_in. The library prints nothing and ends no
 * process. It starts a thread only where tracerd_drainer_start or tracerd_listen asks for one, or tracerd_keeper_start for two.
 *
 * Waits. An offer waits only while another call holds its own stream, at a time for:
 * - a drain, also the drainer's, and one before a stop and a rotation by tracerd_record_refused: one step, whatever the
 *   sub-buffer's size; but a copy of it if less than a quarter of it is used;
 * - a rotation, also a tick's: one step for each sub-buffer with records; and such a copy of the one that is being filled;
 * - a write: a copy of 16 KiB;
 * - a snapshot: a copy of 16 KiB, again and again; then one step for each sub-buffer, and a copy of what was offered since. Only
 *   where offers fill the ring faster than it is copied that may be as much as the ring holds;
 * - a clear or a release: one step for each packet that is removed, and for each record of those with a loss before their end;
 * - a forget: one step for each archive that is forgotten, and each one that is there;
 * - a fate: a search of packets, and one step for each record of at most one of them;
 * - any other call, also an offer of another thread that shares the producer: one step.
 * While it waits, the thread that holds the stream has its priority, if that is higher.
 * A drain and a rotation make the sub-buffers that they need before they hold the stream, and a clear and a release free what
 * they removed after. What they ask for while they hold it are such copies, and lists that double as packets come.
 *
 * Forks. In a child all that its parent made is closed, whatever the parent's threads did meanwhile: tracepoints are off, calls
 * answer CLOSED and don't wait (tracerd_drainer_stop: NOT_DRAINING), and tracerd_free gives back little: the rings' memory goes
 * with the child. It may make sessions of its own. It's so from Linux 4.14 on; before, a child may make no call. */
#ifndef TRACERD_H
#define TRACERD_H
#include <stddef.h>
#include <stdint.h>

/* The version of this header: of 1.2.3 the number is 10203. A program that was built with one version runs with a later one if
 * the first number is the same, and while that is 0 the second one too: so is the shared object's name, as libtracerd.so.0.9. */
#define TRACERD_VERSION "0.9.0"
#define TRACERD_VERSION_NUMBER 900

/* What gcc and clang learn of a call: it is the library's; an answer that nobody looks at hides a loss, or a result that
 * wasn't written; this pointer, or each one, isn't NULL. */
#if defined(__GNUC__)
#define TRACERD_API __attribute__((visibility("default")))
#define TRACERD_CHECKED __attribute__((warn_unused_result))
#define TRACERD_POINTER(place) __attribute__((nonnull(place)))
#define TRACERD_POINTERS __attribute__((nonnull))
#else
#define TRACERD_API
#define TRACERD_CHECKED
#define TRACERD_POINTER(place)
#define TRACERD_POINTERS
#endif

#ifdef __cplusplus
extern "C" {
#endif

typedef struct tracerd_session tracerd_session; /* a session */

/* One thread's right to offer to one stream. `active` is 1 while offers are taken, for TRACERD_TRACE: nobody writes it. */
typedef struct tracerd_producer { uint32_t active; } tracerd_producer;

/* What a call answers. From 101 on these are the numbers of the product's own codes: 101 is S1, 201 O1, 701 D1, 801 A1,
 * 1001 V1, 1201 Z1. */
typedef enum tracerd_status {
    TRACERD_OK = 0,
    TRACERD_NO_MEMORY = 1,           /* an allocation failed, or a thread could not be made */
    TRACERD_CLOSED = 2,              /* the producer was given back; in a child of fork: the parent made it */
    TRACERD_BAD_MOMENT = 4,          /* a moment above 9,000,000,000,000,000,000 */
    TRACERD_BAD_MODE = 6,            /* a mode that is none */
    TRACERD_BAD_NAME = 7,            /* a name that is none */
    TRACERD_BAD_OFFSET = 8,          /* minutes not from -1,439 to 1,439 */
    TRACERD_WRITE = 20,              /* a folder or a file could not be made or written; errno says why */
    TRACERD_READ = 21,               /* a folder or a file could not be read; errno says why */
    TRACERD_MISSING = 22,            /* a producer was not given back */
    TRACERD_DRAINING = 23,           /* the library's drainer runs, or a keeper */
    TRACERD_NOT_DRAINING = 24,       /* it does not run */
    TRACERD_EXISTS = 25,             /* something else has the archive's name, or the socket's */
    TRACERD_LISTENING = 26,          /* the session has a listener */
    TRACERD_FORGOTTEN = 27,          /* the archive is forgotten */
    TRACERD_SNAPSHOT_MODE = 101,     /* not in a snapshot session */
    TRACERD_NOT_SNAPSHOT_MODE = 102, /* only in a snapshot session */
    TRACERD_NEVER_STARTED = 103,     /* the session was never started */
    TRACERD_ROTATION_PENDING = 104,  /* tracerd_rotate_on first */
    TRACERD_ALREADY_ROTATED = 105,   /* rotated since it was stopped */
    TRACERD_ALREADY_ACTIVE = 106,
    TRACERD_NOT_ACTIVE = 107,
    TRACERD_DISCARD_IN_SNAPSHOT = 109, /* in a snapshot session every ring overwrites */
    TRACERD_ALREADY_STARTED = 110,   /* nothing is added once the session was started */
    TRACERD_BAD_GEOMETRY = 111,      /* no ring has such sub-buffers */
    TRACERD_TOO_MANY = 112,          /* 8 channels or 1,024 producers are there */
    TRACERD_NOT_PENDING = 113,       /* no rotation is pending */
    TRACERD_NAME_TAKEN = 115,        /* a channel has this name */
    TRACERD_NO_CHANNEL = 117,        /* no channel has this name */
    TRACERD_NO_ARCHIVE = 118,        /* no archive has this number */
    TRACERD_RELEASED = 119,          /* the archive was released, or has no stream to release */
    TRACERD_INACTIVE = 201,          /* the session takes no offers now */
    TRACERD_TOO_BIG = 202,           /* the payload is longer than a sub-buffer's bytes less 104 */
    TRACERD_SPENT = 203,             /* the stream has accepted 2^62 offers */
    TRACERD_OTHER_LAYOUT = 206,      /* the payload isn't laid out as the event of this id is declared */
    TRACERD_ZERO_PERIOD = 701,
    TRACERD_ZERO_SIZE = 702,
    TRACERD_PACKET = 801,            /* of an audit: no packet is there */
    TRACERD_NUMBER_REPEAT = 802,     /* a packet's number is not above the one before */
    TRACERD_SERIAL_REPEAT = 803,     /* a packet's first serial is not above the last one before */
    TRACERD_FOREIGN = 804,           /* a packet of another trace or another stream */
    TRACERD_BAD_EVENT = 1001,        /* of a declaration: no name, no id, or a byte that can't be printed */
    TRACERD_BAD_FIELD = 1002,        /* a field without a name */
    TRACERD_BAD_TYPE = 1003,         /* a type that is none */
    TRACERD_NOT_ALONE = 1004,        /* text or bytes beside other fields */
    TRACERD_FIELD_TWICE = 1005,      /* two fields have this name */
    TRACERD_EVENT_TAKEN = 1006,      /* an event has this name or this id */
    TRACERD_TOO_MANY_DECLARED = 1007, /* more than 1,024 events, 32 fields, 524,288 bytes, or what no sub-buffer holds */
    TRACERD_BAD_VARIABLE = 1008,     /* of a variable: no name, or a word of CTF's language */
    TRACERD_BAD_VALUE = 1009,        /* no value, one that the metadata can't have, or a vpid that is no number */
    TRACERD_VARIABLE_TAKEN = 1010,   /* a variable has this name */
    TRACERD_TOO_MANY_VARIABLES = 1011, /* more than 32 */
    TRACERD_HELD = 1202              /* an archive below this number isn't released */
} tracerd_status;

/* The version of the library that is called, as "0.9.0": that of a shared object may be later than the header's. */
TRACERD_API const char *tracerd_version(void);

/* The name of a status, as "TooBig"; of another number "Unknown". Never NULL. */
TRACERD_API const char *tracerd_status_name(tracerd_status);

/* The wall clock's moment (CLOCK_REALTIME), which may be set back or ahead. */
TRACERD_API uint64_t tracerd_now(void);

/* ---- A session is made ---- */

typedef enum tracerd_kind { TRACERD_LOCAL = 0, TRACERD_SNAPSHOT = 1 } tracerd_kind;
typedef enum tracerd_mode { TRACERD_DISCARD = 0, TRACERD_OVERWRITE = 1 } tracerd_mode;

/* A session of this name, with the trace's identifier; of NULL it makes one by chance. A local session is rotated into archives,
 * a snapshot one shows what its rings hold. `east` is how many minutes the clock of archives' names is ahead of UTC. BAD_NAME,
 * BAD_OFFSET, BAD_MODE, NO_MEMORY, READ (the system gives no chance; errno says why): *session is NULL. */
TRACERD_API TRACERD_CHECKED TRACERD_POINTER(1) TRACERD_POINTER(2)
tracerd_status tracerd_new(tracerd_session **session, const char *name, const uint8_t uuid[16], int32_t east, tracerd_kind);
/* The moment by the session's clock, for offers and calls on it: the wall clock's when the session was made, and since then as
 * much later as CLOCK_MONOTONIC is. So it never goes back, whatever the wall clock is set to; it stops while the machine
 * sleeps. */
TRACERD_API TRACERD_POINTERS
uint64_t tracerd_now_of(const tracerd_session *);
/* Lets all go, also its producers and what was not written; a listener, and a drainer or a keeper, end first. NULL is ignored. */
TRACERD_API void tracerd_free(tracerd_session *);

/* Has the session's rings lie in a file, so that what they hold is there after the program was killed, by whatever signal. Best on
 * tmpfs, as "/dev/shm/app.rings": elsewhere the system may have an offer wait while it writes the file's memory to disk. Before the
 * first producer, once.
 *
 * Whenever no offer is under way each sub-buffer that has a record is, in the file, the text of a packet; while one is, it is that
 * of the records before it, or of all. `tracerd recover FILE DIR` makes an archive of them, with the metadata that is in the file.
 * A packet stays there until its archive is released, but for those that a drain or a rotation takes with less than a quarter of
 * their sub-buffer: these are in memory of their own, and so is what a snapshot copies. To lose nothing, keep archives on disk
 * (tracerd_keeper_start), or have a snapshot session. What the machine itself loses by a crash or a power cut isn't in the file.
 *
 * The file is for its owner alone (0600), and so large that its file system has its bytes when a producer is made or a stream is
 * drained: a full one is NO_MEMORY then, and no signal later. What an earlier run has left is renamed beside it, to FILE.1 or the
 * next number, also if the call is refused then. tracerd_free removes the file, wherever the program's present folder is by then.
 *
 * ALREADY_STARTED: a producer is there, or this was called before. WRITE: the file can't be made; errno says why (EEXIST: what has
 * the path is no file; EMFILE: 16 sessions have such files). NO_MEMORY: also if the system has no addresses for it. */
TRACERD_API TRACERD_CHECKED TRACERD_POINTERS
tracerd_status tracerd_rings_in(tracerd_session *, const char *file);

/* A channel: its producers have rings of `count` sub-buffers of `size` bytes, powers of two of 2 to 64 and of 256 to 1,048,576.
 * A full ring discards the newest record, or overwrites its oldest sub-buffer. BAD_NAME, BAD_MODE, ALREADY_STARTED, NAME_TAKEN,
 * TOO_MANY, BAD_GEOMETRY, DISCARD_IN_SNAPSHOT, NO_MEMORY. */
TRACERD_API TRACERD_CHECKED TRACERD_POINTERS
tracerd_status tracerd_channel(tracerd_session *, const char *name, uint64_t size, uint64_t count, tracerd_mode);

/* A producer of a channel. Its ring takes its memory here: size * count bytes. BAD_NAME, ALREADY_STARTED, NO_CHANNEL, TOO_MANY,
 * NO_MEMORY: no producer is added. */
TRACERD_API TRACERD_CHECKED TRACERD_POINTERS
tracerd_status tracerd_producer_new(tracerd_session *, const char *channel, tracerd_producer **);
/* The number of its stream: producers are numbered from 0 on. */
TRACERD_API TRACERD_POINTERS
uint64_t tracerd_producer_number(const tracerd_producer *);
/* Gives it back: nothing is offered by it any more, and its records stay. CLOSED. */
TRACERD_API TRACERD_POINTERS
tracerd_status tracerd_producer_done(tracerd_producer *);

/* Declares events, so that readers show their records by names and fields: each line of the text one, as
 * "queue_push 3 worker:u32 depth:u64", or a variable of the environment, as "env hostname web1", "env procname my server" or
 * "env vpid 4711", by which readers tell two processes apart (docs/FORMATS.md). They take the place of what was declared before.
 * Metadata of all archives have them, and a record of an id that isn't declared is shown by its bytes. tracerd_events.h makes such
 * a text, with a function of each event. ALREADY_STARTED, NO_MEMORY. BAD_EVENT to TOO_MANY_VARIABLES: *line, unless it is NULL, is
 * the number of the first line that is refused, from 1 on. */
TRACERD_API TRACERD_CHECKED TRACERD_POINTER(1) TRACERD_POINTER(2)
tracerd_status tracerd_declare(tracerd_session *, const char *text, uint64_t *line);

/* Has the session record what it refuses, so that who reads its archives sees that: in each producer's stream offers_refused has
 * how many of its offers were refused until then, by why, as tracerd_counts_of counts them. So the last one has the sums, and many
 * refusals in turn have one record.
 *
 * It is offered by the library itself: before the next offer that is accepted, before thread_end, and before a rotation, a stop and
 * a snapshot; of what is refused while the session is off, that is after the next start. Its moment is that of the last refused
 * offer that had one, or of a start after that, but not later than the offer's that it comes before. What it overwrites is counted,
 * and no offer's answer. If the ring is full it is discarded, and counted so; then it is offered again once another one is stored,
 * and before a rotation or a stop, where a closed sub-buffer is drained for it first. If it was overwritten or cleared, it is
 * offered again before the next rotation, stop and snapshot.
 *
 * The session declares this event beside what its program declares, before or after: a program's line with its name or id is
 * EVENT_TAKEN, and it may declare one event and 93 bytes fewer. Without this call nothing is recorded. ALREADY_STARTED, NO_MEMORY.
 * EVENT_TAKEN, TOO_MANY_DECLARED: of what the program has declared. */
#define TRACERD_OFFERS_REFUSED 4294967292u /* offers_refused inactive:u64 too_big:u64 bad_moment:u64 spent:u64 other_layout:u64 */
TRACERD_API TRACERD_CHECKED TRACERD_POINTERS
tracerd_status tracerd_record_refused(tracerd_session *);

/* From this moment on offers are taken; the first start begins the first trace chunk. ROTATION_PENDING, ALREADY_ACTIVE. */
TRACERD_API TRACERD_CHECKED TRACERD_POINTERS
tracerd_status tracerd_start(tracerd_session *, uint64_t moment);
/* From now on offers are refused. ROTATION_PENDING, NOT_ACTIVE. */
TRACERD_API TRACERD_POINTERS
tracerd_status tracerd_stop(tracerd_session *);

/* ---- Recording ---- */

typedef enum tracerd_outcome { TRACERD_STORED = 0, TRACERD_STORED_OVER = 1, TRACERD_DISCARDED = 2 } tracerd_outcome;

/* What became of an accepted offer. */
typedef struct tracerd_offered {
    uint32_t outcome;    /* a tracerd_outcome: stored; stored, and the oldest sub-buffer is gone; or discarded */
    uint64_t serial;     /* how many of its producer's offers were accepted before it */
    uint64_t packet;     /* the number of its packet; 0 if discarded */
    uint64_t gone;       /* the number of the packet that is gone, */
    uint64_t gone_count; /* and how many records it had; else 0 */
} tracerd_offered;

/* Offers a record: `id` and `size` bytes, which are copied. `payload` may be NULL if there are none. It takes no memory.
 * CLOSED; OTHER_LAYOUT, of a declared id alone; INACTIVE, TOO_BIG, SPENT. */
TRACERD_API TRACERD_CHECKED TRACERD_POINTER(1) TRACERD_POINTER(6)
tracerd_status tracerd_offer(tracerd_producer *, uint64_t moment, uint32_t id, const void *payload, size_t size,
                             tracerd_offered *);

/* The same at the session's clock, of which only a refusal is answered. */
TRACERD_API TRACERD_CHECKED TRACERD_POINTER(1)
tracerd_status tracerd_trace(tracerd_producer *, uint32_t id, const void *payload, size_t size);

/* A tracepoint, TRACERD_TRACE(producer, id, payload, size): while the session is off it costs a load and a branch, and nothing
 * but the producer is evaluated. The payload may be a compound literal. Refusals aren't answered: where they matter, call
 * tracerd_trace. tracerd_counts has them, and by tracerd_record_refused archives do. Each thread has the producer that it names.
 * Names that begin with tracerd_ are the library's. */
#define TRACERD_TRACE(producer, ...)                                                                        \
    do {                                                                                                    \
        tracerd_producer *tracerd_of_tracepoint_ = (producer);                                              \
        if (__builtin_expect(__atomic_load_n(&tracerd_of_tracepoint_->active, __ATOMIC_RELAXED) != 0, 0) && \
            tracerd_trace(tracerd_of_tracepoint_, __VA_ARGS__) != TRACERD_OK) {}                            \
    } while (0)

/* ---- Draining: closed sub-buffers become packets of the current trace chunk ---- */

/* Takes all sub-buffers that were closed before the call, maybe some that are closed meanwhile, and counts them. Several
 * threads may do so at once. SNAPSHOT_MODE. NO_MEMORY: what was taken stays taken. */
TRACERD_API TRACERD_POINTERS
tracerd_status tracerd_drain(tracerd_session *, uint64_t *packets);
/* Starts a thread of the library's own that drains each `period` nanoseconds. SNAPSHOT_MODE, ZERO_PERIOD, DRAINING, NO_MEMORY. */
TRACERD_API TRACERD_CHECKED TRACERD_POINTERS
tracerd_status tracerd_drainer_start(tracerd_session *, uint64_t period);
/* Ends it, after a last round, and answers what its last round was refused for, if it was: NO_MEMORY. NOT_DRAINING. */
TRACERD_API TRACERD_POINTERS
tracerd_status tracerd_drainer_stop(tracerd_session *);

/* ---- Rotations: the current trace chunk becomes an archive ---- */

/* Ends the current chunk: what it has and all that the rings hold becomes archive *archive; they are numbered from 0 on. Offers
 * go on meanwhile. SNAPSHOT_MODE, NEVER_STARTED, ROTATION_PENDING, ALREADY_ROTATED. NO_MEMORY: nothing changed, or the rotation
 * is pending, and tracerd_rotate_on goes on with it. */
TRACERD_API TRACERD_CHECKED TRACERD_POINTERS
tracerd_status tracerd_rotate(tracerd_session *, uint64_t moment, uint64_t *archive);
/* Goes on with a rotation for which there was no memory. NOT_PENDING; NO_MEMORY: it is still pending. */
TRACERD_API TRACERD_CHECKED TRACERD_POINTERS
tracerd_status tracerd_rotate_on(tracerd_session *, uint64_t *archive);

/* Rotations are due each `every` nanoseconds, and once `bytes` bytes were drained into the current chunk; TRACERD_NEVER of each
 * leaves it out. Only tracerd_tick rotates. SNAPSHOT_MODE, ZERO_PERIOD, ZERO_SIZE. */
#define TRACERD_NEVER UINT64_MAX
TRACERD_API TRACERD_POINTERS
tracerd_status tracerd_schedule(tracerd_session *, uint64_t every, uint64_t bytes);

typedef enum tracerd_cause { TRACERD_IDLE = 0, TRACERD_TIMER = 1, TRACERD_SIZE = 2 } tracerd_cause;

/* Rotates if that is due at this moment, and says why; *archive is written if so. NO_MEMORY: as of tracerd_rotate. */
TRACERD_API TRACERD_CHECKED TRACERD_POINTERS
tracerd_status tracerd_tick(tracerd_session *, uint64_t moment, tracerd_cause *, uint64_t *archive);

/* Removes what the rings and the current chunk hold, and counts these records. SNAPSHOT_MODE, NEVER_STARTED, ROTATION_PENDING.
 * NO_MEMORY: some streams are cleared. */
TRACERD_API TRACERD_POINTERS
tracerd_status tracerd_clear(tracerd_session *, uint64_t *records);

/* ---- Files ---- */

/* Writes an archive to FOLDER/SESSION/archives/ARCHIVE: a file for each stream, and `metadata`. It may run while others record.
 *
 * After OK the archive is on disk, also if the power is cut then. Until then ARCHIVE is whole or not there: its files are
 * written and synced in a folder `.ARCHIVE.part` beside it, which is renamed. What a stopped attempt has left there the next
 * one removes. Such a folder is no archive for tracerd_audit and `tracerd audit`, which pass over it without a word; readers
 * that search folders for `metadata` may find one.
 *
 * What has the name ARCHIVE already is never touched. If it is a folder with just these files and bytes, the answer is OK, and
 * it is on disk too. Missing folders are made. FOLDER may be a symbolic link; below it none is followed. It has to be readable,
 * so that it can be synced. FOLDER or the session's name is to be one run's: archives of another have the same numbers.
 *
 * NO_ARCHIVE, RELEASED: no folder is made. EXISTS: something else has the name. READ: what has it can't be read. WRITE,
 * NO_MEMORY: `.ARCHIVE.part` may be left, and folders that were made; errno is ENOENT for an empty FOLDER, EAGAIN while another
 * program writes the same archive, and ENOTEMPTY if a file that isn't the archive's is in `.ARCHIVE.part`. The records stay in
 * memory. */
TRACERD_API TRACERD_CHECKED TRACERD_POINTERS
tracerd_status tracerd_write(tracerd_session *, uint64_t archive, const char *folder);
/* Gives up an archive's bytes; its records' fates and counts stay. NO_ARCHIVE, RELEASED. NO_MEMORY: some streams are
 * released. */
TRACERD_API TRACERD_POINTERS
tracerd_status tracerd_release(tracerd_session *, uint64_t archive);
/* Forgets the archives below this number, which have to be released: what a released one still takes, 112 bytes a producer and
 * more for each of its packets, is given up, so that what many of them leave is 24 bytes for each, in all. Counts and sums stay.
 * The fate of a record that was offered before archive `archive` began is TRACERD_WAS_FORGOTTEN, and tracerd_archive_of a
 * forgotten archive answers FORGOTTEN. What was forgotten before stays so. What a clear leaves, 24 bytes or more for each packet,
 * isn't given up. NO_ARCHIVE, HELD. NO_MEMORY: the archives are forgotten, and the next call gives up what some producers still
 * have of them. */
TRACERD_API TRACERD_POINTERS
tracerd_status tracerd_forget(tracerd_session *, uint64_t archive);
/* Writes what the rings of a snapshot session hold, in the form of archive 0 and as tracerd_write does, below a folder that is
 * to be this snapshot's alone: its name has the moment's second. Each stream is shown as it is at one step, while offers go on.
 * NOT_SNAPSHOT_MODE, NEVER_STARTED. EXISTS, READ, WRITE, NO_MEMORY: as of tracerd_write, and the moment is stored. */
TRACERD_API TRACERD_CHECKED TRACERD_POINTERS
tracerd_status tracerd_snapshot(tracerd_session *, uint64_t moment, const char *folder);

typedef struct tracerd_audited {
    uint64_t packets, records; /* how many there are */
    uint64_t absent;           /* how many packet numbers below the last one are missing: overwritten or cleared */
    uint64_t discarded;        /* how many records the stream had discarded by its last packet */
    uint64_t last_packet, last_serial; /* 0 without packets */
    uint64_t archive, byte;    /* of a fault: the number of the archive, and where in its file the packet begins */
    uint32_t packet_fault;     /* of PACKET: 1 to 7 for P1 to P7; else 0 */
    uint32_t reserved_too;
    uint64_t reserved[7];
} tracerd_audited;

/* Reads FOLDER/SESSION/archives/ARCHIVE/CHANNEL_STREAM of all archives, in order of their numbers, and judges each packet. It
 * wants no session. READ: also of an empty FOLDER (ENOENT). NO_MEMORY. PACKET, NUMBER_REPEAT, SERIAL_REPEAT, FOREIGN: the last
 * three fields say where, the others are 0. Without an archive all are 0. */
TRACERD_API TRACERD_CHECKED TRACERD_POINTERS
tracerd_status tracerd_audit(const char *folder, const char *session, const char *channel, uint64_t stream,
                             const uint8_t uuid[16], tracerd_audited *);

/* ---- What there is ---- */

typedef enum tracerd_state { TRACERD_NEW = 0, TRACERD_ACTIVE = 1, TRACERD_STOPPED = 2 } tracerd_state;

typedef struct tracerd_about {
    uint32_t kind, state;         /* a tracerd_kind, and a tracerd_state */
    uint32_t is_pending;          /* 1 if a rotation is pending: its archive will have the number `archives` */
    uint32_t is_draining;         /* 1 if the library's drainer runs, or a keeper */
    uint64_t channels, producers; /* how many were made */
    uint64_t archives;            /* they have the numbers below this one, also those that were released */
    uint64_t begun, last;         /* when the current chunk began, and the last stored moment; 0 before the first start */
    uint8_t uuid[16];             /* the trace's identifier */
    uint64_t forgotten;           /* archives below this one are forgotten */
    uint64_t reserved[6];
} tracerd_about;

/* What a session is now. */
TRACERD_API TRACERD_CHECKED TRACERD_POINTERS
tracerd_status tracerd_about_of(tracerd_session *, tracerd_about *);

typedef struct tracerd_archive {
    uint64_t begun, ended;            /* the moments in its name */
    uint64_t packets, records, bytes; /* what its files have, without metadata; or had, before it was released */
    uint32_t is_released;             /* 1 if bytes of it were released: it can't be written any more */
    uint32_t reserved_too;
    uint64_t reserved[10];
} tracerd_archive;

/* What an archive has. NO_ARCHIVE, FORGOTTEN. */
TRACERD_API TRACERD_CHECKED TRACERD_POINTERS
tracerd_status tracerd_archive_of(tracerd_session *, uint64_t archive, tracerd_archive *);
/* The name of an archive's folder, as tracerd_write gives it, also if it isn't written or was released. NO_ARCHIVE, NO_MEMORY. */
#define TRACERD_ARCHIVE_NAME 64 /* more than the longest one, with the zero at its end */
TRACERD_API TRACERD_CHECKED TRACERD_POINTERS
tracerd_status tracerd_archive_name(tracerd_session *, uint64_t archive, char name[TRACERD_ARCHIVE_NAME]);

/* ---- Threads that come and go ---- */

typedef struct tracerd_pool tracerd_pool; /* producers that threads are lent, each until it ends */

/* The names, ids and fields of what threads say of themselves; tid is the number that the system gave the thread. */
#define TRACERD_THREAD_BEGIN 4294967293u  /* thread_begin name:str tid:u32 */
#define TRACERD_THREAD_END 4294967294u    /* thread_end tid:u32 */
#define TRACERD_THREAD_SHARED 4294967295u /* thread_shared name:str tid:u32 */

/* A pool of `count` producers of a channel. The session then declares these three events beside what its program declares,
 * before or after: a program's line with such a name or id is EVENT_TAKEN, and it may declare three events and 113 bytes
 * fewer. ZERO_SIZE. BAD_NAME, ALREADY_STARTED, NO_CHANNEL, TOO_MANY: as of tracerd_producer_new. EVENT_TAKEN,
 * TOO_MANY_DECLARED: of what the program has declared. NO_MEMORY: also without a key left for threads' own data; producers
 * that were made stay, given back. */
TRACERD_API TRACERD_CHECKED TRACERD_POINTERS
tracerd_status tracerd_pool_new(tracerd_pool **pool, tracerd_session *, const char *channel, uint64_t count);
/* A pool with a producer for each processor, for programs of very many threads: tracerd_here gives that of the processor on
 * which it is called. Nothing is lent, said or declared: a record doesn't have its thread. BAD_NAME, ALREADY_STARTED,
 * NO_CHANNEL, NO_MEMORY; TOO_MANY: the machine has more processors than the session may have producers more. */
TRACERD_API TRACERD_CHECKED TRACERD_POINTERS
tracerd_status tracerd_cpu_pool_new(tracerd_pool **pool, tracerd_session *, const char *channel);

/* The calling thread's producer, at any time, as in TRACERD_TRACE(tracerd_here(pool), id, payload, size). It is never NULL. A
 * thread is lent the one that was free for longest, and has it until it ends; if none is free it shares one, in turn.
 *
 * It says thread_begin when it is lent one, thread_shared when it shares one, and thread_end last. So a stream's record is of
 * the thread that said thread_begin last before it, unless that has said thread_end; or of one that said thread_shared, and
 * not thread_end yet. Where records were overwritten or cleared since, their serials are missing, and a thread_begin may be
 * among them.
 * - While the session is off nothing is said. A thread that was lent one meanwhile says thread_begin at the start, before all
 *   else; one that shares says so in its next call of this.
 * - A thread_begin or thread_shared that is discarded is said again in the thread's next call of this: so make it for each
 *   record. A thread_end that can't be stored isn't said again.
 * - A thread for which there is no memory to keep one shares one, says so, and says no thread_end.
 * - A name is the thread's at that time, at most 15 bytes, with '?' for what isn't UTF-8 or can't be printed, and for an empty
 *   one.
 *
 * In a child of fork, and once the session was freed, offers by what it gives are answered CLOSED. */
TRACERD_API TRACERD_POINTERS
tracerd_producer *tracerd_here(tracerd_pool *);
/* Gives the producers back, and lets the pool go, also after tracerd_free. No thread may call tracerd_here of it meanwhile or
 * later. MISSING: a thread lives that has one; the calling one's own is given back. CLOSED: in a child of fork. */
TRACERD_API TRACERD_POINTERS
tracerd_status tracerd_pool_free(tracerd_pool *);

/* ---- Archives that keep themselves ---- */

typedef struct tracerd_keeper tracerd_keeper; /* two threads of the library's own, and what they did */

/* Starts a keeper. One of its threads drains each 10 milliseconds and rotates by tracerd_schedule(session, every, bytes) and
 * tracerd_tick, at the session's clock. The other one writes each archive, also such as the program rotates, as tracerd_write
 * does, releases it, and then deletes the oldest beyond the last `keep`, and forgets what it deleted, and what is older: so memory
 * grows by 24 bytes an archive, and by what clears leave. TRACERD_NEVER of `every`, `bytes` or `keep` leaves it out; without `keep`
 * nothing is forgotten.
 *
 * Archives are below a folder of this run's own, FOLDER/SESSION-BEGIN: BEGIN is this moment, in the form of archives' names, and
 * -1, -2 and so on follow if that is there. Only archives of this run are deleted, and of their folders only the archive's own
 * files: if another is in one, that stays, in `.ARCHIVE.part`. What earlier runs left stays, until somebody removes it.
 *
 * What is refused meanwhile is in tracerd_keeping, and is tried again when there is a next archive, or after a second. Nothing is
 * deleted to make room. An archive waits in memory until it is written. While three wait the keeper neither drains nor rotates,
 * so that they don't become more: then rings are full, and records are discarded or overwritten as their channel says, and
 * counted so. Where one can't be deleted, newer ones are written, and stay until it can.
 *
 * SNAPSHOT_MODE, ZERO_PERIOD; ZERO_SIZE: also of `keep`; DRAINING: also if the session has a keeper. WRITE: the folder can't be
 * made; errno says why. NO_MEMORY: also if a thread can't be made; the schedule may be set. Folders that were made stay. */
TRACERD_API TRACERD_CHECKED TRACERD_POINTERS
tracerd_status tracerd_keeper_start(tracerd_keeper **keeper, tracerd_session *, const char *folder, uint64_t every,
                                    uint64_t bytes, uint64_t keep);
/* The path of its run's folder, for tracerd_audit, as long as there is the keeper. In a child of fork it is empty. */
TRACERD_API TRACERD_POINTERS
const char *tracerd_keeper_folder(const tracerd_keeper *);

typedef struct tracerd_keeping {
    uint64_t written, deleted; /* archives: how many it has written, and how many of these it has deleted */
    uint64_t waiting;          /* archives in memory */
    uint64_t refused;          /* how many steps were refused: drains, rotations, writes, releases, deletions and forgets */
    uint64_t moment;           /* of the last of these its moment, by the session's clock; 0 if there is none */
    uint32_t last;             /* its status, which is WRITE if an archive can't be deleted */
    int32_t error;             /* its errno, of WRITE and READ; else 0 */
    uint64_t reserved[10];
} tracerd_keeping;

/* What it did so far. CLOSED: in a child of fork. */
TRACERD_API TRACERD_CHECKED TRACERD_POINTERS
tracerd_status tracerd_keeper_state(tracerd_keeper *, tracerd_keeping *);
/* Ends it, after a last round that rotates first, and answers why a step of that was refused, if one was; of WRITE and READ
 * errno says why. The archives that wait are still in memory then. It is called once, and not after tracerd_free. CLOSED: in a
 * child of fork. */
TRACERD_API TRACERD_CHECKED TRACERD_POINTERS
tracerd_status tracerd_keeper_stop(tracerd_keeper *);

/* ---- A shell that asks ---- */

typedef struct tracerd_listener tracerd_listener; /* a socket, and a thread of the library's own that answers there */

/* Has the program answer at a socket of this path (AF_UNIX, a stream), as `tracerd-ask PATH 'status app'` asks there. A line is
 * one of a script (docs/FORMATS.md), and is read, done and answered as there; S is the session's own name:
 *
 *     status S    archives S    fate S I SERIAL    start S MOMENT    stop S    clear S    release S K
 *     rotate S MOMENT    snapshot S MOMENT    schedule S [--every NS] [--size BYTES]
 *
 * MOMENT may be `now`: tracerd_now_of(session). Another name is refused K1 NoSession, another command of a script K4 ScriptOnly,
 * and what fails for want of memory S16 NoMemory; any other line is a bad one. An answer has the script's text, and no mark at
 * its end: whoever wants to see that shuts down its writing side, and reads to the end. A refused line changes nothing; if
 * memory is lacking for an answer, the line may have been done, and the client is hung up on.
 *
 * FOLDER is where archives are written before the answer: a rotation's as by tracerd_write(session, K, FOLDER), so it is at
 * FOLDER/SESSION/archives/ARCHIVE; a snapshot's as by tracerd_snapshot, at FOLDER/snapshot-MOMENT/SESSION/archives/ARCHIVE by the
 * moment that it answers, each stream with the packets that it answers. What isn't written has a line more, `not written STATUS
 * ERRNO`, by tracerd_status_name and errno, 0 if it has none; a snapshot then shows no streams. The archive stays in memory. One
 * that a keeper was quicker to write isn't written again. FOLDER may be NULL: then nothing is written. It is this run's alone.
 *
 * Only the program's own user and the superuser are let in: the socket has mode 0600 before it has its name, and the system is
 * asked whose each client is. One is answered at a time, the others wait. A client that says or takes nothing for two seconds is
 * hung up on, and so is one whose line has more than 4,096 bytes, after `bad line`. No path comes from a client. The thread
 * blocks all signals.
 *
 * PATH has 1 to 107 bytes. A socket there at which no program listens is replaced: it is a dead one's.
 * LISTENING. EXISTS: a program listens there, or something that is no socket has the path, which is left alone. WRITE: no socket
 * can be made there, or FOLDER not be made; errno says why, EAGAIN if another program holds the socket's folder (flock) for a
 * second. NO_MEMORY: also if a thread can't be made. CLOSED: in a child of fork. Folders that were made stay. */
TRACERD_API TRACERD_CHECKED TRACERD_POINTER(1) TRACERD_POINTER(2) TRACERD_POINTER(3)
tracerd_status tracerd_listen(tracerd_listener **listener, tracerd_session *, const char *path, const char *folder);
/* Ends it after what it does now, hangs up on its client, and removes the socket, unless another has its path. It is called once,
 * and not after tracerd_free. CLOSED: in a child of fork. */
TRACERD_API TRACERD_POINTERS
tracerd_status tracerd_listener_stop(tracerd_listener *);

/* ---- Accounts ---- */

/* offered = discarded + overwritten + cleared + in_ring + in_chunks, where in_chunks counts released archives' records too. What
 * was refused is none of these, and is counted by why. What TRACERD_TRACE passes over while the session is off isn't counted, nor
 * what is offered by a producer that was given back.
 *
 * `shared` is how many of the offered ones were made while a pool had lent their producer to several threads, which may wait for
 * each other then; what threads say of themselves is among them, and offers_refused. If it grows, a larger pool helps. After a thread had a producer
 * that it couldn't keep for want of memory, all offers by that one are shared. Those of tracerd_cpu_pool_new are lent to nobody. */
typedef struct tracerd_counts {
    uint64_t offered, discarded, overwritten, cleared, in_ring, in_chunks;
    uint64_t refused_inactive, refused_too_big, refused_bad_moment, refused_spent, refused_other_layout;
    uint64_t shared;
    uint64_t reserved[4];
} tracerd_counts;

/* Of one producer: as of one moment. */
TRACERD_API TRACERD_CHECKED TRACERD_POINTERS
tracerd_status tracerd_counts_of(tracerd_producer *, tracerd_counts *);
/* The sums over all producers, one after another. What would be more than UINT64_MAX is that. */
TRACERD_API TRACERD_CHECKED TRACERD_POINTERS
tracerd_status tracerd_counts_sum(tracerd_session *, tracerd_counts *);
/* The sums, once nobody can offer any more. MISSING: *stream is the first one whose producer was not given back. DRAINING. */
TRACERD_API TRACERD_CHECKED TRACERD_POINTERS
tracerd_status tracerd_settle(tracerd_session *, tracerd_counts *, uint64_t *stream);

typedef enum tracerd_place {
    TRACERD_NOT_OFFERED = 0, TRACERD_IN_RING = 1, TRACERD_IN_CHUNK = 2,
    TRACERD_WAS_DISCARDED = 3, TRACERD_WAS_OVERWRITTEN = 4, TRACERD_WAS_CLEARED = 5,
    TRACERD_WAS_FORGOTTEN = 6
} tracerd_place;

/* Where a record is, or how it was lost. */
typedef struct tracerd_fate {
    uint32_t place;  /* a tracerd_place */
    uint64_t chunk;  /* in a chunk: its number, which is its archive's; else 0 */
    uint64_t packet; /* its packet, unless it was not offered, discarded, overwritten or forgotten; else 0 */
    uint64_t reserved[5];
} tracerd_fate;
TRACERD_API TRACERD_CHECKED TRACERD_POINTERS
tracerd_status tracerd_fate_of(tracerd_producer *, uint64_t serial, tracerd_fate *);

#ifdef __cplusplus
}
#endif
#endif
