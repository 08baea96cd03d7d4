/* What the files share that write archives: calls that write, and what an archive's files have. */
#ifndef ARCHIVES_H
#define ARCHIVES_H
#include "session.h"
#include "files.h"

enum { PART_NAME = NAME + 8 };

/* A call that writes an archive, or a snapshot in the form of one. */
typedef struct writing {
    tracerd_session *session;
    bool is_snapshot;
    uint64_t number;      /* an archive's */
    uint64_t moment;      /* a snapshot's */
    char name[NAME];      /* its folder's, */
    char part[PART_NAME]; /* and that of the folder in which it is written */
    struct writing *next; /* the session's others: the desk guards this, and what follows */
    struct text *told;    /* of a snapshot: what is said of it, or NULL; then its folder is in one of its own */
    bool has_place;       /* no other call of the session writes by this name into this folder */
    file_id place;
} writing;

/* One of its files, whose bytes come in pieces. */
typedef struct {
    const writing *of;
    slot *slot; /* of a stream; NULL: the metadata */
    char name[FILE_NAME];
    trc_snap snap;   /* what a snapshot's stream shows, once it was looked at */
    trc_place place; /* of a stream's next piece */
    uint8_t *text;   /* the metadata's, once it was asked for, */
    uint64_t at;     /* how many of its bytes were copied, */
    uint64_t left;   /* and how many weren't */
} content;

/* ---- Who writes (archives.c) ---- */

/* Waits until no call writes an archive. The desk is held, but while it waits. */
void wait_for_writers_locked(tracerd_session *t, uint64_t archive);
/* Takes a snapshot, and says what it shows, without the last newline: each stream as its file has it, in a folder of the
 * snapshot's own in FOLDER, or in no file if that is NULL. *written is why it isn't written, if it isn't. */
tracerd_status take_snapshot(tracerd_session *t, uint64_t moment, const char *folder, struct text *told, tracerd_status *written);

/* ---- What files have (contents.c) ---- */

typedef tracerd_status handling(content *, int folder);

/* Does one thing with each file of an archive, up to the first that is refused: with streams' in order, and with the metadata
 * last. */
tracerd_status each_file(const writing *w, int folder, handling *handle);
/* Looks at a snapshot's stream: from then on its bytes are what it showed. */
tracerd_status look(content *c);

typedef tracerd_status taking(int file, const uint8_t *piece, uint64_t size);

/* Does one thing with an open file and each piece of what it has or gets, of PIECE bytes at most, up to the first that is
 * refused: in order, and after the last one with a piece of no bytes. */
tracerd_status each_piece(content *c, taking *take, int file);

/* ---- What is on disk (compares.c, writes.c) ---- */

/* OK if a folder is this archive, with no other name in it: then it is on disk too, as after a write. */
tracerd_status compare_archive(const writing *w, int archives, int folder);
/* Whether what was to be opened is missing, or is something else under that name, as a link. */
bool is_other(int why);
/* Removes what is left of an archive beside its place, unless somebody writes there. */
tracerd_status remove_part(const writing *w, int archives);
/* Writes an archive beside its place, and renames it. */
tracerd_status write_archive(const writing *w, int archives);

/* ---- What is said of a snapshot (replies.c) ---- */

void say_snapshot(struct text *told, uint64_t moment);
void say_shown(struct text *told, trc_snap *snap);

/* ---- What is deleted (deletions.c) ---- */

/* Deletes an archive that was written below a folder, or what is left of it, if it is there: no file but the archive's own. */
tracerd_status delete_archive(tracerd_session *t, uint64_t number, const char *folder, bool *was_there);
#endif
