/* What the files share that keep archives: a keeper, and its rounds. */
#ifndef KEEPERS_H
#define KEEPERS_H
#include "archives.h"

/* In pages that a child of fork finds as zeros: closed. */
struct tracerd_keeper {
    tracerd_session *session; /* NULL in a child */
    uint64_t keep;
    char folder[PATH]; /* of the run */
    pthread_t thread;  /* which writes */
    sem_t bell;        /* rung if there is an archive to write, or if it ends */
    _Atomic bool is_over;
    _Atomic uint64_t next; /* archives below this one are released */
    uint64_t rung;         /* for the archives below this one the bell was rung; the drainer's */
    bool is_written;       /* the next one is on disk; this and what follows are the writer's, then the one's that stops it */
    uint64_t deleted;      /* archives below this one are deleted */
    pthread_mutex_t lock;  /* guards what follows */
    tracerd_keeping accounts;
};

/* ---- Rounds (rounds.c) ---- */

/* Notes a step that was refused. */
tracerd_status noted(tracerd_keeper *k, tracerd_status status);
/* Begins with the first archive that isn't released. */
void pass_over_released(tracerd_keeper *k);
/* Drains, and has all that is recorded be an archive. */
tracerd_status collect_all(tracerd_keeper *k);
/* Writes and releases what there is, and deletes what is too old: what was refused, if a step was. */
tracerd_status write_all(tracerd_keeper *k);
#endif
