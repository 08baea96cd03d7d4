/* What the files share that answer a shell: a listener, its socket, and the answers to its client's lines. */
#ifndef LISTENERS_H
#define LISTENERS_H
#include "archives.h"
#include <sys/un.h>

enum { LINE = 4096 }; /* the longest line, without its newline */
enum { SOCKET_PATH = sizeof((struct sockaddr_un *)0)->sun_path };

/* A socket that has a name. */
typedef struct {
    int socket;
    int folder; /* in which it has this name: */
    char name[SOCKET_PATH];
    file_id id; /* what has the name, unless another has taken it since */
} door;

/* In pages that a child of fork finds as zeros: closed. */
struct tracerd_listener {
    tracerd_session *session; /* NULL in a child */
    door door;
    bool has_folder;
    char folder[PATH]; /* where archives are written */
    pthread_t thread;
    _Atomic bool is_over;
};

/* ---- Its socket (doors.c) ---- */

/* Makes a socket of this path, on which it listens. EXISTS: a program listens there, or something else has the path; WRITE. */
tracerd_status open_door(door *d, const char *path);
/* From now on nobody gets in, and who waits in `wait_at` goes on. */
void shut_door(const door *d);
/* Takes its name away, unless another has it, and closes it. */
void remove_door(door *d);
/* Waits until a descriptor is ready, for so many milliseconds, or without an end if it is -1. Whether it is, and the door isn't
 * shut. */
bool wait_at(const door *d, int descriptor, short what, int milliseconds);
/* Lets the next client in; -1 if there is none, or it isn't of the program's own user or the superuser. */
int let_in(const door *d);
/* Closes a client, also where a child of fork has a copy of it. */
void hang_up(int client);

/* ---- Texts of answers (replies.c), which grow; if memory is lacking they are lost ---- */

typedef struct text {
    uint8_t *bytes;
    size_t size, room;
    size_t begun;  /* how many bytes are before what a snapshot's streams show */
    uint64_t last; /* how many bytes a cell has added */
    bool is_lost;
} text;

/* Begins a text anew; false without memory. */
bool begin_text(text *a);
void say(text *a, uint32_t what);
void say_newline(text *a);
void say_refused(text *a, uint32_t why);
void say_cleared(text *a, uint64_t records);
void say_released(text *a, uint64_t archive);
void say_fate(text *a, const tracerd_fate *fate);
void say_archived(text *a, tracerd_session *t, uint64_t archive);
/* Says that what was made isn't written: the status, and errno of READ and WRITE, else 0. */
void say_unwritten(text *a, tracerd_status status, int why);
/* Takes back what a snapshot's streams show. */
void forget_shown(text *a);
void say_status(text *a, tracerd_session *t);
void say_archives(text *a, tracerd_session *t);

/* ---- Answers (asks.c) ---- */

/* Does what a line asks for, and has `answer` be what is said of it; false if memory was lacking for that. */
bool answer_line(const tracerd_listener *l, const uint8_t *line, size_t size, text *answer);
/* Has `answer` be that of a bad line; false without memory. */
bool answer_badly(text *answer);
#endif
