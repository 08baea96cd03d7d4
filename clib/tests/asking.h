/* What the tests of listeners share: a session with one, and who asks there. */
#ifndef ASKING_H
#define ASKING_H
#include "paths.h"
#include "testing.h"
#include <errno.h>
#include <fcntl.h>
#include <poll.h>
#include <signal.h>
#include <sys/socket.h>
#include <sys/un.h>
#include <sys/wait.h>
#include <time.h>

static const char *ask_program;
static tracerd_session *session;
static tracerd_producer *producer;
static tracerd_listener *listener;
static char said[1 << 20]; /* what was answered last */

static inline const char *door(void) { return below("s.socket"); }

/* A session `s` whose rings have two sub-buffers, each with room for two records of 50 bytes. */
static inline void opens(tracerd_kind kind) {
    answers(OK, tracerd_new(&session, "s", ONE, 0, kind));
    answers(OK, tracerd_channel(session, "c", 256, 2, kind == TRACERD_LOCAL ? TRACERD_DISCARD : TRACERD_OVERWRITE));
    answers(OK, tracerd_producer_new(session, "c", &producer));
}

static inline void listens(const char *folder) {
    listener = NULL;
    answers(OK, tracerd_listen(&listener, session, door(), folder));
    if (!listener) exit(1 + closing());
}

static inline void closes(void) {
    answers(OK, tracerd_listener_stop(listener));
    tracerd_free(session);
}

static inline void opens_a_door(void) {
    opens(TRACERD_LOCAL);
    listens(NULL);
}

static inline void offers(uint64_t moment, size_t size) {
    static const char letters[64] = "aaaaaaaaaaaaaaaaaaaaaaaaaaaaaaaaaaaaaaaaaaaaaaaaaaaaaaaaaaaaaaa";
    tracerd_offered o;
    answers(OK, tracerd_offer(producer, moment, 7, letters, size, &o));
}

static inline uint64_t milliseconds(void) {
    struct timespec now;
    clock_gettime(CLOCK_MONOTONIC, &now);
    return (uint64_t)now.tv_sec * 1000 + (uint64_t)now.tv_nsec / 1000000;
}

/* ---- By the program ---- */

/* Has tracerd-ask ask some lines, up to NULL, and print to a descriptor. */
static inline pid_t starts_asking(const char *const lines[], int to) {
    const char *words[16] = {ask_program, door()};
    for (int i = 0; i < 13 && lines[i]; i++) words[2 + i] = lines[i];
    pid_t it = fork();
    if (it) return it;
    dup2(to, 1);
    dup2(open("/dev/null", O_WRONLY), 2);
    execv(ask_program, (char *const *)words);
    _exit(99);
}

/* The exit status that it comes to, or -1. */
static inline int exits_with(pid_t it) {
    int status = 0;
    return it > 0 && waitpid(it, &status, 0) == it && WIFEXITED(status) ? WEXITSTATUS(status) : -1;
}

/* Asks some lines by tracerd-ask, up to NULL: its exit status, or -1. */
static inline int asks(const char *const lines[]) {
    int pipes[2];
    size_t size = 0;
    ssize_t got;
    if (pipe2(pipes, O_CLOEXEC)) return -1;
    pid_t it = starts_asking(lines, pipes[1]);
    close(pipes[1]);
    while ((got = read(pipes[0], said + size, sizeof said - 1 - size)) > 0) size += (size_t)got;
    said[size] = 0;
    close(pipes[0]);
    return exits_with(it);
}

static inline void is_said(const char *line, const char *wanted, int status, const char *file, int at) {
    int found = asks((const char *const[]){line, NULL});
    bool is_right = found == status && !strcmp(said, wanted);
    wrong += !is_right;
    if (!is_right) printf("%s:%d: %s: not so, but %d: %s", file, at, line, found, said);
}

/* A line is answered so, and done; or so, and not. */
#define says(line, wanted) is_said((line), (wanted), 0, __FILE__, __LINE__)
#define refuses(line, wanted) is_said((line), (wanted), 1, __FILE__, __LINE__)

/* ---- By a socket of the test's own ---- */

static inline int enters(void) {
    struct sockaddr_un address = {.sun_family = AF_UNIX};
    strcpy(address.sun_path, door());
    int made = socket(AF_UNIX, SOCK_STREAM | SOCK_CLOEXEC, 0);
    if (!connect(made, (const struct sockaddr *)&address, sizeof address)) return made;
    close(made);
    return -1;
}

static inline bool sends(int to, const void *bytes, size_t size) { return send(to, bytes, size, MSG_NOSIGNAL) == (ssize_t)size; }

/* Reads to the end, which closes it: how many bytes were answered; -1 if there is no end for ten seconds. */
static inline ssize_t reads(int from) {
    size_t size = 0;
    ssize_t got = 1;
    while (got > 0) {
        struct pollfd at = {from, POLLIN, 0};
        if (poll(&at, 1, 10000) < 1) return close(from), -1;
        got = recv(from, said + size, sizeof said - 1 - size, 0);
        size += got > 0 ? (size_t)got : 0;
    }
    said[size] = 0;
    close(from);
    return (ssize_t)size;
}
#endif
