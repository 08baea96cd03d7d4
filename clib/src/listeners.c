/* Listeners: a thread that answers the lines of a shell, a client at a time. */
#include "listeners.h"
#include <errno.h>
#include <poll.h>
#include <stdlib.h>
#include <string.h>
#include <sys/mman.h>
#include <sys/socket.h>

enum { SILENCE = 2000 }; /* milliseconds that a client may say nothing, or take nothing */

/* ---- A client ---- */

/* The next bytes that a client says: how many, 0 at their end; -1 if it says nothing for too long, or is gone, or the listener
 * ends. */
static ssize_t hear(const tracerd_listener *l, int client, uint8_t *room, size_t size) {
    if (!wait_at(&l->door, client, POLLIN, SILENCE))
        return -1;
    return recv(client, room, size, 0);
}

/* Sends an answer. Whether the client has taken all of it. */
static bool tell(const tracerd_listener *l, int client, const text *answer) {
    size_t done = 0;
    while (done < answer->size) {
        if (!wait_at(&l->door, client, POLLOUT, SILENCE))
            return false;
        ssize_t sent = send(client, answer->bytes + done, answer->size - done, MSG_NOSIGNAL);
        if (sent < 0)
            return false;
        done += (size_t)sent;
    }
    return true;
}

static bool answer_one(const tracerd_listener *l, int client, const uint8_t *line, size_t size, text *answer) {
    return answer_line(l, line, size, answer) && tell(l, client, answer);
}

/* Answers the whole lines of what a client has said, and keeps what is left. Whether it may go on. */
static bool answer_whole(const tracerd_listener *l, int client, uint8_t *said, size_t *size, text *answer) {
    uint8_t *line = said, *end;
    while ((end = memchr(line, '\n', *size))) {
        if (!answer_one(l, client, line, (size_t)(end - line), answer))
            return false;
        *size -= (size_t)(end + 1 - line);
        line = end + 1;
    }
    memmove(said, line, *size);
    return true;
}

/* Answers a client's lines, the last one also without a newline, until it has said all, or is to be hung up on. */
static void serve(const tracerd_listener *l, int client, text *answer) {
    uint8_t said[LINE + 1];
    size_t size = 0;
    for (;;) {
        ssize_t heard = hear(l, client, said + size, sizeof said - size);
        if (heard == 0 && size)
            (void)answer_one(l, client, said, size, answer);
        if (heard <= 0)
            return;
        size += (size_t)heard;
        if (!answer_whole(l, client, said, &size, answer))
            return;
        if (size == sizeof said) {
            if (answer_badly(answer))
                (void)tell(l, client, answer);
            return;
        }
    }
}

static void *serve_each(void *listener) {
    tracerd_listener *l = listener;
    while (!atomic_load(&l->is_over)) {
        int client = wait_at(&l->door, l->door.socket, POLLIN, -1) ? let_in(&l->door) : -1;
        if (client < 0)
            continue;
        text answer = {0};
        serve(l, client, &answer);
        hang_up(client);
        free(answer.bytes);
    }
    return NULL;
}

/* ---- Calls ---- */

/* Where archives are written, whatever folder the program goes to. */
static tracerd_status find_folder(tracerd_listener *l, const char *folder) {
    int given = open_given(folder);
    if (given < 0)
        return TRACERD_WRITE;
    close_quietly(given);
    l->has_folder = true;
    return realpath(folder, l->folder) ? TRACERD_OK : TRACERD_WRITE;
}

static tracerd_status begin_listener(tracerd_listener *l, const char *path, const char *folder) {
    tracerd_status status = folder ? find_folder(l, folder) : TRACERD_OK;
    if (!status)
        status = open_door(&l->door, path);
    if (status)
        return status;
    if (make_thread(&l->thread, serve_each, l))
        return TRACERD_OK;
    remove_door(&l->door);
    return TRACERD_NO_MEMORY;
}

/* The session's listener is BUSY. */
static tracerd_status make_listener(tracerd_session *t, const char *path, const char *folder) {
    tracerd_listener *l = new_pages(sizeof *l);
    if (!l)
        return TRACERD_NO_MEMORY;
    l->session = t;
    tracerd_status status = begin_listener(l, path, folder);
    if (status) {
        int why = errno;
        munmap(l, sizeof *l);
        errno = why;
        return status;
    }
    t->listener = l;
    return TRACERD_OK;
}

tracerd_status tracerd_listen(tracerd_listener **listener, tracerd_session *t, const char *path, const char *folder) {
    int off = OFF;
    if (!t->is_here)
        return TRACERD_CLOSED;
    if (!atomic_compare_exchange_strong(&t->listening, &off, BUSY))
        return TRACERD_LISTENING;
    tracerd_status status = make_listener(t, path, folder);
    if (!status)
        *listener = t->listener;
    atomic_store(&t->listening, status ? OFF : ON);
    return status;
}

static void end(tracerd_listener *l) {
    tracerd_session *t = l->session;
    atomic_store(&l->is_over, true);
    shut_door(&l->door);
    pthread_join(l->thread, NULL);
    remove_door(&l->door);
    t->listener = NULL;
    munmap(l, sizeof *l);
    atomic_store(&t->listening, OFF);
}

tracerd_status tracerd_listener_stop(tracerd_listener *l) {
    if (!l->session)
        return TRACERD_CLOSED;
    end(l);
    return TRACERD_OK;
}

void end_listener(tracerd_session *t) {
    if (t->listener)
        end(t->listener);
}
