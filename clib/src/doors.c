/* Sockets that have a name in a folder, and who comes in by them. */
#include "listeners.h"
#include <errno.h>
#include <fcntl.h>
#include <poll.h>
#include <signal.h>
#include <string.h>
#include <sys/file.h>
#include <sys/socket.h>
#include <sys/stat.h>
#include <unistd.h>

enum { WAITING = 16 };            /* clients that may wait */
enum { TRIES = 100, PAUSE = 10 }; /* how often a folder is tried that another program holds, and for how many milliseconds */

/* ---- Its name ---- */

/* Has no other program make or remove a socket in a folder meanwhile. */
static int hold_folder(int folder) {
    for (int i = 0; i < TRIES; i++) {
        if (!flock(folder, LOCK_EX | LOCK_NB))
            return 0;
        if (errno != EWOULDBLOCK && errno != EINTR)
            return -1;
        (void)poll(NULL, 0, PAUSE);
    }
    errno = EAGAIN;
    return -1;
}

static int make_socket(void) { return socket(AF_UNIX, SOCK_STREAM | SOCK_NONBLOCK | SOCK_CLOEXEC, 0); }

/* Whether the program lives that has made a socket: a child that it forked may have a copy. */
static bool has_maker(int connected) {
    struct ucred maker;
    socklen_t size = sizeof maker;
    if (getsockopt(connected, SOL_SOCKET, SO_PEERCRED, &maker, &size) || maker.pid <= 0)
        return true;
    return !kill(maker.pid, 0) || errno != ESRCH;
}

/* Whether a program listens at a socket, as far as can be seen. */
static bool is_live(const struct sockaddr_un *address) {
    int tried = make_socket();
    if (tried < 0)
        return true;
    bool is_answered = !connect(tried, (const struct sockaddr *)address, sizeof *address);
    bool is_there = is_answered ? has_maker(tried) : errno != ECONNREFUSED;
    close_quietly(tried);
    return is_there;
}

/* Removes a socket at which nobody listens. The folder is held. */
static tracerd_status make_way(const door *d, const struct sockaddr_un *address) {
    struct stat about;
    if (fstatat(d->folder, d->name, &about, AT_SYMLINK_NOFOLLOW))
        return errno == ENOENT ? TRACERD_OK : TRACERD_WRITE;
    if (!S_ISSOCK(about.st_mode) || is_live(address))
        return TRACERD_EXISTS;
    return unlinkat(d->folder, d->name, 0) ? TRACERD_WRITE : TRACERD_OK;
}

/* Gives the socket its name: from the first moment on it is the user's alone. The folder is held. */
static tracerd_status bind_held(door *d, const struct sockaddr_un *address) {
    tracerd_status status = make_way(d, address);
    if (status)
        return status;
    if (fchmod(d->socket, 0600))
        return TRACERD_WRITE;
    if (bind(d->socket, (const struct sockaddr *)address, sizeof *address))
        return errno == EADDRINUSE ? TRACERD_EXISTS : TRACERD_WRITE; /* by what heeds no lock */
    if (!listen(d->socket, WAITING) && !identify_name(d->folder, d->name, &d->id))
        return TRACERD_OK;
    (void)unlinkat(d->folder, d->name, 0);
    return TRACERD_WRITE;
}

static tracerd_status open_in_folder(door *d, const char *path) {
    struct sockaddr_un address = {.sun_family = AF_UNIX};
    strcpy(address.sun_path, path);
    d->socket = make_socket();
    if (d->socket < 0)
        return TRACERD_WRITE;
    tracerd_status status = TRACERD_WRITE;
    if (!hold_folder(d->folder)) {
        status = bind_held(d, &address);
        (void)flock(d->folder, LOCK_UN);
    }
    if (status)
        close_quietly(d->socket);
    return status;
}

tracerd_status open_door(door *d, const char *path) {
    if (strlen(path) >= SOCKET_PATH) {
        errno = ENAMETOOLONG;
        return TRACERD_WRITE;
    }
    d->folder = open_above(path, d->name, sizeof d->name); /* (an empty path would be no folder's name, and open to all) */
    if (d->folder < 0)
        return TRACERD_WRITE;
    tracerd_status status = open_in_folder(d, path);
    if (status)
        close_quietly(d->folder);
    return status;
}

void shut_door(const door *d) { (void)shutdown(d->socket, SHUT_RDWR); }

void remove_door(door *d) {
    file_id found;
    bool is_held = !hold_folder(d->folder);
    if (!identify_name(d->folder, d->name, &found) && is_same_file(&found, &d->id))
        (void)unlinkat(d->folder, d->name, 0);
    if (is_held)
        (void)flock(d->folder, LOCK_UN);
    close_quietly(d->socket);
    close_quietly(d->folder);
}

/* ---- Who comes in ---- */

bool wait_at(const door *d, int descriptor, short what, int milliseconds) {
    struct pollfd at[] = {{descriptor, what, 0}, {d->socket, 0, 0}};
    int ready;
    do {
        ready = poll(at, 2, milliseconds);
    } while (ready < 0 && errno == EINTR);
    return ready > 0 && at[0].revents && !(at[1].revents & POLLHUP);
}

/* Whether a client is of the program's own user, or the superuser. */
static bool is_of_own_user(int client) {
    struct ucred who;
    socklen_t size = sizeof who;
    return !getsockopt(client, SOL_SOCKET, SO_PEERCRED, &who, &size) && (who.uid == geteuid() || who.uid == 0);
}

int let_in(const door *d) {
    int client = accept4(d->socket, NULL, NULL, SOCK_NONBLOCK | SOCK_CLOEXEC);
    if (client < 0)
        (void)poll(NULL, 0, PAUSE); /* descriptors may be lacking for a while */
    if (client < 0 || is_of_own_user(client))
        return client;
    hang_up(client);
    return -1;
}

void hang_up(int client) {
    (void)shutdown(client, SHUT_RDWR);
    close_quietly(client);
}
