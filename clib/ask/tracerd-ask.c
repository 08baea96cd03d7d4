/* Asks a program that records itself, as a shell (tracerd_listen):
 *
 *     tracerd-ask PATH LINE ..    as in: tracerd-ask /run/user/1000/app 'rotate app now' 'status app'
 *
 * Prints the answers. Exits with 0 if all was done, 1 if a line was refused, bad or not done whole, or got no answer, and 2 if
 * nobody answers at PATH, the answers can't be printed, or no line is given. */
#define _GNU_SOURCE
#include <errno.h>
#include <poll.h>
#include <stdbool.h>
#include <stdio.h>
#include <stdlib.h>
#include <string.h>
#include <sys/socket.h>
#include <sys/un.h>
#include <unistd.h>

enum { PATIENCE = 60000 }; /* milliseconds without a word: a rotation may write for long */

/* Says why there is no answer. */
static int fail(const char *what) {
    fprintf(stderr, "tracerd-ask: %s: %s\n", what, strerror(errno));
    return 2;
}

/* ---- What is asked ---- */

/* The lines, each with its newline; NULL without memory. */
static char *join(char **lines, size_t *size) {
    *size = 0;
    for (char **line = lines; *line; line++)
        *size += strlen(*line) + 1;
    char *joined = malloc(*size + 1), *at = joined;
    for (; joined && *lines; lines++)
        at += sprintf(at, "%s\n", *lines);
    return joined;
}

static int connect_to(const char *path) {
    struct sockaddr_un address = {.sun_family = AF_UNIX};
    if (strlen(path) >= sizeof address.sun_path) {
        errno = ENAMETOOLONG;
        return -1;
    }
    strcpy(address.sun_path, path);
    int made = socket(AF_UNIX, SOCK_STREAM | SOCK_CLOEXEC, 0);
    if (made >= 0 && connect(made, (const struct sockaddr *)&address, sizeof address)) {
        int why = errno;
        close(made);
        errno = why;
        return -1;
    }
    return made;
}

/* ---- What is answered ---- */

/* What was said of lines so far: whether each was done. */
typedef struct {
    char begun[16]; /* the first bytes of the line that is coming */
    size_t size;
    bool is_any, is_done;
} judged;

static bool begins(const judged *it, const char *with) { return !strncmp(it->begun, with, strlen(with)); }

/* Judges the next bytes of the answers. */
static void judge(judged *it, const char *bytes, size_t size) {
    it->is_any |= size != 0;
    for (size_t i = 0; i < size; i++) {
        if (bytes[i] != '\n') {
            if (it->size < sizeof it->begun - 1)
                it->begun[it->size++] = bytes[i];
            continue;
        }
        it->begun[it->size] = 0;
        it->size = 0;
        if (begins(it, "refused ") || begins(it, "not written ") || !strcmp(it->begun, "bad line"))
            it->is_done = false;
    }
}

/* Sends what it may of what is left, and after that says that there is no more. */
static void send_more(int to, const char **left, size_t *size, judged *it) {
    ssize_t sent = send(to, *left, *size, MSG_NOSIGNAL | MSG_DONTWAIT);
    if (sent < 0 && errno != EAGAIN && errno != EINTR) {
        *size = 0; /* it was hung up on, and may say why */
        it->is_done = false;
    }
    if (sent > 0) {
        *left += sent;
        *size -= (size_t)sent;
    }
    if (!*size)
        (void)shutdown(to, SHUT_WR);
}

/* Prints the next bytes of the answers. Whether there may be more. */
static bool print_more(int from, judged *it) {
    char bytes[16384];
    ssize_t got = recv(from, bytes, sizeof bytes, MSG_DONTWAIT);
    if (got < 0 && (errno == EAGAIN || errno == EINTR))
        return true;
    it->is_done &= got >= 0;
    if (got <= 0)
        return false;
    judge(it, bytes, (size_t)got);
    return fwrite(bytes, 1, (size_t)got, stdout) == (size_t)got;
}

/* Asks, and prints what is answered: the exit status. */
static int talk(int with, const char *lines, size_t size) {
    judged it = {.is_done = true};
    bool is_open = true;
    while (is_open) {
        struct pollfd at = {with, (short)(POLLIN | (size ? POLLOUT : 0)), 0};
        int ready = poll(&at, 1, PATIENCE);
        if (ready == 0)
            errno = ETIMEDOUT;
        if (ready == 0 || (ready < 0 && errno != EINTR))
            return fail("no answer");
        if (size && at.revents & (POLLOUT | POLLHUP | POLLERR))
            send_more(with, &lines, &size, &it);
        if (at.revents & (POLLIN | POLLHUP | POLLERR))
            is_open = print_more(with, &it);
    }
    if (fflush(stdout) || ferror(stdout))
        return fail("standard output");
    return it.is_any && it.is_done && !it.size && !size ? 0 : 1;
}

int main(int count, char **words) {
    size_t size;
    if (count < 3) {
        fputs("usage: tracerd-ask PATH LINE ..\n", stderr);
        return 2;
    }
    char *lines = join(words + 2, &size);
    if (!lines)
        return fail("memory");
    int with = connect_to(words[1]);
    int status = with < 0 ? fail(words[1]) : talk(with, lines, size);
    free(lines);
    return status;
}
