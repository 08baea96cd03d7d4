/* Who is let in to a listener, and for how long; and whose socket is where.
 *
 *     doors DIR ASK [watched]     a folder that is there, and the program tracerd-ask; `watched` if a tool looks into children */
#include "asking.h"

enum { NOBODY = 65534 };

static uint64_t inode_of(const char *path) {
    struct stat about;
    return lstat(path, &about) ? 0 : about.st_ino;
}

/* ---- The socket ---- */

static void has_a_socket_of_its_own(void) {
    tracerd_listener *other = NULL;
    mode_t before = umask(0);
    opens_a_door();
    umask(before);
    is(mode_of(door()) == (S_IFSOCK | 0600));
    answers(LISTENING, tracerd_listen(&other, session, below("other.socket"), NULL));
    is(!other && !mode_of(below("other.socket")));
    closes();
    is(!mode_of(door()));
    opens_a_door();
    tracerd_free(session); /* which ends it too */
    is(!mode_of(door()));
}

/* Refuses a path, and leaves what is there as it is. */
static void refuses_the_path(void) {
    tracerd_session *second;
    tracerd_listener *other = NULL;
    uint64_t inode = inode_of(door());
    answers(OK, tracerd_new(&second, "t", NULL, 0, TRACERD_LOCAL));
    answers(EXISTS, tracerd_listen(&other, second, door(), NULL));
    is(!other && inode && inode_of(door()) == inode);
    tracerd_free(second);
}

static void leaves_what_is_no_dead_socket(void) {
    char found[8] = "";
    opens_a_door();
    refuses_the_path();
    refuses("stop t", "refused K1 NoSession\n"); /* by the first one, which still answers */
    closes();
    FILE *file = fopen(door(), "w");
    is(file && fputs("mine", file) >= 0 && !fclose(file));
    refuses_the_path();
    file = fopen(door(), "r");
    is(file && fgets(found, sizeof found, file) && !strcmp(found, "mine") && !fclose(file));
    is(!unlink(door()) && !symlink("nowhere", door()));
    refuses_the_path();
    is(!unlink(door()) && !mkdir(door(), 0700));
    refuses_the_path();
    is(!rmdir(door()));
}

/* A program that was killed leaves its socket, also if a child that it forked lives on. */
static void replaces_a_dead_socket(bool has_child) {
    int pipes[2];
    pid_t orphan = 0;
    is(!pipe(pipes));
    fflush(stdout);
    pid_t it = fork();
    if (!it) {
        opens_a_door();
        orphan = has_child ? fork() : 0;
        if (has_child && !orphan)
            for (;;) pause();
        (void)!write(pipes[1], &orphan, sizeof orphan);
        for (;;) pause();
    }
    is(read(pipes[0], &orphan, sizeof orphan) == sizeof orphan);
    refuses_the_path();
    is(!kill(it, SIGKILL) && waitpid(it, NULL, 0) == it && mode_of(door()));
    opens_a_door();
    says("archives s", "none\n");
    closes();
    if (orphan) kill(orphan, SIGKILL);
    close(pipes[0]);
    close(pipes[1]);
}

static void replaces_that_of_a_dead_program(void) { replaces_a_dead_socket(false); }
static void replaces_that_of_a_dead_parent(void) { replaces_a_dead_socket(true); }

/* Another program's socket, which has the path since, stays. */
static void removes_its_own_alone(void) {
    opens_a_door();
    is(!rename(door(), below("moved.socket")));
    FILE *file = fopen(door(), "w");
    is(file && !fclose(file));
    closes();
    is(S_ISREG(mode_of(door())) && S_ISSOCK(mode_of(below("moved.socket"))));
    is(!unlink(door()) && !unlink(below("moved.socket")));
}

static void refuses_what_is_no_path(void) {
    char path[200];
    tracerd_listener *other = NULL;
    opens(TRACERD_LOCAL);
    memset(path, 'a', sizeof path);
    path[108] = 0;
    answers(WRITE, tracerd_listen(&other, session, path, NULL));
    is(errno == ENAMETOOLONG);
    answers(WRITE, tracerd_listen(&other, session, "", NULL));
    is(errno == ENOENT);
    answers(WRITE, tracerd_listen(&other, session, below(""), NULL));
    is(errno == ENOENT);
    answers(WRITE, tracerd_listen(&other, session, below("missing/s.socket"), NULL));
    is(errno == ENOENT);
    FILE *file = fopen(below("file"), "w");
    is(file && !fclose(file));
    answers(WRITE, tracerd_listen(&other, session, door(), below("file")));
    is(errno == ENOTDIR && !other && !mode_of(door()));
    listens(NULL);
    closes();
}

/* ---- Who is let in ---- */

/* Has a child be another user's, in the folder, since that user may not find it from above. */
static void becomes_nobody(void) {
    if (chdir(dir) || setgid(NOBODY) || setuid(NOBODY)) _exit(9);
    dir = ".";
}

static void hangs_up_on_others(void) {
    int status = 0;
    if (getuid()) {
        printf("skipped: another user's client, for want of a superuser\n");
        return;
    }
    opens_a_door();
    is(!chmod(dir, 0755) && !chmod(door(), 0666)); /* so that the socket's mode keeps nobody out */
    fflush(stdout);
    pid_t it = fork();
    if (!it) {
        becomes_nobody();
        int by = enters();
        (void)sends(by, "status s\n", 9);
        _exit(by < 0 ? 8 : reads(by) != 0 ? 7 : 0);
    }
    is(it > 0 && waitpid(it, &status, 0) == it && status == 0);
    is(!chmod(door(), 0600));
    fflush(stdout);
    it = fork();
    if (!it) {
        becomes_nobody();
        _exit(enters() >= 0 || errno != EACCES);
    }
    is(it > 0 && waitpid(it, &status, 0) == it && status == 0);
    says("archives s", "none\n");
    closes();
}

static void hangs_up_on_long_lines(void) {
    char line[5001];
    memset(line, ' ', sizeof line);
    memcpy(line, "archives s", 10);
    opens_a_door();
    int it = enters();
    line[4096] = '\n';
    is(sends(it, line, 4097) && !shutdown(it, SHUT_WR) && reads(it) == 5 && !strcmp(said, "none\n"));
    it = enters();
    line[4096] = ' ';
    is(sends(it, line, 5000) && reads(it) == 9 && !strcmp(said, "bad line\n"));
    it = enters();
    line[4096] = ' ';
    line[4097] = '\n';
    is(sends(it, line, 4098) && reads(it) == 9 && !strcmp(said, "bad line\n"));
    says("archives s", "none\n");
    closes();
}

/* Who says nothing is hung up on after two seconds, and others come after. */
static void hangs_up_on_the_silent(void) {
    opens_a_door();
    uint64_t begun = milliseconds();
    int silent = enters(), begins = enters();
    is(silent >= 0 && sends(begins, "arch", 4));
    is(reads(silent) == 0);
    uint64_t first = milliseconds() - begun;
    is(reads(begins) == 0);
    uint64_t both = milliseconds() - begun;
    is(first >= 1900 && first < 3500 && both >= 3900 && both < 6000);
    says("archives s", "none\n");
    closes();
}

/* Who takes no answers is hung up on too. */
static void hangs_up_on_who_takes_nothing(void) {
    opens_a_door();
    uint64_t begun = milliseconds();
    int it = enters();
    while (send(it, "status s\nstatus s\nstatus s\n", 27, MSG_NOSIGNAL | MSG_DONTWAIT) > 0 || errno == EAGAIN) {
        if (milliseconds() - begun > 9000) break;
        nanosleep(&(struct timespec){0, 1000000}, NULL);
    }
    uint64_t ended = milliseconds() - begun;
    is(ended >= 1900 && ended < 8000);
    close(it);
    says("archives s", "none\n");
    closes();
}

int main(int count, char **words) {
    void (*const tests[])(void) = {has_a_socket_of_its_own,         leaves_what_is_no_dead_socket,
                                   replaces_that_of_a_dead_program, replaces_that_of_a_dead_parent,
                                   removes_its_own_alone,           refuses_what_is_no_path,
                                   hangs_up_on_long_lines,          hangs_up_on_the_silent,
                                   hangs_up_on_who_takes_nothing,   hangs_up_on_others};
    if (count != 3 && count != 4) return 2;
    dir = words[1];
    ask_program = words[2];
    alarm(100);
    for (size_t k = 0; k < sizeof tests / sizeof *tests - (count == 4); k++) {
        tests[k]();
        counts_as_one();
    }
    return closing();
}
