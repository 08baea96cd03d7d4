/* Keepers: what is on disk and in memory while one runs, also on a disk that is full, read-only or gone for a while.
 *
 *     keepers DIR [without-children]     a folder that is there, in which files are written */
#include "reading.h"
#include "keeping.h"
#include <errno.h>
#include <signal.h>
#include <sys/resource.h>
#include <sys/wait.h>

/* It has the last archives, each there before the one goes that it replaces (is_replaced), and nothing else. */
static void keeps_the_last(void) {
    tracerd_keeping k;
    begins(below("last"), TRACERD_NEVER, 2000, 2);
    most_kept = 2;
    offers_until_written(6);
    most_kept = 0;
    is(deletions > 0 && too_early == 0);
    state(&k);
    is(k.refused == 0 && k.last == TRACERD_OK && k.moment == 0 && k.error == 0 && k.written >= k.deleted + 2);
    ends(TRACERD_OK);
    uint64_t archives = count_archives();
    is(archives > 6 && names_below(archives_folder()) == 2);
    is(is_there(archives - 1) && is_there(archives - 2) && !is_there(archives - 3));
    is(is_released(archives - 1));
    is(how_many_are_forgotten() == archives - 2);
    tracerd_free(session);
}

/* What is offered is in archives or discarded, and each record that isn't discarded is on disk, once. */
static void is_all_there(void) {
    tracerd_counts c;
    answers(OK, tracerd_counts_sum(session, &c));
    is(c.offered == offered && c.offered == c.discarded + c.in_chunks && records_below(archives_folder()) == c.in_chunks);
}

static void keeps_all(void) {
    tracerd_keeping k;
    begins(below("all"), 20000000, TRACERD_NEVER, TRACERD_NEVER);
    offers_until_written(3);
    uint64_t own;
    answers(OK, tracerd_rotate(session, tracerd_now_of(session), &own)); /* of which nobody tells the keeper */
    offers_until_written(5);
    state(&k);
    is(k.deleted == 0 && k.refused == 0);
    ends(TRACERD_OK);
    is_all_there();
    is(names_below(archives_folder()) == count_archives());
    tracerd_free(session);
}

/* Each has a folder of its own, whose name says when it began: of two in one second the later has a number. */
static void has_a_folder_of_its_own(void) {
    char first[4096], second[4096];
    int number = 0;
    begins(below("runs"), TRACERD_NEVER, TRACERD_NEVER, 1);
    strcpy(first, tracerd_keeper_folder(keeper));
    ends(TRACERD_OK);
    is(count_archives() == 1 && is_there(0));
    for (int k = 0; k < 50 && !number; k++) {
        answers(OK, tracerd_keeper_start(&keeper, session, below("runs"), TRACERD_NEVER, TRACERD_NEVER, 1));
        strcpy(second, tracerd_keeper_folder(keeper));
        ends(TRACERD_OK);
        is(strcmp(first, second));
        (void)sscanf(strrchr(second, '/'), "/s-%*8[0-9]T%*6[0-9]+0000-%d", &number);
    }
    is(number == 1);
    char shape[40];
    is(sscanf(strrchr(first, '/'), "/s-%8[0-9]T%*6[0-9]+0000", shape) == 1 && strlen(strrchr(first, '/')) == 3 + 20);
    is(first[0] == '/' && !strncmp(first, second, strlen(first) - 20));
    tracerd_free(session);
}

/* ---- What goes wrong ---- */

/* While three archives can't be written no more are made: then the ring is full. */
static void fills_memory(void) {
    tracerd_keeping k;
    tracerd_counts c = {0};
    for (int i = 0; i < 200000 && !c.discarded; i++) {
        offers(1);
        if (i % 100 == 0) nap();
        answers(OK, tracerd_counts_sum(session, &c));
    }
    is(c.discarded > 0);
    state(&k);
    uint64_t waiting = k.waiting;
    is(waiting == 3);
    offers(1000);
    for (int i = 0; i < 30; i++) nap();
    state(&k);
    is(k.waiting == 3);
}

static void waits_for_a_full_disk(void) {
    struct rlimit before, small;
    begins(below("full"), TRACERD_NEVER, 2000, TRACERD_NEVER);
    offers_until_written(2);
    signal(SIGXFSZ, SIG_IGN);
    is(!getrlimit(RLIMIT_FSIZE, &before));
    small = before;
    small.rlim_cur = 100;
    is(!setrlimit(RLIMIT_FSIZE, &small));
    fills_memory();
    waits_for_refusal(EFBIG, EFBIG);
    is(!setrlimit(RLIMIT_FSIZE, &before));
    offers_until_written(8);
    ends(TRACERD_OK);
    is_all_there();
    tracerd_free(session);
}

/* What isn't on disk in the end is still in memory, and the program may write it elsewhere. */
static void says_what_is_left(void) {
    struct rlimit before, small;
    begins(below("left"), TRACERD_NEVER, TRACERD_NEVER, 1);
    offers(10);
    is(!getrlimit(RLIMIT_FSIZE, &before));
    small = before;
    small.rlim_cur = 100;
    is(!setrlimit(RLIMIT_FSIZE, &small));
    errno = 0;
    ends(TRACERD_WRITE);
    is(errno == EFBIG);
    is(!setrlimit(RLIMIT_FSIZE, &before));
    is(count_archives() == 1 && !is_there(0) && !is_released(0));
    answers(OK, tracerd_write(session, 0, run_folder));
    is_all_there();
    tracerd_free(session);
}

static void waits_for_a_read_only_folder(void) {
    if (heeds_modes(below("guarded"))) {
        is(!chmod(below("guarded"), 0755));
        begins(below("guarded"), TRACERD_NEVER, 2000, TRACERD_NEVER);
        offers_until_written(2);
        is(!chmod(archives_folder(), 0555));
        fills_memory();
        waits_for_refusal(EACCES, EACCES);
        is(!chmod(archives_folder(), 0755));
        offers_until_written(8);
        ends(TRACERD_OK);
        is_all_there();
        tracerd_free(session);
    }
    (void)overrides_modes(true);
}

/* What was removed under it is gone, and all that comes later is there. */
static void goes_on_without_its_folder(void) {
    tracerd_counts c;
    begins(below("removed"), TRACERD_NEVER, 2000, 3);
    offers_until_written(2);
    is(!rename(run_folder, below("taken")));
    offers_until_written(8);
    ends(TRACERD_OK);
    answers(OK, tracerd_counts_sum(session, &c));
    is(c.offered == offered && c.in_chunks == c.offered - c.discarded);
    is(names_below(archives_folder()) == 3 && is_there(count_archives() - 1));
    char taken[4200];
    snprintf(taken, sizeof taken, "%s/s/archives", below("taken"));
    is(names_below(taken) >= 2);
    tracerd_free(session);
}

/* ---- What isn't its own ---- */

static void leaves_others_files(void) {
    char note[5000];
    begins(below("noted"), TRACERD_NEVER, 2000, 2);
    offers_until_written(1);
    writes_file(in_archive(0, "note"), "mine");
    offers_until_written(8);
    waits_for_refusal(ENOTEMPTY, EEXIST);
    ends(TRACERD_OK);
    snprintf(note, sizeof note, "%s/.%s.part/note", archives_folder(), name_of(0));
    is(has_file(note, "mine"));
    is(!is_there(0) && !is_there(1) && names_below(archives_folder()) == 3);
    tracerd_free(session);
}

/* A link in the place of an archive is left, and what it leads to. It's tried again once it is gone. */
static void follows_no_link(void) {
    char saved[4200], one[4600];
    begins(below("linked"), TRACERD_NEVER, 2000, 2);
    offers_until_written(1);
    snprintf(saved, sizeof saved, "%s", below("saved"));
    snprintf(one, sizeof one, "%s", in_archive(0, ""));
    is(!rename(one, saved) && !symlink(saved, one));
    offers_until_written(5);
    waits_for_refusal(ELOOP, ENOTDIR);
    is(names_below(saved) == 2 && is_there(1));
    is(!unlink(one));
    offers_until_written(8);
    ends(TRACERD_OK);
    is(names_below(saved) == 2 && names_below(archives_folder()) == 2);
    tracerd_free(session);
}

/* ---- Calls ---- */

static void refuses(void) {
    tracerd_session *shown;
    tracerd_keeper *other = NULL;
    tracerd_counts c;
    uint64_t stream;
    answers(OK, tracerd_new(&shown, "shown", NULL, 0, TRACERD_SNAPSHOT));
    answers(SNAPSHOT_MODE, tracerd_keeper_start(&other, shown, below("no"), 1, 1, 1));
    tracerd_free(shown);
    opens();
    answers(ZERO_PERIOD, tracerd_keeper_start(&other, session, below("no"), 0, 1, 1));
    answers(ZERO_SIZE, tracerd_keeper_start(&other, session, below("no"), 1, 0, 1));
    answers(ZERO_SIZE, tracerd_keeper_start(&other, session, below("no"), 1, 1, 0));
    is(access(below("no"), F_OK));
    writes_file(below("file"), "a file");
    errno = 0;
    answers(WRITE, tracerd_keeper_start(&other, session, below("file"), 1, 1, 1));
    is(errno == ENOTDIR || errno == EEXIST);
    answers(WRITE, tracerd_keeper_start(&other, session, "", 1, 1, 1));
    is(errno == ENOENT && !other);
    answers(OK, tracerd_drainer_start(session, 1000000));
    answers(DRAINING, tracerd_keeper_start(&other, session, below("no"), 1, 1, 1));
    answers(OK, tracerd_drainer_stop(session));
    answers(OK, tracerd_keeper_start(&keeper, session, below("one"), TRACERD_NEVER, TRACERD_NEVER, 1));
    answers(DRAINING, tracerd_keeper_start(&other, session, below("no"), 1, 1, 1));
    answers(DRAINING, tracerd_drainer_start(session, 1000000));
    answers(NOT_DRAINING, tracerd_drainer_stop(session));
    answers(DRAINING, tracerd_settle(session, &c, &stream));
    is(!other && access(below("no"), F_OK));
    ends(TRACERD_OK);
    answers(OK, tracerd_drainer_start(session, 1000000));
    tracerd_free(session);
}

/* It may begin before its session does. */
static void waits_for_the_start(void) {
    tracerd_keeping k;
    answers(OK, tracerd_new(&session, "s", ONE, 0, TRACERD_LOCAL));
    answers(OK, tracerd_keeper_start(&keeper, session, below("early"), 1, 1, 1));
    for (int i = 0; i < 30; i++) nap();
    state(&k);
    is(!k.refused && !k.written && !k.waiting);
    ends(TRACERD_OK);
    is(!count_archives());
    tracerd_free(session);
}

/* The session's end has the last round too. */
static void ends_with_its_session(void) {
    begins(below("freed"), TRACERD_NEVER, TRACERD_NEVER, 1);
    offers(10);
    tracerd_free(session);
    is(names_below(archives_folder()) == 1 && records_below(archives_folder()) == 10);
}

static void is_closed_in_a_child(void) {
    int status = 99;
    tracerd_keeping k;
    begins(below("forked"), TRACERD_NEVER, TRACERD_NEVER, 1);
    fflush(stdout);
    pid_t it = fork();
    if (!it) {
        alarm(10);
        answers(CLOSED, tracerd_keeper_state(keeper, &k));
        answers(CLOSED, tracerd_keeper_stop(keeper));
        answers(CLOSED, tracerd_keeper_start(&keeper, session, below("forked"), 1, 1, 1));
        is(!*tracerd_keeper_folder(keeper));
        tracerd_free(session);
        fflush(stdout);
        _exit(wrong != 0);
    }
    is(it > 0 && waitpid(it, &status, 0) == it && status == 0);
    ends(TRACERD_OK);
    tracerd_free(session);
}

int main(int count, char **words) {
    void (*const tests[])(void) = {keeps_the_last,
                                   keeps_all,
                                   has_a_folder_of_its_own,
                                   waits_for_a_full_disk,
                                   says_what_is_left,
                                   waits_for_a_read_only_folder,
                                   goes_on_without_its_folder,
                                   leaves_others_files,
                                   follows_no_link,
                                   refuses,
                                   waits_for_the_start,
                                   ends_with_its_session,
                                   is_closed_in_a_child};
    if (count != 2 && count != 3) return 2;
    dir = words[1];
    alarm(100); /* a keeper may not come to its end */
    for (size_t k = 0; k < sizeof tests / sizeof *tests - (count == 3); k++) {
        tests[k]();
        counts_as_one();
    }
    return closing();
}
