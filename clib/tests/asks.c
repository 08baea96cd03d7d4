/* What a live session is asked by tracerd-ask, each answer worked by hand from README.md and docs/FORMATS.md; and what is written
 * for it.
 *
 *     asks DIR ASK [watched]     a folder that is there, in which files are written, and the program tracerd-ask */
#include "asking.h"

#define FIRST "19700101T000000+0000-19700101T000000+0000-0"
#define HEADS "stream     offered   discarded overwritten     in-ring   in-chunks\n"

/* The tour's example: of six offers the fifth is discarded, and one sub-buffer is taken. */
static void offers_as_readme(void) {
    uint64_t packets;
    for (uint64_t moment = 1; moment <= 5; moment++) offers(moment, 50);
    offers(6, 4);
    answers(OK, tracerd_drain(session, &packets));
    is(packets == 1);
}

/* ---- Each word ---- */

static void answers_of_a_local_session(void) {
    opens(TRACERD_LOCAL);
    listens(below("local"));
    says("status s", "session s local new channels 1 streams 1 archives 0\n" HEADS
                     "     0           0           0           0           0           0\n");
    says("archives s", "none\n");
    refuses("rotate s 5", "refused S3 NeverStarted\n");
    says("start s 0", "started\n");
    refuses("start s 1", "refused S6 AlreadyActive\n");
    offers_as_readme();
    says("status s", "session s local active channels 1 streams 1 archives 0\n" HEADS
                     "     0           6           1           0           3           2\n");
    says("rotate s 10", "archived 0 " FIRST "\n");
    is(is_below("local/s/archives/" FIRST "/metadata") && is_below("local/s/archives/" FIRST "/c_0"));
    says("archives s", "0 " FIRST " packets 2 bytes 484\n");
    says("fate s 0 3", "in chunk 0 1\n");
    says("fate s 0 4", "discarded\n");
    says("fate s 0 6", "not offered\n");
    refuses("fate s 1 0", "refused S8 NoStream\n");
    refuses("fate s 18446744073709551615 0", "refused S8 NoStream\n");
    offers(11, 50);
    says("fate s 0 6", "in ring 2\n");
    says("clear s", "cleared 1\n");
    says("fate s 0 6", "cleared 2\n");
    says("status s", "session s local active channels 1 streams 1 archives 1 cleared 1\n" HEADS
                     "     0           7           1           0           0           5\n");
    says("release s 0", "released 0\n");
    refuses("release s 0", "refused S19 Released\n");
    refuses("release s 1", "refused S18 NoArchive\n");
    refuses("release s now", "bad line\n");
    says("archives s", "0 " FIRST " packets 2 bytes 484 released\n");
    answers(OK, tracerd_forget(session, 1));
    says("archives s", "none\n");
    says("fate s 0 3", "forgotten\n");
    says("fate s 0 6", "cleared 2\n");
    refuses("release s 0", "refused S19 Released\n");
    says("schedule s --every 5 --size=7", "schedule set\n");
    says("schedule s", "schedule off\n");
    says("schedule s --every 18446744073709551615", "schedule set\n");
    refuses("schedule s --every 0", "refused D1 ZeroPeriod\n");
    refuses("schedule s --size 0", "refused D2 ZeroSize\n");
    refuses("snapshot s 9", "refused S2 NotSnapshotMode\n");
    says("stop s", "stopped\n");
    refuses("stop s", "refused S7 NotActive\n");
    closes();
}

static void answers_of_a_snapshot_session(void) {
    static const char folder[] = "shown/snapshot-9/s/archives/" FIRST;
    char path[200];
    opens(TRACERD_SNAPSHOT);
    listens(below("shown"));
    refuses("snapshot s 1", "refused S3 NeverStarted\n");
    says("start s 0", "started\n");
    for (uint64_t moment = 1; moment <= 7; moment++) offers(moment, 50);
    says("fate s 0 1", "overwritten\n");
    says("snapshot s 9", "snapshot 9\nstream 0 offered 7 packets 2 records 3\n"
                         "packet 2 records 2 first 4 last 5\npacket 3 records 1 first 6 last 6\n");
    snprintf(path, sizeof path, "%s/c_0", folder);
    struct stat about;
    is(!stat(below(path), &about) && about.st_size == 2 * 80 + 3 * (24 + 50));
    refuses("rotate s 9", "refused S1 SnapshotMode\n");
    refuses("clear s", "refused S1 SnapshotMode\n");
    is(asks((const char *const[]){"snapshot s now", NULL}) == 0);
    is(strtoull(said + strlen("snapshot "), NULL, 10) > 1600000000000000000 && !strncmp(strchr(said, '\n'), "\nstream 0 ", 10));
    closes();
}

static void takes_lines_as_scripts_do(void) {
    opens(TRACERD_LOCAL);
    listens(NULL);
    refuses("status t", "refused K1 NoSession\n");
    refuses("status", "bad line\n");
    refuses("status s s", "bad line\n");
    refuses("status\ts", "bad line\n");
    refuses("start s 9000000000000000001", "bad line\n");
    refuses("nonsense", "bad line\n");
    refuses("offer s 0 1 7 --fill 50", "refused K4 ScriptOnly\n");
    refuses("create t 00000000-0000-0000-0000-000000000001", "refused K4 ScriptOnly\n");
    refuses("offer s 0 1", "bad line\n");
    refuses("# status s", "");
    refuses("", "");
    says("  start   s  --  1  ", "started\n");
    is(asks((const char *const[]){"# two", "stop s", "", "status now", "start s now", "stop s", NULL}) == 1);
    is(!strcmp(said, "stopped\nrefused K1 NoSession\nstarted\nstopped\n"));
    tracerd_about about = {0};
    answers(OK, tracerd_about_of(session, &about));
    is(about.last > 1600000000000000000 && about.last <= tracerd_now_of(session));
    closes();
}

/* `now` is a moment only where one may be. */
static void knows_a_session_called_now(void) {
    answers(OK, tracerd_new(&session, "now", ONE, 0, TRACERD_LOCAL));
    listens(NULL);
    says("archives now", "none\n");
    says("start now now", "started\n");
    says("stop  now", "stopped\n");
    refuses("release now now", "bad line\n");
    refuses("start now 1 now", "bad line\n");
    closes();
}

/* A line without its newline is one too, and what comes together is answered in order. */
static void takes_lines_however_they_come(void) {
    opens(TRACERD_LOCAL);
    listens(NULL);
    int it = enters();
    is(sends(it, "sto", 3));
    nanosleep(&(struct timespec){0, 50000000}, NULL);
    static const char rest[] = "p s\nstart s 1\nstop s\narchives s";
    is(sends(it, rest, strlen(rest)) && !shutdown(it, SHUT_WR));
    is(reads(it) > 0 && !strcmp(said, "refused S7 NotActive\nstarted\nstopped\nnone\n"));
    closes();
}

/* An answer of many lines that finds the disk full, where it is printed. */
static void fails_if_nothing_is_printed(void) {
    const char *const lines[] = {"status s", NULL};
    tracerd_producer *more;
    opens(TRACERD_LOCAL);
    for (int i = 0; i < 200; i++) answers(OK, tracerd_producer_new(session, "c", &more));
    listens(NULL);
    int full = open("/dev/full", O_WRONLY | O_CLOEXEC);
    is(full >= 0 && exits_with(starts_asking(lines, full)) == 2);
    is(!close(full) && asks(lines) == 0 && strlen(said) > 8192);
    closes();
}

/* ---- What is written ---- */

static void writes_nothing_without_a_folder(void) {
    opens(TRACERD_LOCAL);
    listens(NULL);
    says("start s 0", "started\n");
    offers(1, 50);
    says("rotate s 10", "archived 0 " FIRST "\n");
    is(!is_below("s") && !is_below("snapshot-9"));
    answers(OK, tracerd_write(session, 0, below("later")));
    closes();
    opens(TRACERD_SNAPSHOT);
    listens(NULL);
    says("start s 0", "started\n");
    offers(1, 50);
    says("snapshot s 9", "snapshot 9\nstream 0 offered 1 packets 1 records 1\npacket 0 records 1 first 0 last 0\n");
    is(!is_below("snapshot-9"));
    closes();
}

/* What can't be written is said, and stays in memory. */
static void says_what_is_not_written(tracerd_kind kind, const char *line, const char *wanted) {
    opens(kind);
    listens(below("taken"));
    says("start s 0", "started\n");
    offers(1, 50);
    is(!rmdir(below("taken")));
    FILE *file = fopen(below("taken"), "w");
    is(file && !fclose(file));
    refuses(line, wanted);
    is(!unlink(below("taken")));
    if (kind == TRACERD_LOCAL) answers(OK, tracerd_write(session, 0, below("kept")));
    closes();
}

static void says_what_a_rotation_has_not_written(void) {
    says_what_is_not_written(TRACERD_LOCAL, "rotate s 10", "archived 0 " FIRST "\nnot written Write 20\n");
}

static void says_what_a_snapshot_has_not_written(void) {
    says_what_is_not_written(TRACERD_SNAPSHOT, "snapshot s 10", "snapshot 10\nnot written Write 20\n");
}

/* The folder is the one that was meant, wherever the program goes. */
static void keeps_its_folder(void) {
    char here[4096];
    is(getcwd(here, sizeof here) && !chdir(dir));
    opens(TRACERD_LOCAL);
    answers(OK, tracerd_listen(&listener, session, "s.socket", "relative"));
    is(!chdir("/"));
    says("start s 0", "started\n");
    says("rotate s 10", "archived 0 " FIRST "\n");
    is(!chdir(here) && is_below("relative/s/archives/" FIRST "/metadata"));
    closes();
    is(!is_below("s.socket"));
}

/* What a keeper was quicker to write isn't written again, and is no fault. */
static void leaves_archives_to_a_keeper(void) {
    tracerd_keeper *keeper;
    opens(TRACERD_LOCAL);
    answers(OK, tracerd_start(session, tracerd_now_of(session)));
    answers(OK, tracerd_keeper_start(&keeper, session, below("keeper"), TRACERD_NEVER, TRACERD_NEVER, TRACERD_NEVER));
    listens(below("beside"));
    for (int i = 0; i < 20 && !wrong; i++) {
        is(asks((const char *const[]){"rotate s now", "status s", NULL}) == 0);
        is(!strncmp(said, "archived ", 9) && !strstr(said, "not written"));
    }
    answers(OK, tracerd_keeper_stop(keeper));
    closes();
}

int main(int count, char **words) {
    void (*const tests[])(void) = {answers_of_a_local_session,
                                   answers_of_a_snapshot_session,
                                   takes_lines_as_scripts_do,
                                   knows_a_session_called_now,
                                   takes_lines_however_they_come,
                                   fails_if_nothing_is_printed,
                                   writes_nothing_without_a_folder,
                                   says_what_a_rotation_has_not_written,
                                   says_what_a_snapshot_has_not_written,
                                   keeps_its_folder,
                                   leaves_archives_to_a_keeper};
    if (count != 3 && count != 4) return 2;
    dir = words[1];
    ask_program = words[2];
    alarm(100);
    for (size_t k = 0; k < sizeof tests / sizeof *tests; k++) {
        tests[k]();
        counts_as_one();
    }
    return closing();
}
