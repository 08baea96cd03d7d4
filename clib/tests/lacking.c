/* Lines of a shell of which each allocation fails in turn, alone or with all after it: each is answered as with memory, or
 * refused for want of it, or its client is hung up on; and in the end all is given back. A listener or a keeper without its
 * threads is none.
 *
 *     lacking DIR     a folder that is there */
#include "rationed.h"
#include "asking.h"

static const char shown[] = "snapshot 9\nstream 0 offered 1 packets 1 records 1\npacket 0 records 1 first 0 last 0\n";
static const char lines[] = "archives s\nfate s 0 0\nclear s\nschedule s --every=5\nrotate --a=b\nrelease s 0\nstop s\n";
static const char *const wanted[] = {"none\n",     "not offered\n",           "cleared 0\n", "schedule set\n",
                                     "bad line\n", "refused S18 NoArchive\n", "stopped\n"};

/* How many bytes of the first answer are this one, if they are. */
static size_t is_next(const char *at, const char *answer) { return strncmp(at, answer, strlen(answer)) ? 0 : strlen(answer); }

static void judges_answers(void) {
    const char *at = said;
    for (size_t k = 0; *at && k < sizeof wanted / sizeof *wanted; k++) {
        size_t size = is_next(at, "refused S16 NoMemory\n");
        at += size ? size : is_next(at, wanted[k]);
    }
    is(!*at && (refused || shrunk || strlen(said) == 79));
}

static void judges_a_snapshot(void) {
    bool is_whole = !strcmp(said, shown);
    is(is_whole || !strcmp(said, "refused S16 NoMemory\n") || !*said);
    is(is_whole || refused || shrunk);
}

/* Asks while the allocation of this number fails. */
static void asks_with_little(const char *asking, long first) {
    listens(NULL);
    asked = 0;
    fails_at = first;
    int it = enters();
    is(it >= 0 && sends(it, asking, strlen(asking)) && !shutdown(it, SHUT_WR) && reads(it) >= 0);
    fails_at = -1;
}

static void answers_lines(long first) {
    opens(TRACERD_LOCAL);
    answers(OK, tracerd_start(session, 0));
    asks_with_little(lines, first);
    judges_answers();
    closes();
}

static void answers_a_snapshot(long first) {
    opens(TRACERD_SNAPSHOT);
    answers(OK, tracerd_start(session, 0));
    offers(1, 50);
    asks_with_little("snapshot s 9\n", first);
    judges_a_snapshot();
    closes();
}

/* Has each allocation of this fail in turn, alone or with all after it. */
static void fails_each(void (*does)(long), long least) {
    for (int lasting = 0; lasting < 2; lasting++) {
        long first = 0;
        do {
            refused = shrunk = 0;
            is_lasting = lasting;
            does(first++);
            is(held == 0);
            counts_as_one();
        } while ((refused || shrunk) && !failed);
        is(first > least && !half_apart && !done_without);
        counts_as_one();
    }
}

/* A listener without its thread is none, and another one may be started. */
static void listens_with_a_thread(void) {
    opens(TRACERD_LOCAL);
    fails_to_create = true;
    answers(NO_MEMORY, tracerd_listen(&listener, session, door(), NULL));
    is(!mode_of(door()));
    fails_to_create = false;
    listens(NULL);
    closes();
    is(held == 0);
}

/* A keeper without one of its threads, or both, is none, and another one may be started. */
static void keeps_with_threads(void) {
    tracerd_session *s;
    tracerd_keeper *k = NULL;
    tracerd_producer *p;
    answers(OK, tracerd_new(&s, "a", ONE, 0, TRACERD_LOCAL));
    answers(OK, tracerd_channel(s, "c", 256, 2, TRACERD_DISCARD));
    answers(OK, tracerd_producer_new(s, "c", &p));
    for (int first = 0; first < 2; first++) {
        fails_to_create = true;
        made_first = first;
        answers(NO_MEMORY, tracerd_keeper_start(&k, s, dir, 1, 1, 1));
        fails_to_create = false;
        answers(NOT_DRAINING, tracerd_drainer_stop(s));
        is(!k);
    }
    answers(OK, tracerd_drainer_start(s, 1));
    answers(OK, tracerd_drainer_stop(s));
    answers(OK, tracerd_keeper_start(&k, s, dir, 1, 1, 1));
    answers(OK, tracerd_keeper_stop(k));
    tracerd_free(s);
    is(held == 0);
}

int main(int count, char **words) {
    if (count != 2) return 2;
    dir = words[1];
    listens_with_a_thread();
    counts_as_one();
    keeps_with_threads();
    counts_as_one();
    fails_each(answers_lines, 100);
    fails_each(answers_a_snapshot, 5);
    return closing();
}
