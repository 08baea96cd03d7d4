// tracerd.hpp: producers move to threads and give themselves back, a session goes with the last that holds it, and what is
// refused is thrown, but for what is offered while nothing is recorded. A child of fork goes through the destructors of its
// parent's objects when it exits.
//
//     wrapper DIR     a folder that is there, in which files are written
#include <errno.h>
#include <fstream>
#include <glob.h>
#include <sys/stat.h>
#include <sys/wait.h>
#include <thread>
#include <tracerd.hpp>
#include <tracerd_events.h>
#include <unistd.h>
#include <vector>

#include "testing.h"

static void record(tracerd::producer producer, char *is_good) {
    for (uint64_t k = 0; k < 100; k++) *is_good &= producer.offer(k, 7, &k, sizeof k).serial == k;
    TRACERD_TRACE(producer.get(), 7, "last", 4);
    *is_good &= producer.fate(100).place == TRACERD_IN_RING && producer.counts().in_ring == 101;
}

static void records(const std::string &folder) {
    tracerd::session session("app", {{1, 2, 3}}, -300);
    session.rings_in(folder + "/rings");
    is(std::ifstream(folder + "/rings").good());
    session.channel("main", 16384, 4, TRACERD_DISCARD);
    std::vector<tracerd::producer> producers;
    for (int i = 0; i < 4; i++) producers.push_back(session.producer("main"));
    session.start(0);
    std::vector<std::thread> threads;
    char good[4] = {1, 1, 1, 1};
    for (int i = 0; i < 4; i++) threads.emplace_back(record, std::move(producers[i]), &good[i]);
    for (auto &it : threads) it.join();
    for (char it : good) is(it);
    uint64_t archive = session.rotate(1000);
    is(session.settle().in_chunks == 404);
    session.write(archive, folder);
    is(session.about().archives == 1 && session.archive(archive).records == 404 && !session.archive(archive).is_released);
    session.release(archive);
    is(session.archive(archive).is_released);
    session.forget(archive + 1);
    is(session.about().forgotten == archive + 1);
    is(session.counts().offered == 404);
}

// What a call is refused for. Where errno says why, the code is errno, and its message comes after the status's name.
template <typename call>
static tracerd_status refusal(call made) {
    try {
        made();
    } catch (const tracerd::refused &why) {
        std::string name = tracerd_status_name(why.status());
        if (why.status() == TRACERD_WRITE || why.status() == TRACERD_READ) {
            is(why.code().category() == std::generic_category());
            is(why.what() == name + ": " + strerror(why.code().value()));
        } else {
            is(why.code() == std::error_code(why.status(), tracerd::category()));
            is(why.what() == name);
        }
        return why.status();
    }
    return TRACERD_OK;
}

// The code of what is thrown, for whoever knows std::system_error alone.
template <typename call>
static std::error_code code_of(call made) {
    try {
        made();
    } catch (const std::system_error &why) {
        return why.code();
    }
    return {};
}

// A producer that another is moved to gives back what it had at once; what was moved from has nothing.
static void moves() {
    tracerd::session session("app", {{1}});
    session.channel("main", 256, 2, TRACERD_OVERWRITE);
    tracerd::producer one = session.producer("main"), other = session.producer("main");
    tracerd::producer *same = &other;
    other = std::move(one);
    other = std::move(*same);
    is(other.number() == 0 && !one.get());
    answers(MISSING, refusal([&] { session.settle(); }));
    { tracerd::producer last(std::move(other)); }
    answers(OK, refusal([&] { session.settle(); }));
}

static void refuses_zero_bytes(const std::string &folder) {
    const std::string zero("a\0b", 3);
    tracerd::session session("app", {{1}});
    is(tracerd::version() == TRACERD_VERSION);
    answers(BAD_NAME, refusal([&] { tracerd::session(zero, {{1}}); }));
    answers(BAD_NAME, refusal([&] { session.channel(zero, 256, 2, TRACERD_OVERWRITE); }));
    answers(BAD_NAME, refusal([&] { session.producer(zero); }));
    session.start(0);
    uint64_t archive = session.rotate(0);
    answers(WRITE, refusal([&] { session.write(archive, folder + "/" + zero); }));
    answers(READ, refusal([&] { tracerd::audit(zero, "app", "main", 0, {{1}}); }));
    answers(BAD_NAME, refusal([&] { tracerd::audit(folder, zero, "main", 0, {{1}}); }));
    is(code_of([&] { session.write(archive, zero); }) == std::errc::invalid_argument);
}

// errno comes with what is thrown: of an empty folder the header says ENOENT.
static void tells_errno() {
    tracerd::session session("app", {{1}}), snapshots("app", {{1}}, 0, TRACERD_SNAPSHOT);
    session.start(0);
    snapshots.start(0);
    uint64_t archive = session.rotate(0);
    answers(WRITE, refusal([&] { session.write(archive, ""); }));
    answers(READ, refusal([&] { tracerd::audit("", "app", "main", 0, {{1}}); }));
    is(code_of([&] { session.write(archive, ""); }) == std::errc::no_such_file_or_directory);
    is(code_of([&] { session.write(archive, "/dev/null/below"); }) == std::errc::not_a_directory);
    is(code_of([&] { snapshots.snapshot(0, "/dev/null/below"); }) == std::errc::not_a_directory);
    is(code_of([&] { tracerd::audit("", "app", "main", 0, {{1}}); }) == std::errc::no_such_file_or_directory);
    errno = ENOSPC; // of another call
    is(code_of([&] { session.write(archive + 1, ""); }) == std::error_code(TRACERD_NO_ARCHIVE, tracerd::category()));
}

// While the session is stopped, an offer answers so. What it throws else is a mistake.
static void offers_while_stopped() {
    char big[256] = {0};
    tracerd::session session("app", {{1}});
    session.channel("main", 256, 2, TRACERD_DISCARD);
    tracerd::producer producer = session.producer("main");
    tracerd::offered early = producer.offer(0, 7, "early", 5);
    is(!early && early.status == TRACERD_INACTIVE && !early.serial && !early.packet);
    is(!producer.is_active() && !producer.trace(7, "early", 5));
    session.start(session.now());
    tracerd::offered first = producer.offer(session.now(), 7, "first", 5);
    is(first && first.status == TRACERD_OK && first.outcome == TRACERD_STORED && first.serial == 0);
    is(producer.is_active() && producer.trace(7, "second", 6));
    answers(TOO_BIG, refusal([&] { producer.offer(session.now(), 7, big, sizeof big); }));
    answers(TOO_BIG, refusal([&] { producer.trace(7, big, sizeof big); }));
    answers(BAD_MOMENT, refusal([&] { producer.offer(9000000000000000001, 7, "late", 4); }));
    session.stop();
    is(!producer.offer(session.now(), 7, "late", 4) && !producer.is_active() && !producer.trace(7, "late", 4));
    tracerd_counts counts = session.counts();
    is(counts.offered == 2 && counts.refused_inactive == 2 && counts.refused_too_big == 2 && counts.refused_bad_moment == 1);
}

#define EVENTS(E) E(queue_push, 3, (u32, worker), (str, item)) E(queue_closed, 4)
TRACERD_EVENTS(EVENTS)

// A typed event is recorded by get(). What is thrown of a declaration says its line; of a text with a zero byte there is none.
static void records_typed_events() {
    tracerd::session session("app", {{1}});
    session.channel("main", 256, 2, TRACERD_DISCARD);
    tracerd::producer producer = session.producer("main");
    std::string item = "item";
    int evaluated = 0;
    uint64_t line = 0;
    session.declare(tracerd_declarations);
    session.record_refused();
    TRACERD_EVENT(queue_push, producer.get(), 1, (evaluated++, item.c_str()));
    session.start(0);
    TRACERD_EVENT(queue_push, producer.get(), 1, (evaluated++, item.c_str()));
    TRACERD_EVENT(queue_closed, producer.get());
    is(producer.trace(tracerd_trace_queue_push, 1, std::string(123, 'a').c_str()));
    answers(TOO_BIG, refusal([&] { producer.trace(tracerd_trace_queue_push, 1, std::string(148, 'a').c_str()); }));
    is(evaluated == 1 && producer.counts().offered == 3);
    answers(OTHER_LAYOUT, refusal([&] { producer.trace(3, "other", 5); }));
    tracerd::session other("app", {{1}});
    try {
        other.declare("first 1\nsecond 2 at:u24");
    } catch (const tracerd::undeclared &why) {
        line = why.line();
        answers(BAD_TYPE, why.status());
    }
    is(line == 2);
    answers(BAD_EVENT, refusal([&] { other.declare(std::string("first 1\0", 8)); }));
    answers(ALREADY_STARTED, refusal([&] { session.declare(tracerd_declarations); }));
    other.declare("offers_refused 1");
    answers(EVENT_TAKEN, refusal([&] { other.record_refused(); }));
    session.stop();
    is(!producer.trace(tracerd_trace_queue_closed) && producer.counts().refused_inactive == 0);
    is(producer.counts().offered == 4 && producer.counts().refused_too_big == 1); // with what it was refused until the stop
}

// Each stream's file has what its thread recorded. After it come 80 bytes that begin no packet (P2): a fault in that place.
static void audits(const std::string &folder) {
    const std::array<uint8_t, 16> uuid{{1, 2, 3}};
    for (uint64_t stream = 0; stream < 4; stream++) {
        tracerd_audited found = tracerd::audit(folder, "app", "main", stream, uuid);
        is(found.records == 101 && found.last_serial == 100 && found.absent == 0 && found.discarded == 0);
    }
    answers(FOREIGN, refusal([&] { tracerd::audit(folder, "app", "main", 0, {{1}}); }));
    glob_t files;
    struct stat whole;
    is(!glob((folder + "/app/archives/*-0/main_2").c_str(), 0, nullptr, &files) && !stat(files.gl_pathv[0], &whole));
    is(!truncate(files.gl_pathv[0], whole.st_size + 80));
    try {
        tracerd::audit(folder, "app", "main", 2, uuid);
        is(!"found whole");
    } catch (const tracerd::damaged &why) {
        is(why.status() == TRACERD_PACKET && why.where().packet_fault == 2);
        is(why.where().archive == 0 && why.where().byte == static_cast<uint64_t>(whole.st_size) && why.where().records == 0);
    }
    is(!truncate(files.gl_pathv[0], whole.st_size));
    globfree(&files);
}

static void outlives() {
    tracerd::session *session = new tracerd::session("app", {{1}});
    session->channel("main", 256, 2, TRACERD_OVERWRITE);
    tracerd::producer one = session->producer("main"), other = session->producer("main");
    session->start(0);
    answers(MISSING, refusal([&] { session->settle(); }));
    delete session;
    is(one.offer(1, 7, nullptr, 0).outcome == TRACERD_STORED);
    other = std::move(one);
    is(other.number() == 0);
}

// A settle says whose producer is still out.
static void says_who_is_missing() {
    tracerd::session session("app", {{1}});
    session.channel("main", 256, 2, TRACERD_OVERWRITE);
    { tracerd::producer first = session.producer("main"); }
    tracerd::producer second = session.producer("main"), third = session.producer("main");
    uint64_t stream = 0;
    try {
        session.settle();
    } catch (const tracerd::missing &why) {
        stream = why.stream();
    }
    is(second.number() == 1 && stream == 1);
}

// In a child nothing is recorded: an offer answers CLOSED there.
static void offers_in_children() {
    tracerd::session session("app", {{1}});
    session.channel("main", 256, 2, TRACERD_OVERWRITE);
    tracerd::producer producer = session.producer("main");
    session.start(0);
    int status = 1;
    pid_t child = fork();
    if (!child) {
        bool is_off = !producer.is_active() && !producer.trace(7, "traced", 6);
        _exit(is_off && producer.offer(1, 7, "offered", 7).status == TRACERD_CLOSED ? 0 : 2);
    }
    is(child > 0 && waitpid(child, &status, 0) == child && status == 0);
    is(producer.offer(1, 7, "offered", 7).status == TRACERD_OK);
}

// They meet no lock that another thread held at the fork. One that waits for ever is ended by its alarm.
static void exits() {
    static tracerd::session session("app", {{1}});
    session.channel("main", 65536, 16, TRACERD_OVERWRITE);
    static tracerd::producer producer = session.producer("main");
    session.start(0);
    session.drainer_start(50000);
    fflush(stdout);
    for (int left = 200; left; left--) {
        int status = 1;
        for (int k = 0; k < 2000; k++) TRACERD_TRACE(producer.get(), 7, "traced", 6);
        pid_t child = fork();
        if (!child) {
            alarm(10);
            exit(0);
        }
        is(child > 0 && waitpid(child, &status, 0) == child && status == 0);
    }
}

// A shell is answered as long as there is a listener; its socket goes with it.
static void listens(const std::string &folder) {
    const std::string path = folder + "/app.socket";
    tracerd::session session("app", {{1}});
    {
        tracerd::listener first = session.listen(path, folder), moved = std::move(first);
        is(access(path.c_str(), F_OK) == 0);
        answers(LISTENING, refusal([&] { session.listen(path); }));
    }
    is(access(path.c_str(), F_OK) != 0);
}

// The second word leaves out children: they find the session as zeros, which valgrind takes for memory that they lost.
int main(int count, char **words) {
    if (count != 2 && count != 3) return 2;
    records(words[1]);
    counts_as_one();
    audits(words[1]);
    counts_as_one();
    tells_errno();
    counts_as_one();
    offers_while_stopped();
    counts_as_one();
    records_typed_events();
    counts_as_one();
    says_who_is_missing();
    counts_as_one();
    moves();
    counts_as_one();
    refuses_zero_bytes(words[1]);
    counts_as_one();
    outlives();
    counts_as_one();
    listens(words[1]);
    counts_as_one();
    if (count == 2) {
        offers_in_children();
        counts_as_one();
        exits();
        counts_as_one();
    }
    return closing();
}
