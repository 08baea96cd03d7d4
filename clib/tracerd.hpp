// tracerd for C++11: handles that let go of what they hold, and refusals as exceptions. tracerd.h has the meaning of each call.
#ifndef TRACERD_HPP
#define TRACERD_HPP
#include "tracerd.h"
#include <array>
#include <cerrno>
#include <memory>
#include <string>
#include <system_error>
#include <type_traits>
#include <utility>

namespace tracerd {

// The version of the library that is called.
inline std::string version() { return tracerd_version(); }

// The category of codes that are a tracerd_status: the message is the status's name.
inline const std::error_category &category() {
    class statuses : public std::error_category {
        const char *name() const noexcept override { return "tracerd"; }
        std::string message(int status) const override { return tracerd_status_name(static_cast<tracerd_status>(status)); }
    };
    static const statuses only{};
    return only;
}

// Why a call was refused. The code is the status, in category(); but of WRITE and READ it is errno, in std::generic_category(),
// and compares with std::errc. what() is the status's name, and errno's message after it.
class refused : public std::system_error {
public:
    explicit refused(tracerd_status status) : std::system_error(status, category()), status_(status) {}
    refused(tracerd_status status, int why)
        : std::system_error(why, std::generic_category(), tracerd_status_name(status)), status_(status) {}
    tracerd_status status() const noexcept { return status_; }

private:
    tracerd_status status_;
};

// MISSING, of a settle: the number of the first stream whose producer was not given back.
class missing : public refused {
public:
    explicit missing(uint64_t stream) : refused(TRACERD_MISSING), stream_(stream) {}
    uint64_t stream() const noexcept { return stream_; }

private:
    uint64_t stream_;
};

// BAD_EVENT to TOO_MANY_VARIABLES: the number of the first line of declarations that is refused, from 1 on.
class undeclared : public refused {
public:
    undeclared(tracerd_status status, uint64_t line) : refused(status), line_(line) {}
    uint64_t line() const noexcept { return line_; }

private:
    uint64_t line_;
};

// What an audit finds wrong (PACKET, NUMBER_REPEAT, SERIAL_REPEAT, FOREIGN), and where: archive, byte and packet_fault say it,
// the other fields are 0.
class damaged : public refused {
public:
    damaged(tracerd_status status, const tracerd_audited &where) : refused(status), where_(where) {}
    const tracerd_audited &where() const noexcept { return where_; }

private:
    tracerd_audited where_;
};

inline void must(tracerd_status status) {
    if (status == TRACERD_OK) return;
    const int why = errno; // before a throw changes it
    if (status == TRACERD_WRITE || status == TRACERD_READ) throw refused(status, why);
    throw refused(status);
}

// A name or a path for C, which would end it at a zero byte: for a path that is EINVAL.
inline const char *text(const std::string &given, tracerd_status otherwise) {
    if (given.find('\0') != std::string::npos) {
        errno = EINVAL;
        must(otherwise);
    }
    return given.c_str();
}

// What an offer answers. It is true if the offer was accepted; then the fields say what became of it. It is false while nothing
// is recorded; then they are 0, and `status` is INACTIVE, or CLOSED in a child of fork.
struct offered : tracerd_offered {
    tracerd_status status;
    explicit operator bool() const noexcept { return status == TRACERD_OK; }
};

// Whether an offer was accepted. That nothing is recorded now is no mistake: all other refusals are thrown.
inline bool is_accepted(tracerd_status status) {
    if (status == TRACERD_INACTIVE || status == TRACERD_CLOSED) return false;
    must(status);
    return true;
}

// One thread's right to offer: it may be moved to a thread, gives itself back, and keeps its session alive.
class producer {
public:
    producer(producer &&other) noexcept : session_(std::move(other.session_)), handle_(other.handle_) {
        other.handle_ = nullptr;
    }
    producer &operator=(producer &&other) noexcept {
        producer moved(std::move(other)); // so that what this one had is given back now
        std::swap(session_, moved.session_);
        std::swap(handle_, moved.handle_);
        return *this;
    }
    ~producer() {
        if (handle_) tracerd_producer_done(handle_);
    }
    // While the session is stopped it answers so, and doesn't throw. It throws TOO_BIG, BAD_MOMENT and SPENT.
    offered offer(uint64_t moment, uint32_t id, const void *payload, size_t size) {
        offered answer{};
        answer.status = tracerd_offer(handle_, moment, id, payload, size, &answer);
        is_accepted(answer.status);
        return answer;
    }
    // A tracepoint at the session's clock: whether it was accepted. While is_active() is false it isn't: that costs a load and
    // a branch, and isn't counted. It throws what an offer does. TRACERD_TRACE(get(), ..) throws nothing, and evaluates its
    // payload only while offers are taken.
    bool trace(uint32_t id, const void *payload, size_t size) {
        return is_active() && is_accepted(tracerd_trace(handle_, id, payload, size));
    }
    // The same of a typed event, by its function: trace(tracerd_trace_queue_push, worker, depth).
    template <typename... fields>
    bool trace(tracerd_status (*event)(tracerd_producer *, fields...), typename std::enable_if<true, fields>::type... values) {
        return is_active() && is_accepted(event(handle_, values...));
    }
    // Whether offers are taken now.
    bool is_active() const noexcept { return __atomic_load_n(&handle_->active, __ATOMIC_RELAXED) != 0; }
    tracerd_fate fate(uint64_t serial) const {
        tracerd_fate fate;
        must(tracerd_fate_of(handle_, serial, &fate));
        return fate;
    }
    tracerd_counts counts() const {
        tracerd_counts counts;
        must(tracerd_counts_of(handle_, &counts));
        return counts;
    }
    uint64_t number() const { return tracerd_producer_number(handle_); }
    tracerd_producer *get() const noexcept { return handle_; } // for TRACERD_TRACE and TRACERD_EVENT

private:
    friend class session;
    producer(std::shared_ptr<tracerd_session> session, tracerd_producer *handle)
        : session_(std::move(session)), handle_(handle) {}
    std::shared_ptr<tracerd_session> session_;
    tracerd_producer *handle_;
};

// A shell is answered as long as it is there (tracerd-ask). It may be moved, and keeps its session alive.
class listener {
public:
    listener(listener &&other) noexcept = default;
    listener &operator=(listener &&other) = delete;

private:
    friend class session;
    struct ending {
        void operator()(tracerd_listener *handle) const noexcept { tracerd_listener_stop(handle); }
    };
    listener(std::shared_ptr<tracerd_session> session, tracerd_listener *handle) : session_(std::move(session)), handle_(handle) {}
    std::shared_ptr<tracerd_session> session_; // which goes after what comes next
    std::unique_ptr<tracerd_listener, ending> handle_;
};

// A session, which goes with the last of its copies, producers and listeners.
class session {
public:
    session(const std::string &name, const std::array<uint8_t, 16> &uuid, int32_t east = 0, tracerd_kind kind = TRACERD_LOCAL) {
        tracerd_session *handle;
        must(tracerd_new(&handle, text(name, TRACERD_BAD_NAME), uuid.data(), east, kind));
        handle_.reset(handle, tracerd_free);
    }
    void rings_in(const std::string &file) { must(tracerd_rings_in(get(), text(file, TRACERD_WRITE))); }
    void channel(const std::string &name, uint64_t size, uint64_t count, tracerd_mode mode) {
        must(tracerd_channel(get(), text(name, TRACERD_BAD_NAME), size, count, mode));
    }
    class producer producer(const std::string &channel) {
        tracerd_producer *handle;
        must(tracerd_producer_new(get(), text(channel, TRACERD_BAD_NAME), &handle));
        return {handle_, handle};
    }
    // A line that is refused is thrown as `undeclared`. tracerd_events.h makes texts of typed events.
    void declare(const std::string &events) {
        uint64_t line;
        const tracerd_status status = tracerd_declare(get(), text(events, TRACERD_BAD_EVENT), &line);
        if (status >= TRACERD_BAD_EVENT) throw undeclared(status, line);
        must(status);
    }
    // Archives have what was refused, as records `offers_refused` (TRACERD_OFFERS_REFUSED).
    void record_refused() { must(tracerd_record_refused(get())); }
    uint64_t now() const noexcept { return tracerd_now_of(get()); }
    void start(uint64_t moment) { must(tracerd_start(get(), moment)); }
    void stop() { must(tracerd_stop(get())); }
    uint64_t drain() { return result(tracerd_drain); }
    void drainer_start(uint64_t period) { must(tracerd_drainer_start(get(), period)); }
    void drainer_stop() { must(tracerd_drainer_stop(get())); }
    uint64_t rotate(uint64_t moment) {
        uint64_t archive;
        must(tracerd_rotate(get(), moment, &archive));
        return archive;
    }
    uint64_t rotate_on() { return result(tracerd_rotate_on); }
    uint64_t clear() { return result(tracerd_clear); }
    void schedule(uint64_t every, uint64_t bytes = TRACERD_NEVER) { must(tracerd_schedule(get(), every, bytes)); }
    tracerd_cause tick(uint64_t moment, uint64_t &archive) {
        tracerd_cause cause;
        must(tracerd_tick(get(), moment, &cause, &archive));
        return cause;
    }
    void write(uint64_t archive, const std::string &folder) {
        must(tracerd_write(get(), archive, text(folder, TRACERD_WRITE)));
    }
    void release(uint64_t archive) { must(tracerd_release(get(), archive)); }
    void forget(uint64_t archive) { must(tracerd_forget(get(), archive)); }
    void snapshot(uint64_t moment, const std::string &folder) {
        must(tracerd_snapshot(get(), moment, text(folder, TRACERD_WRITE)));
    }
    // Has a shell be answered at a socket of this path; archives are written below the folder, or nowhere.
    class listener listen(const std::string &path) { return listen_to(path, nullptr); }
    class listener listen(const std::string &path, const std::string &folder) {
        return listen_to(path, text(folder, TRACERD_WRITE));
    }
    tracerd_about about() const {
        tracerd_about about;
        must(tracerd_about_of(get(), &about));
        return about;
    }
    tracerd_archive archive(uint64_t number) const {
        tracerd_archive archive;
        must(tracerd_archive_of(get(), number, &archive));
        return archive;
    }
    tracerd_counts counts() const {
        tracerd_counts counts;
        must(tracerd_counts_sum(get(), &counts));
        return counts;
    }
    // A producer that wasn't given back is thrown as `missing`.
    tracerd_counts settle() {
        tracerd_counts counts;
        uint64_t stream;
        tracerd_status status = tracerd_settle(get(), &counts, &stream);
        if (status == TRACERD_MISSING) throw missing(stream);
        must(status);
        return counts;
    }
    tracerd_session *get() const noexcept { return handle_.get(); }

private:
    uint64_t result(tracerd_status (*call)(tracerd_session *, uint64_t *)) {
        uint64_t found;
        must(call(get(), &found));
        return found;
    }
    class listener listen_to(const std::string &path, const char *folder) {
        tracerd_listener *handle;
        must(tracerd_listen(&handle, get(), text(path, TRACERD_WRITE), folder));
        return {handle_, handle};
    }
    std::shared_ptr<tracerd_session> handle_;
};

// Reads a stream's files of all archives below a folder, and judges each packet. What is wrong is thrown as `damaged`.
inline tracerd_audited audit(const std::string &folder, const std::string &session, const std::string &channel, uint64_t stream,
                             const std::array<uint8_t, 16> &uuid) {
    tracerd_audited found{};
    tracerd_status status = tracerd_audit(text(folder, TRACERD_READ), text(session, TRACERD_BAD_NAME),
                                          text(channel, TRACERD_BAD_NAME), stream, uuid.data(), &found);
    if (status >= TRACERD_PACKET) throw damaged(status, found);
    must(status);
    return found;
}

} // namespace tracerd
#endif
