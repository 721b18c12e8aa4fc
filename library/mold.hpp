// libmold for C++17 and later: classes over the handles of mold.h, which states what each call does and when it returns
// each code. The destructor of a class frees its handle. Objects cannot be copied. An object that was moved from is
// empty, and may be opened again. Nothing here throws: each call returns a code, Code::Done if it succeeded.
//
// A mold::Bytes is a view: a pointer and a length, like std::span. A view that a listener returns is valid until the
// next call on that listener.
//
// With C++20, views convert from and to std::span, and sessions have <=>.
#ifndef MOLD_HPP
#define MOLD_HPP

#include "mold.h"

#include <array>
#include <cstddef>
#include <cstdint>
#include <functional>
#include <iterator>
#include <optional>
#include <string_view>
#include <utility>

#if __cplusplus >= 202002L
#include <version>
#endif
#if defined(__cpp_lib_span)
#include <span>
#endif
#if defined(__cpp_lib_three_way_comparison)
#include <compare>
#endif

namespace mold {

/// What a call returns: `Done`, or why it was refused.
enum class Code : std::uint32_t {
    Done = MOLD_DONE,
    Short = MOLD_E_SHORT,
    BlockCut = MOLD_E_BLOCK_CUT,
    Trailing = MOLD_E_TRAILING,
    Limit = MOLD_E_LIMIT,
    Full = MOLD_E_FULL,
    Broken = MOLD_E_BROKEN,
    Memory = MOLD_E_MEMORY,
    WrongSession = MOLD_E_WRONG_SESSION,
    SequenceZero = MOLD_E_SEQUENCE_ZERO,
    PastLast = MOLD_E_PAST_LAST,
    EndConflict = MOLD_E_END_CONFLICT,
    EndBelow = MOLD_E_END_BELOW,
    PastEnd = MOLD_E_PAST_END,
    Conflict = MOLD_E_CONFLICT,
    Line = MOLD_E_LINE,
    NextZero = MOLD_E_NEXT_ZERO,
    Window = MOLD_E_WINDOW,
    Absent = MOLD_E_ABSENT,
    Closed = MOLD_E_CLOSED,
    TooLong = MOLD_E_TOO_LONG,
    Numbers = MOLD_E_NUMBERS,
    Unsent = MOLD_E_UNSENT,
    Room = MOLD_E_ROOM,
    RequestLength = MOLD_E_REQUEST_LENGTH,
    EmptyRequest = MOLD_E_EMPTY_REQUEST,
    Ahead = MOLD_E_AHEAD,
    Burst = MOLD_E_BURST,
    FileShort = MOLD_E_FILE_SHORT,
    BadMagic = MOLD_E_BAD_MAGIC,
    BadFlag = MOLD_E_BAD_FLAG,
    FileCut = MOLD_E_FILE_CUT,
    CountDiffers = MOLD_E_COUNT_DIFFERS,
    Damaged = MOLD_E_DAMAGED,
    NotMissing = MOLD_E_NOT_MISSING,
    Batch = MOLD_E_BATCH,
    Options = MOLD_E_OPTIONS,
    Time = MOLD_E_TIME,
};

/// Where a datagram came from.
enum class Line : std::uint32_t {
    A = MOLD_LINE_A,
    B = MOLD_LINE_B,
    Answer = MOLD_ANSWER, ///< a server's response
};

/// The origin of a response of server k, k from 0.
constexpr Line server(std::uint32_t k) noexcept {
    return static_cast<Line>(MOLD_SERVER(k));
}

/// The kinds of packets.
enum class Kind : std::uint32_t {
    Data = MOLD_DATA,
    Heartbeat = MOLD_HEARTBEAT,
    End = MOLD_END,
};

/// A view of bytes.
class Bytes {
public:
    constexpr Bytes() noexcept = default;
    constexpr Bytes(const std::uint8_t *at, std::size_t length) noexcept : at_(at), length_(length) {}
    Bytes(const std::byte *at, std::size_t length) noexcept
        : at_(reinterpret_cast<const std::uint8_t *>(at)), length_(length) {}
    constexpr Bytes(mold_bytes bytes) noexcept : at_(bytes.at), length_(bytes.length) {}

    /// A view of a contiguous range of bytes, such as std::vector, std::array, std::string or std::span.
    template <class Range, class = decltype(static_cast<const void *>(std::declval<const Range &>().data())),
              class = decltype(std::declval<const Range &>().size())>
    Bytes(const Range &range) noexcept
        : at_(reinterpret_cast<const std::uint8_t *>(range.data())), length_(range.size()) {
        static_assert(sizeof(*range.data()) == 1, "elements of one byte");
    }

    constexpr const std::uint8_t *data() const noexcept { return at_; }
    constexpr std::size_t size() const noexcept { return length_; }
    constexpr bool empty() const noexcept { return length_ == 0; }
    constexpr const std::uint8_t *begin() const noexcept { return at_; }
    constexpr const std::uint8_t *end() const noexcept { return at_ + length_; }
    constexpr std::uint8_t operator[](std::size_t i) const noexcept { return at_[i]; }

#if defined(__cpp_lib_span)
    operator std::span<const std::byte>() const noexcept {
        return {reinterpret_cast<const std::byte *>(at_), length_};
    }
#endif

private:
    const std::uint8_t *at_ = nullptr;
    std::size_t length_ = 0;
};

/// A buffer that a call writes to.
class Room {
public:
    constexpr Room(std::uint8_t *at, std::size_t length) noexcept : at_(at), length_(length) {}
    Room(std::byte *at, std::size_t length) noexcept : at_(reinterpret_cast<std::uint8_t *>(at)), length_(length) {}

#if defined(__cpp_lib_span)
    Room(std::span<std::uint8_t> bytes) noexcept : Room(bytes.data(), bytes.size()) {}
    Room(std::span<std::byte> bytes) noexcept : Room(bytes.data(), bytes.size()) {}
#endif

    /// A view of a contiguous range of bytes that may be written.
    template <class Range, class = decltype(static_cast<void *>(std::declval<Range &>().data())),
              class = decltype(std::declval<Range &>().size())>
    Room(Range &range) noexcept : at_(reinterpret_cast<std::uint8_t *>(range.data())), length_(range.size()) {
        static_assert(sizeof(*range.data()) == 1, "elements of one byte");
    }

    constexpr std::uint8_t *data() const noexcept { return at_; }
    constexpr std::size_t size() const noexcept { return length_; }

private:
    std::uint8_t *at_;
    std::size_t length_;
};

/// The name of a session: ten bytes. Sessions are ordered by their bytes.
class Session {
public:
    /// The session with these bytes.
    explicit constexpr Session(const std::array<std::uint8_t, 10> &name) noexcept : name_(name) {}

    /// The session with this name, padded with spaces as on the command line of `mold`. If the name has more than ten
    /// bytes, there is none.
    static constexpr std::optional<Session> of(std::string_view name) noexcept {
        if (name.size() > size())
            return std::nullopt;
        std::array<std::uint8_t, 10> padded{};
        for (std::size_t i = 0; i < padded.size(); i++)
            padded[i] = static_cast<std::uint8_t>(i < name.size() ? name[i] : ' ');
        return Session(padded);
    }

    constexpr const std::uint8_t *data() const noexcept { return name_.data(); }
    static constexpr std::size_t size() noexcept { return 10; }

#if defined(__cpp_lib_three_way_comparison)
    friend constexpr bool operator==(const Session &, const Session &) noexcept = default;
    friend constexpr auto operator<=>(const Session &, const Session &) noexcept = default;
#else
    friend bool operator==(const Session &a, const Session &b) noexcept { return a.name_ == b.name_; }
    friend bool operator!=(const Session &a, const Session &b) noexcept { return a.name_ != b.name_; }
    friend bool operator<(const Session &a, const Session &b) noexcept { return a.name_ < b.name_; }
#endif

private:
    std::array<std::uint8_t, 10> name_;
};

/// Returns the text of a code. A zero byte ends it, as `%s` of printf requires. It is valid forever.
inline const char *text(Code code) noexcept {
    return mold_code_text(static_cast<std::uint32_t>(code));
}

/// Returns the kind of a packet that was decoded.
constexpr Kind kind(const mold_packet &packet) noexcept {
    return static_cast<Kind>(packet.kind);
}

/// Decodes a datagram, and writes its header.
[[nodiscard]] inline Code decode(Bytes datagram, mold_packet &packet) noexcept {
    return static_cast<Code>(mold_decode(datagram.data(), datagram.size(), &packet));
}

/// Owns a handle, and frees it in its destructor. An object that was moved from is empty.
template <class Handle>
class Owned {
public:
    Owned() noexcept = default;
    Owned(const Owned &) = delete;
    Owned &operator=(const Owned &) = delete;

    Owned(Owned &&other) noexcept : handle_(other.handle_) { other.handle_ = MOLD_EMPTY; }

    Owned &operator=(Owned &&other) noexcept {
        if (this != &other) {
            mold_free(&handle_);
            handle_ = other.handle_;
            other.handle_ = MOLD_EMPTY;
        }
        return *this;
    }

    ~Owned() { mold_free(&handle_); }

    /// Frees what the handle holds. The object can then be opened again.
    void reset() noexcept { mold_free(&handle_); }

    /// Whether the handle holds something.
    explicit operator bool() const noexcept { return handle_.live; }

    /// The handle, for calls of mold.h. Do not copy it.
    Handle *get() noexcept { return &handle_; }
    const Handle *get() const noexcept { return &handle_; }

protected:
    Handle handle_ = MOLD_EMPTY;
};

/// The messages of a batch, in order, as a range of `Bytes`. It is valid until the next call that changes the
/// listener.
class Batch {
public:
    class Iterator {
    public:
        using iterator_category = std::input_iterator_tag;
        using value_type = Bytes;
        using difference_type = std::ptrdiff_t;
        using pointer = void;
        using reference = Bytes;

        Iterator(const mold_listener *listener, std::size_t i) noexcept : listener_(listener), i_(i) {}

        Bytes operator*() const noexcept {
            mold_bytes message = MOLD_NO_BYTES;
            mold_listener_message(listener_, i_, &message);
            return message;
        }

        Iterator &operator++() noexcept {
            i_++;
            return *this;
        }

        Iterator operator++(int) noexcept { return Iterator(listener_, i_++); }

        friend bool operator==(const Iterator &a, const Iterator &b) noexcept { return a.i_ == b.i_; }
        friend bool operator!=(const Iterator &a, const Iterator &b) noexcept { return a.i_ != b.i_; }

    private:
        const mold_listener *listener_;
        std::size_t i_;
    };

    explicit Batch(const mold_listener *listener) noexcept
        : listener_(listener), count_(mold_listener_count(listener)) {}

    Iterator begin() const noexcept { return Iterator(listener_, 0); }
    Iterator end() const noexcept { return Iterator(listener_, count_); }
    std::size_t size() const noexcept { return count_; }
    [[nodiscard]] bool empty() const noexcept { return count_ == 0; }

private:
    const mold_listener *listener_;
    std::size_t count_;
};

/// Owns a listener or a repairer, and reads what it delivered and what is missing.
template <class Handle>
class Delivering : public Owned<Handle> {
public:
    /// The number of messages of the batch, and the sequence number of the first.
    std::size_t count() const noexcept { return mold_listener_count(listener()); }
    std::uint64_t first() const noexcept { return mold_listener_first(listener()); }

    /// The messages of the batch, for `for (mold::Bytes message : listener.batch())`.
    Batch batch() const noexcept { return Batch(listener()); }

    [[nodiscard]] Code message(std::size_t i, Bytes &message) const noexcept {
        mold_bytes slice = MOLD_NO_BYTES;
        const std::uint32_t code = mold_listener_message(listener(), i, &slice);
        if (code == MOLD_DONE)
            message = slice;
        return static_cast<Code>(code);
    }

    /// Writes slices of the first messages of the batch, as many as the array has room for, and returns how many.
    std::size_t messages(mold_bytes *array, std::size_t room) const noexcept {
        return mold_listener_messages(listener(), array, room);
    }

    [[nodiscard]] Code copy(std::size_t i, Room buffer, std::size_t &size) const noexcept {
        return static_cast<Code>(mold_listener_copy(listener(), i, buffer.data(), buffer.size(), &size));
    }

    [[nodiscard]] bool wanted(std::uint8_t (&request)[20]) const noexcept {
        return mold_listener_wanted(listener(), request);
    }

    [[nodiscard]] bool wanted(std::array<std::uint8_t, 20> &request) const noexcept {
        return mold_listener_wanted(listener(), request.data());
    }

    /// Writes the missing ranges from number `from` on, as many as the array has room for, and returns how many.
    std::size_t ranges(std::uint64_t from, mold_range *array, std::size_t room) const noexcept {
        return mold_listener_ranges(listener(), from, array, room);
    }

    std::uint64_t next() const noexcept { return mold_listener_next(listener()); }
    std::uint64_t known() const noexcept { return mold_listener_known(listener()); }
    [[nodiscard]] bool finished() const noexcept { return mold_listener_finished(listener()); }

    [[nodiscard]] Code report(Line line, mold_report &report) const noexcept {
        return static_cast<Code>(mold_listener_report(listener(), static_cast<std::uint32_t>(line), &report));
    }

    Code clear() noexcept { return static_cast<Code>(mold_listener_clear(listener())); }

protected:
    mold_listener *listener() noexcept {
        void *handle = this->get();
        return static_cast<mold_listener *>(handle);
    }

    const mold_listener *listener() const noexcept {
        const void *handle = this->get();
        return static_cast<const mold_listener *>(handle);
    }
};

/// Delivers the messages of a session in order, from two lines and from the responses of a server.
class Listener : public Delivering<mold_listener> {
public:
    [[nodiscard]] Code open(const Session &session, std::uint64_t next = 1, std::uint32_t window = 1024) noexcept {
        return static_cast<Code>(mold_listener_new(&handle_, session.data(), next, window));
    }

    /// Opens the listener with a store that has room for `store` bytes. With 0 the store is not limited.
    [[nodiscard]] Code open(const Session &session, std::uint64_t next, std::uint32_t window,
                            std::uint64_t store) noexcept {
        return static_cast<Code>(mold_listener_bounded(&handle_, session.data(), next, window, store));
    }

    [[nodiscard]] Code take(Line line, Bytes datagram, mold_taken &taken) noexcept {
        const auto from = static_cast<std::uint32_t>(line);
        return static_cast<Code>(mold_listener_take(&handle_, from, datagram.data(), datagram.size(), &taken));
    }

    /// Takes a datagram as `take` does, but copies none of the messages that the datagram itself delivers. Calls
    /// `deliver` with each delivered message as `Bytes`, in order: first those of the datagram, and then stored ones.
    /// The function must not call this listener. The first message has the number that `next` returned before the call.
    /// If the batch has messages of `take` or `skip`, the code is `Batch`, and nothing changes: `clear` it before.
    template <class Deliver>
    [[nodiscard]] Code hear(Line line, Bytes datagram, mold_delivery &delivery, Deliver &&deliver) {
        const auto from = static_cast<std::uint32_t>(line);
        const std::uint32_t code =
            mold_listener_hear(&handle_, from, datagram.data(), datagram.size(), &delivery);
        if (code != MOLD_DONE)
            return static_cast<Code>(code);
        const std::uint8_t *at = datagram.data() + delivery.offset;
        for (std::uint32_t i = 0; i < delivery.own; i++) {
            const std::size_t length = static_cast<std::size_t>(at[0]) << 8 | at[1];
            deliver(Bytes(at + 2, length));
            at += 2 + length;
        }
        if (delivery.stored > 0)
            deliver_batch(delivery.stored, deliver);
        return Code::Done;
    }

    /// Gives up all messages below `to`. The batch has to be empty, and gets the stored messages that follow.
    [[nodiscard]] Code skip(std::uint64_t to) noexcept {
        return static_cast<Code>(mold_listener_skip(&handle_, to));
    }

private:
    /// Calls `deliver` with each message of the batch, which has `count` of them. One call returns slices of the first
    /// messages. That is faster than a call for each. The array needs no initial values.
    template <class Deliver>
    void deliver_batch(std::size_t count, Deliver &deliver) const {
        mold_bytes slices[256];
        const std::size_t first = messages(slices, 256);
        for (std::size_t i = 0; i < first; i++)
            deliver(Bytes(slices[i]));
        for (std::size_t i = first; i < count; i++) {
            Bytes next;
            if (message(i, next) == Code::Done)
                deliver(next);
        }
    }
};

/// The options of a repairer, with their defaults.
struct RepairOptions : mold_repair_options {
    RepairOptions() noexcept { mold_repair_options_default(this); }
};

/// Delivers the messages of a session as a Listener does, and decides when to request what, and from which server.
/// Times are in nanoseconds.
class Repairer : public Delivering<mold_repairer> {
public:
    [[nodiscard]] Code open(const Session &session, const mold_repair_options &options) noexcept {
        return static_cast<Code>(mold_repairer_new(&handle_, session.data(), &options));
    }

    [[nodiscard]] Code take(std::uint64_t now, Line origin, Bytes datagram, mold_taken &taken) noexcept {
        const auto from = static_cast<std::uint32_t>(origin);
        return static_cast<Code>(
            mold_repairer_take(&handle_, now, from, datagram.data(), datagram.size(), &taken));
    }

    /// Writes the next request that may be sent now, and the index of its server.
    [[nodiscard]] Code poll(std::uint64_t now, std::array<std::uint8_t, 20> &request, std::uint32_t &server) noexcept {
        return static_cast<Code>(mold_repairer_poll(&handle_, now, request.data(), &server));
    }

    [[nodiscard]] Code deadline(std::uint64_t now, std::uint64_t &deadline) noexcept {
        return static_cast<Code>(mold_repairer_deadline(&handle_, now, &deadline));
    }

    /// Gives up what is to be given up now. The batch has to be empty, and gets the stored messages that follow.
    [[nodiscard]] Code lost(std::uint64_t now, mold_range &lost) noexcept {
        return static_cast<Code>(mold_repairer_lost(&handle_, now, &lost));
    }

    [[nodiscard]] Code stats(mold_repair_stats &stats) const noexcept {
        return static_cast<Code>(mold_repairer_stats(&handle_, &stats));
    }
};

/// A re-request server, which responds to requests. It belongs to a Server or to a Publisher.
class Answering {
public:
    explicit Answering(const mold_server *server) noexcept : server_(server) {}

    [[nodiscard]] Code answer(Bytes request, Room buffer, std::uint64_t &number) const noexcept {
        return static_cast<Code>(
            mold_server_answer(server_, request.data(), request.size(), buffer.data(), buffer.size(), &number));
    }

    [[nodiscard]] Code plan(Bytes request, mold_plan &plan, std::uint64_t &number) const noexcept {
        return static_cast<Code>(mold_server_plan(server_, request.data(), request.size(), &plan, &number));
    }

    [[nodiscard]] Code datagram(mold_plan &plan, Room buffer, std::size_t &size) const noexcept {
        return static_cast<Code>(mold_server_datagram(server_, &plan, buffer.data(), buffer.size(), &size));
    }

private:
    const mold_server *server_;
};

/// Sends the messages of a session in datagrams, and keeps them in a journal.
class Publisher : public Owned<mold_publisher> {
public:
    [[nodiscard]] Code open(const Session &session, std::size_t limit = 1400) noexcept {
        return static_cast<Code>(mold_publisher_new(&handle_, session.data(), limit));
    }

    [[nodiscard]] Code publish(Bytes message, std::uint64_t &number) noexcept {
        return static_cast<Code>(mold_publisher_publish(&handle_, message.data(), message.size(), &number));
    }

    [[nodiscard]] bool is_full() const noexcept { return mold_publisher_is_full(&handle_); }

    [[nodiscard]] Code datagram(Room buffer, std::size_t &size) noexcept {
        return static_cast<Code>(mold_publisher_datagram(&handle_, buffer.data(), buffer.size(), &size));
    }

    [[nodiscard]] Code heartbeat(Room buffer, std::size_t &size) const noexcept {
        return static_cast<Code>(mold_publisher_heartbeat(&handle_, buffer.data(), buffer.size(), &size));
    }

    /// Closes the session. `reset` frees the publisher instead.
    [[nodiscard]] Code close_session(std::uint64_t &number) noexcept {
        return static_cast<Code>(mold_publisher_close(&handle_, &number));
    }

    [[nodiscard]] Code end(Room buffer, std::size_t &size) const noexcept {
        return static_cast<Code>(mold_publisher_end(&handle_, buffer.data(), buffer.size(), &size));
    }

    [[nodiscard]] Code save(Room buffer, std::size_t &size) const noexcept {
        return static_cast<Code>(mold_publisher_save(&handle_, buffer.data(), buffer.size(), &size));
    }

    [[nodiscard]] Code journal_head(Room buffer, std::size_t &size) const noexcept {
        return static_cast<Code>(mold_journal_head(&handle_, buffer.data(), buffer.size(), &size));
    }

    [[nodiscard]] Code journal_records(std::uint64_t from, Room buffer, std::size_t &size) const noexcept {
        return static_cast<Code>(mold_journal_records(&handle_, from, buffer.data(), buffer.size(), &size));
    }

    /// Continues the session of a journal file of version 3. Otherwise as `open`.
    [[nodiscard]] Code resume(std::size_t limit, Bytes journal, std::uint64_t &number) noexcept {
        return static_cast<Code>(mold_publisher_resume(&handle_, limit, journal.data(), journal.size(), &number));
    }

    /// Lets the publisher respond to requests too, through `server`. Unsent messages are never in a response.
    [[nodiscard]] Code serve(std::uint16_t burst) noexcept {
        return static_cast<Code>(mold_server_from_publisher(&handle_, burst));
    }

    /// The server of this publisher. It is valid until this publisher is moved or destroyed.
    Answering server() const noexcept {
        const void *handle = &handle_;
        return Answering(static_cast<const mold_server *>(handle));
    }
};

/// A re-request server over the bytes of a journal file.
class Server : public Owned<mold_server> {
public:
    [[nodiscard]] Code open(std::size_t limit, std::uint16_t burst, Bytes journal, std::uint64_t &number) noexcept {
        return static_cast<Code>(mold_server_new(&handle_, limit, burst, journal.data(), journal.size(), &number));
    }

    [[nodiscard]] Code answer(Bytes request, Room buffer, std::uint64_t &number) const noexcept {
        return Answering(&handle_).answer(request, buffer, number);
    }

    [[nodiscard]] Code plan(Bytes request, mold_plan &plan, std::uint64_t &number) const noexcept {
        return Answering(&handle_).plan(request, plan, number);
    }

    [[nodiscard]] Code datagram(mold_plan &plan, Room buffer, std::size_t &size) const noexcept {
        return Answering(&handle_).datagram(plan, buffer, size);
    }
};

/// Reports whether captured datagrams are one whole session.
class Checker : public Owned<mold_checker> {
public:
    [[nodiscard]] Code open() noexcept { return static_cast<Code>(mold_checker_new(&handle_)); }

    [[nodiscard]] Code take(Bytes datagram, std::uint64_t &number) noexcept {
        return static_cast<Code>(mold_checker_take(&handle_, datagram.data(), datagram.size(), &number));
    }

    [[nodiscard]] Code verdict(mold_verdict &verdict) const noexcept {
        return static_cast<Code>(mold_checker_verdict(&handle_, &verdict));
    }

    [[nodiscard]] Code ranges(mold_range *array, std::size_t room, std::size_t &count) const noexcept {
        return static_cast<Code>(mold_checker_ranges(&handle_, array, room, &count));
    }
};

} // namespace mold

template <>
struct std::hash<mold::Session> {
    std::size_t operator()(const mold::Session &session) const noexcept {
        const auto *name = reinterpret_cast<const char *>(session.data());
        return std::hash<std::string_view>()(std::string_view(name, session.size()));
    }
};

#endif
