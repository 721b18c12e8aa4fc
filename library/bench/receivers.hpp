// The receivers that the benchmarks compare, besides the plain receiver that passes messages to a function: the
// library's listener and the plain one, with the same method names. Both copy messages into a batch.
#ifndef MOLD_BENCH_RECEIVERS_HPP
#define MOLD_BENCH_RECEIVERS_HPP

#include "../mold.hpp"
#include "bench.hpp"
#include "plain.hpp"

/// Sums over the delivered messages, so that the compiler cannot omit the work.
struct Sum {
    std::uint64_t messages = 0, lengths = 0, first_bytes = 0;

    void add(const std::uint8_t *at, std::size_t length) {
        messages++;
        lengths += length;
        first_bytes += length > 0 ? at[0] : 0;
    }

    bool operator==(const Sum &other) const {
        return messages == other.messages && lengths == other.lengths && first_bytes == other.first_bytes;
    }
};

/// The library's listener, with the method names of the plain one.
class Library {
public:
    explicit Library(std::uint32_t window) {
        if (mold_listener_new(&listener_, session, 1, window) != MOLD_DONE)
            stop("the listener cannot be made");
    }

    Library(const Library &) = delete;
    Library &operator=(const Library &) = delete;
    ~Library() { mold_free(&listener_); }

    std::uint32_t take(std::uint32_t line, const std::uint8_t *bytes, std::size_t length, mold_taken &taken) {
        return mold_listener_take(&listener_, line, bytes, length, &taken);
    }

    std::size_t messages(mold_bytes *array, std::size_t room) {
        return mold_listener_messages(&listener_, array, room);
    }

    void clear() { mold_listener_clear(&listener_); }

private:
    mold_listener listener_ = MOLD_EMPTY;
};

template <bool keeps_memory>
struct Plain : plain::Listener<keeps_memory> {
    explicit Plain(std::uint32_t window) : plain::Listener<keeps_memory>(session, 1, window) {}
};

#endif
