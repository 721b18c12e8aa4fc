// Measures what datagrams above a gap cost a listener, by the time of a datagram in order. The rows are windows, and the
// columns are nanoseconds a datagram, each the least of several rounds:
//
//   in order   one empty message, delivered at once
//   gaps       one message is stored at the end of the window, and then of each two messages the second arrives first
//   refused    all messages of the window but the first are stored; the first is refused, since there is no memory to
//              deliver them
//
// A second table has the times of a datagram with one empty message, if every second message of the window is stored in
// a random order: the least of several rounds, and the first round, which takes its memory from the system. The ratios are
// to as many datagrams in order.
//
//     c++ -O2 -std=c++17 library/bench/store.cpp library/out/libmold.a -o store && ./store
#include "bench.hpp"

#include <random>
#include <utility>

/// The most bytes that an allocation may have.
static std::size_t most = SIZE_MAX;

// These functions replace those of alloc.c. They do the same, unless an allocation is too large.
extern "C" {
struct memory {
    std::uint64_t had;
    void *at;
};

memory rattle_alloc(std::size_t size, std::size_t align) {
    static char nothing;
    void *const at = size > most || align > 16 ? nullptr : std::malloc(size != 0 ? size : align);
    return {at != nullptr, at != nullptr ? at : &nothing};
}

memory rattle_realloc(void *old, std::size_t, std::size_t size, std::size_t align) {
    static char nothing;
    void *const at = size > most || align > 16 ? nullptr : std::realloc(old, size != 0 ? size : align);
    return {at != nullptr, at != nullptr ? at : &nothing};
}

void rattle_dealloc(void *old) {
    std::free(old);
}
}

namespace {

using Datagrams = std::vector<std::vector<std::uint8_t>>;

constexpr int rounds = 20;
/// The number of datagrams of a round.
constexpr std::uint64_t at_once = 1000;

class Listener {
public:
    explicit Listener(std::uint32_t window) {
        if (mold_listener_new(&listener_, session, 1, window) != MOLD_DONE)
            stop("the listener cannot be made");
    }

    Listener(const Listener &) = delete;
    Listener &operator=(const Listener &) = delete;
    ~Listener() { mold_free(&listener_); }

    /// Takes a datagram, and empties the batch if it has messages then.
    void take(const std::vector<std::uint8_t> &bytes, std::uint32_t wanted = MOLD_DONE) {
        mold_taken taken{};
        if (mold_listener_take(&listener_, MOLD_LINE_A, bytes.data(), bytes.size(), &taken) != wanted)
            stop("the listener returned another code");
        if (taken.delivered > 0)
            mold_listener_clear(&listener_);
    }

private:
    mold_listener listener_ = MOLD_EMPTY;
};

/// The least time of a datagram, for a new listener that has taken the first datagrams in each round.
double least(std::uint32_t window, const Datagrams &first, const Datagrams &timed) {
    double best = 1e18;
    for (int round = 0; round < rounds; round++) {
        Listener listener(window);
        for (const std::vector<std::uint8_t> &bytes : first)
            listener.take(bytes);
        const Clock::time_point began = Clock::now();
        for (const std::vector<std::uint8_t> &bytes : timed)
            listener.take(bytes);
        best = std::min(best, since(began));
    }
    return best / static_cast<double>(timed.size());
}

double in_order(std::uint32_t window, std::uint64_t count = at_once) {
    Datagrams timed;
    for (std::uint64_t i = 0; i < count; i++)
        timed.push_back(datagram(1 + i, 1, 0));
    return least(window, {}, timed);
}

double with_gaps(std::uint32_t window) {
    Datagrams timed;
    for (std::uint64_t n = 1; n < at_once && n + 1 < window; n += 2)
        for (std::uint64_t sequence : {n + 1, n})
            timed.push_back(datagram(sequence, 1, 0));
    return least(window, {datagram(window, 1, 0)}, timed);
}

/// The listener needs twice the bytes that it may have. The first refusal may copy some of them, and is not timed.
double refused(std::uint32_t window) {
    constexpr std::size_t length = 40;
    Listener listener(window);
    for (std::uint64_t n = window; n > 1; n--)
        listener.take(datagram(n, 1, length));
    const std::vector<std::uint8_t> bytes = datagram(1, 1, 0);
    most = window * length / 2;
    listener.take(bytes, MOLD_E_MEMORY);
    double best = 1e18;
    for (int round = 0; round < rounds; round++) {
        const Clock::time_point began = Clock::now();
        for (std::uint64_t i = 0; i < at_once; i++)
            listener.take(bytes, MOLD_E_MEMORY);
        best = std::min(best, since(began));
    }
    most = SIZE_MAX;
    listener.take(bytes);
    return best / at_once;
}

/// The least time of a datagram and that of the first round, if every second message of the window is stored in a random
/// order.
std::pair<double, double> scattered(std::uint32_t window) {
    std::vector<std::uint64_t> numbers;
    for (std::uint64_t n = 2; n <= window; n += 2)
        numbers.push_back(n);
    std::shuffle(numbers.begin(), numbers.end(), std::mt19937_64(1));
    Datagrams timed;
    for (const std::uint64_t n : numbers)
        timed.push_back(datagram(n, 1, 0));
    double best = 1e18, first = 0;
    for (int round = 0; round < rounds; round++) {
        Listener listener(window);
        const Clock::time_point began = Clock::now();
        for (const std::vector<std::uint8_t> &bytes : timed)
            listener.take(bytes);
        const double time = since(began) / static_cast<double>(timed.size());
        best = std::min(best, time);
        first = round == 0 ? time : first;
    }
    return {best, first};
}

} // namespace

int main() {
    std::printf("%-12s %10s %10s %10s %10s %10s\n", "window", "in order", "gaps", "refused", "ratio", "ratio");
    for (std::uint32_t window : {1024u, 65536u, 1048576u}) {
        const double plain = in_order(window), gaps = with_gaps(window), no = refused(window);
        std::printf("%-12u %10.1f %10.1f %10.1f %10.2f %10.2f\n", window, plain, gaps, no, gaps / plain, no / plain);
    }
    std::printf("\n%-12s %10s %10s %10s %10s %10s\n", "window", "in order", "scattered", "first", "ratio", "ratio");
    for (std::uint32_t window : {1024u, 65536u, 1048576u}) {
        const double plain = in_order(window, window / 2);
        const auto [least, first] = scattered(window);
        std::printf("%-12u %10.1f %10.1f %10.1f %10.2f %10.2f\n", window, plain, least, first, least / plain,
                    first / plain);
    }
    return 0;
}
