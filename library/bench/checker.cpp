// Measures a checker that has many runs of messages. In each row it takes a datagram whose messages are new, and
// refuses a datagram with MOLD_E_MEMORY after it has added eight messages of it, which it then removes. Both datagrams
// have 84 bytes and 32 empty messages. The table has the least time, in nanoseconds a datagram.
//
//     c++ -O2 -std=c++17 library/bench/checker.cpp library/out/libmold.a -o checker && ./checker
#include "bench.hpp"

/// Whether allocations fail.
static bool is_refusing = false;

// These functions replace those of alloc.c. They do the same, unless allocations are to fail.
extern "C" {
struct memory {
    std::uint64_t had;
    void *at;
};

memory rattle_alloc(std::size_t size, std::size_t align) {
    static char nothing;
    void *const at = is_refusing || align > 16 ? nullptr : std::malloc(size != 0 ? size : align);
    return {at != nullptr, at != nullptr ? at : &nothing};
}

memory rattle_realloc(void *old, std::size_t, std::size_t size, std::size_t align) {
    static char nothing;
    void *const at = is_refusing || align > 16 ? nullptr : std::realloc(old, size != 0 ? size : align);
    return {at != nullptr, at != nullptr ? at : &nothing};
}

void rattle_dealloc(void *old) {
    std::free(old);
}
}

namespace {

/// The number of messages of a datagram that a checker takes or refuses.
constexpr std::size_t at_once = 32;

/// A checker that has taken the messages 1, 3, 5 and so on, each of which is a run, and one run above them. Message 1 has
/// one byte and all others have none, so the checker stores where each message after it ends.
class Checker {
public:
    /// The last run leaves room for eight more messages in the list of ends, whose capacity is a power of two. Message 1
    /// is not in it.
    explicit Checker(std::uint64_t runs) : runs_(runs) {
        if (mold_checker_new(&checker_) != MOLD_DONE)
            stop("the checker cannot be made");
        for (std::uint64_t i = 0; i < runs; i++)
            take(datagram(2 * i + 1, 1, i == 0 ? 1 : 0), MOLD_DONE);
        std::uint64_t room = 1;
        while (room < runs + 9)
            room *= 2;
        take(datagram(2 * runs + 1, room - 7 - runs, 0), MOLD_DONE);
        next_ = runs + room;
    }

    Checker(const Checker &) = delete;
    Checker &operator=(const Checker &) = delete;
    ~Checker() { mold_free(&checker_); }

    /// The time of a datagram every second message of which is new, while allocations fail.
    double of_refused() {
        constexpr int count = 8;
        const std::vector<std::uint8_t> bytes = datagram(runs_, at_once, 0);
        is_refusing = true;
        const Clock::time_point began = Clock::now();
        for (int i = 0; i < count; i++)
            take(bytes, MOLD_E_MEMORY);
        const double took = since(began);
        is_refusing = false;
        return took / count;
    }

    /// The time of a datagram whose messages are new.
    double of_taken() {
        constexpr std::size_t count = 16;
        std::vector<std::vector<std::uint8_t>> made;
        for (std::size_t i = 0; i < count; i++, next_ += at_once)
            made.push_back(datagram(next_, at_once, 0));
        const Clock::time_point began = Clock::now();
        for (const std::vector<std::uint8_t> &bytes : made)
            take(bytes, MOLD_DONE);
        return since(began) / count;
    }

private:
    void take(const std::vector<std::uint8_t> &bytes, std::uint32_t wanted) {
        std::uint64_t number = 0;
        if (mold_checker_take(&checker_, bytes.data(), bytes.size(), &number) != wanted)
            stop("the checker returned another code");
    }

    mold_checker checker_ = MOLD_EMPTY;
    std::uint64_t runs_, next_ = 0;
};

/// Prints the row of a checker with this number of runs.
void print_row(std::uint64_t runs) {
    constexpr int rounds = 20;
    Checker checker(runs);
    double taken = 1e18, refused = 1e18;
    for (int round = 0; round < rounds; round++)
        refused = std::min(refused, checker.of_refused());
    for (int round = 0; round < rounds; round++)
        taken = std::min(taken, checker.of_taken());
    std::printf("%-24s %10.1f %10.1f %10.2f\n", (std::to_string(runs) + " runs").c_str(), taken, refused,
                refused / taken);
}

} // namespace

int main() {
    std::printf("%-24s %10s %10s %10s\n", "nanoseconds a datagram", "taken", "refused", "ratio");
    for (std::uint64_t runs : {1000u, 100000u, 1000000u})
        print_row(runs);
    return 0;
}
