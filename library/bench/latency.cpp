// Measures how long single calls of the library's listener take, beside those of a plain receiver in C++. The output is
// a Markdown table in nanoseconds.
//
//     c++ -O2 -std=c++17 library/bench/latency.cpp library/out/libmold.a -o latency && ./latency
//
// A stream has datagrams of one message. Each hundredth is late by two fifths of the window, or none is. A receiver
// takes the same stream in several passes, and for each datagram the least time of its passes counts. So what another
// program or the system delays is left out, and what the receiver does at this datagram is not. The table has the times
// that 50, 99, 99.9 and 99.99 percent of the datagrams do not exceed, and the greatest time.
//
// A time begins before the call, and ends when all messages that the datagram delivers were passed to a function. A
// receiver that copies messages into a batch also empties the batch. The time of an empty measurement is subtracted.
//
// Freed memory stays in the process, so only the first pass waits for new pages of memory. With windows of 1,048,576
// messages the process needs some 2 GB. With --brief there are only a few datagrams and small windows.
#include "receivers.hpp"

#include <malloc.h>
#include <x86intrin.h>

namespace {

/// One datagram of this many is late.
constexpr std::uint64_t one_of = 100;

/// A stream of datagrams: the number of the message of each, in the order of their arrival.
struct Stream {
    std::uint32_t window;
    std::size_t length;
    bool has_late;
    std::vector<std::uint32_t> numbers;
};

Stream stream_of(std::uint32_t window, std::size_t length, std::size_t count, bool has_late) {
    Stream stream{window, length, has_late, {}};
    const std::uint64_t late_by = std::uint64_t{window} * 2 / 5;
    const auto is_late = [has_late](std::uint64_t number) { return has_late && number % one_of == 0; };
    for (std::uint64_t time = 1; time <= count + late_by; time++) {
        if (time <= count && !is_late(time))
            stream.numbers.push_back(static_cast<std::uint32_t>(time));
        if (time > late_by && is_late(time - late_by))
            stream.numbers.push_back(static_cast<std::uint32_t>(time - late_by));
    }
    return stream;
}

// ---- Receivers, each with a method that takes a datagram and passes the delivered messages to a sum ----

class PlainByFunction {
public:
    explicit PlainByFunction(std::uint32_t window) : receiver_(session, 1, window) {}

    void take(const std::vector<std::uint8_t> &bytes, Sum &sum) {
        mold_taken taken{};
        if (receiver_.take(MOLD_LINE_A, bytes.data(), bytes.size(), taken,
                           [&sum](std::uint64_t, const std::uint8_t *at, std::size_t length) {
                               sum.add(at, length);
                           }) != MOLD_DONE)
            stop("a datagram was refused");
    }

private:
    plain::Receiver<true> receiver_;
};

class LibraryByFunction {
public:
    explicit LibraryByFunction(std::uint32_t window) {
        if (listener_.open(*mold::Session::of("BENCH"), 1, window) != mold::Code::Done)
            stop("the listener cannot be made");
    }

    void take(const std::vector<std::uint8_t> &bytes, Sum &sum) {
        mold_delivery delivery{};
        if (listener_.hear(mold::Line::A, bytes, delivery,
                           [&sum](mold::Bytes message) { sum.add(message.data(), message.size()); }) !=
            mold::Code::Done)
            stop("a datagram was refused");
    }

private:
    mold::Listener listener_;
};

template <class Listener>
class ByBatch {
public:
    explicit ByBatch(std::uint32_t window) : listener_(window), slices_(window) {}

    void take(const std::vector<std::uint8_t> &bytes, Sum &sum) {
        mold_taken taken{};
        if (listener_.take(MOLD_LINE_A, bytes.data(), bytes.size(), taken) != MOLD_DONE)
            stop("a datagram was refused");
        if (taken.delivered == 0)
            return;
        const std::size_t count = listener_.messages(slices_.data(), slices_.size());
        for (std::size_t i = 0; i < count; i++)
            sum.add(slices_[i].at, slices_[i].length);
        listener_.clear();
    }

private:
    Listener listener_;
    std::vector<mold_bytes> slices_;
};

// ---- Times ----

/// The time stamp counter. All loads before it are done, and nothing after it has begun.
std::uint64_t ticks() {
    _mm_lfence();
    const std::uint64_t time = __rdtsc();
    _mm_lfence();
    return time;
}

/// The nanoseconds of a tick, and the ticks of an empty measurement.
struct Scale {
    double nanoseconds = 0;
    std::uint64_t empty = UINT64_MAX;
};

Scale scale_of() {
    Scale scale;
    for (int i = 0; i < 100000; i++) {
        const std::uint64_t began = ticks();
        scale.empty = std::min(scale.empty, ticks() - began);
    }
    const Clock::time_point began = Clock::now();
    const std::uint64_t first = ticks();
    while (since(began) < 1e8) {
    }
    scale.nanoseconds = since(began) / static_cast<double>(ticks() - first);
    return scale;
}

void set_number(std::vector<std::uint8_t> &bytes, std::uint64_t number) {
    for (std::size_t i = 0; i < 8; i++)
        bytes[10 + i] = static_cast<std::uint8_t>(number >> (56 - 8 * i));
}

/// The ticks of each datagram of a stream, the least of several passes, in ascending order.
template <class Receiver>
std::vector<std::uint64_t> times_of(const Stream &stream, int passes) {
    std::vector<std::uint64_t> least(stream.numbers.size(), UINT64_MAX);
    std::vector<std::uint8_t> bytes = datagram(1, 1, stream.length);
    for (int pass = 0; pass < passes; pass++) {
        Receiver receiver(stream.window);
        Sum sum;
        for (std::size_t i = 0; i < stream.numbers.size(); i++) {
            set_number(bytes, stream.numbers[i]);
            const std::uint64_t began = ticks();
            receiver.take(bytes, sum);
            least[i] = std::min(least[i], ticks() - began);
        }
        if (sum.messages != stream.numbers.size())
            stop("not all messages were delivered");
    }
    std::sort(least.begin(), least.end());
    return least;
}

// ---- The table ----

/// A number with commas between groups of three digits.
std::string grouped(std::uint64_t number) {
    std::string text = std::to_string(number);
    for (std::size_t i = text.size(); i > 3; i -= 3)
        text.insert(i - 3, ",");
    return text;
}

/// The time that this part of the datagrams, in ten thousandths, does not exceed, in nanoseconds.
std::string at_part(const std::vector<std::uint64_t> &times, std::size_t part, const Scale &scale) {
    const std::uint64_t time = times[(times.size() * part + 9999) / 10000 - 1];
    const std::uint64_t used = time > scale.empty ? time - scale.empty : 0;
    return grouped(static_cast<std::uint64_t>(static_cast<double>(used) * scale.nanoseconds + 0.5));
}

template <class Receiver>
void print_row(const Stream &stream, const char *name, int passes, const Scale &scale) {
    const std::vector<std::uint64_t> times = times_of<Receiver>(stream, passes);
    std::printf("| %s | %s | %s | %s |", stream.has_late ? "1 %" : "none", grouped(stream.window).c_str(),
                grouped(stream.length).c_str(), name);
    for (std::size_t part : {5000u, 9900u, 9990u, 9999u, 10000u})
        std::printf(" %s |", at_part(times, part, scale).c_str());
    std::printf("\n");
    std::fflush(stdout);
}

void print_rows(const Stream &stream, int passes, const Scale &scale) {
    print_row<PlainByFunction>(stream, "function, plain", passes, scale);
    print_row<LibraryByFunction>(stream, "function, library (`hear`)", passes, scale);
    print_row<ByBatch<Plain<true>>>(stream, "copied, plain", passes, scale);
    print_row<ByBatch<Library>>(stream, "copied, library (`take`)", passes, scale);
}

/// Keeps freed memory in the process.
void keep_memory() {
    if (mallopt(M_MMAP_MAX, 0) != 1 || mallopt(M_TRIM_THRESHOLD, -1) != 1)
        stop("the options of malloc cannot be set");
}

} // namespace

int main(int count, char **words) {
    const bool brief = count > 1 && std::string(words[1]) == "--brief";
    const int passes = brief ? 2 : 9;
    keep_memory();
    const Scale scale = scale_of();
    std::printf("| Late | Window | Bytes | Receiver | p50 | p99 | p99.9 | p99.99 | Worst |\n");
    std::printf("|---|---|---|---|---|---|---|---|---|\n");
    for (std::size_t length : {40u, 1400u})
        print_rows(stream_of(1024, length, brief ? 5000 : 400000, false), passes, scale);
    for (std::uint32_t window : {1024u, 65536u, 1048576u})
        for (std::size_t length : {40u, 1400u}) {
            const std::size_t datagrams = brief ? 5000 : std::max(400000u, 2 * window);
            if (!brief || window == 1024)
                print_rows(stream_of(window, length, datagrams, true), passes, scale);
        }
    return 0;
}
