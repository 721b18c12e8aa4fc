// Measures the library's listener against a plain receiver in C++ that does the same checks. Both are measured in two
// forms. In the first they pass each message to a function without a copy; the plain receiver is inlined into its
// caller, and the listener has the call `hear`. In the second they copy the messages into a batch, and have the same
// calls.
//
//     c++ -O2 -std=c++17 library/bench/bench.cpp library/out/libmold.a -pthread -o bench && ./bench
//
// Each row of the first table is one kind of work. In each round every receiver does it once. The table has the least
// time of a round, in nanoseconds a datagram. The plain receiver has two stores; the faster one counts. For each
// receiver the program sums the lengths and the first bytes of the delivered messages. It stops if the sums differ.
//
// The second table has the datagrams a second of one, two and four threads, each with its own listener. They are
// measured by the clock, which needs an idle machine, and by the processor time of the threads.
//
// With --brief there are only a few rounds, and the times are rough. With --rounds N there are N rounds, and only the
// first table. With --threads there is only the second table. library/bench/run uses these options to link the program
// in several layouts.
#include "receivers.hpp"

#include <atomic>
#include <ctime>
#include <thread>

namespace {

/// The window of the receivers, unless a kind of work needs a larger one.
constexpr std::uint32_t usual_window = 1024;

/// A datagram, and its line.
struct Arrival {
    std::vector<std::uint8_t> bytes;
    std::uint32_t line;
};

/// A kind of work: datagrams that a new receiver takes in this order. The batch is read after each `at_once` of them.
struct Work {
    std::string name;
    std::vector<Arrival> arrivals;
    std::size_t at_once = 1;
    std::uint32_t window = usual_window;
};

// ---- The kinds of work ----

Work in_order(std::size_t count) {
    Work work{"in order, " + std::to_string(count) + " x 40 bytes", {}};
    for (std::uint64_t i = 0; i < 1000; i++)
        work.arrivals.push_back({datagram(1 + i * count, count, 40), MOLD_LINE_A});
    return work;
}

/// The same, but the batch is read after 20 datagrams, as after one `recvmmsg`.
Work in_order_at_once(std::size_t count) {
    Work work = in_order(count);
    work.name += ", read after 20";
    work.at_once = 20;
    return work;
}

Work heartbeats() {
    Work work{"heartbeat", {}};
    for (int i = 0; i < 1000; i++)
        work.arrivals.push_back({datagram(1, 0, 0), MOLD_LINE_A});
    return work;
}

Work repeated() {
    Work work{"repeated, 10 x 40", {}};
    for (int i = 0; i < 1000; i++)
        work.arrivals.push_back({datagram(1, 10, 40), MOLD_LINE_A});
    return work;
}

Work two_lines() {
    Work work{"two lines, 10 x 40, for each call", {}};
    for (std::uint64_t i = 0; i < 500; i++)
        for (std::uint32_t line : {MOLD_LINE_A, MOLD_LINE_B})
            work.arrivals.push_back({datagram(1 + i * 10, 10, 40), line});
    return work;
}

/// Nine datagrams arrive above a gap, and then the response that fills the gap.
Work stored() {
    Work work{"9 of 10 stored, 10 x 40", {}};
    for (std::uint64_t gap = 0; gap < 100; gap++) {
        for (std::uint64_t i = 1; i < 10; i++)
            work.arrivals.push_back({datagram(1 + gap * 100 + i * 10, 10, 40), MOLD_LINE_A});
        work.arrivals.push_back({datagram(1 + gap * 100, 10, 40), MOLD_ANSWER});
    }
    return work;
}

/// A new gap opens before the old one is filled, so that the store is never empty.
Work never_empty() {
    Work work{"never empty, 1 x 1,400", {}};
    work.arrivals.push_back({datagram(2, 1, 1400), MOLD_LINE_A});
    for (std::uint64_t i = 1; i < 500; i++) {
        work.arrivals.push_back({datagram(2 * i + 2, 1, 1400), MOLD_LINE_A});
        work.arrivals.push_back({datagram(2 * i - 1, 1, 1400), MOLD_LINE_A});
    }
    return work;
}

/// A store of many messages: 64 datagrams arrive above a gap, and 64 above the next gap before the first is filled.
Work never_empty_behind() {
    Work work{"never empty, 64 stored, 1 x 1,400", {}};
    for (std::uint64_t i = 2; i <= 65; i++)
        work.arrivals.push_back({datagram(i, 1, 1400), MOLD_LINE_A});
    for (std::uint64_t gap = 0; gap < 14; gap++) {
        for (std::uint64_t i = 2; i <= 65; i++)
            work.arrivals.push_back({datagram(65 * (gap + 1) + i, 1, 1400), MOLD_LINE_A});
        work.arrivals.push_back({datagram(65 * gap + 1, 1, 1400), MOLD_ANSWER});
    }
    return work;
}

/// One message at the end of the window is stored. Then of each two messages the second arrives first. So each second
/// datagram fills a gap, and the next stored message is far away.
Work far_ahead(std::uint32_t window) {
    Work work{"one at the end of " + std::to_string(window), {}};
    work.window = window;
    work.arrivals.push_back({datagram(window, 1, 0), MOLD_LINE_A});
    for (std::uint64_t n = 1; n < 1000 && n + 1 < window; n += 2)
        for (std::uint64_t sequence : {n + 1, n})
            work.arrivals.push_back({datagram(sequence, 1, 0), MOLD_LINE_A});
    return work;
}

// ---- Rounds ----

/// The time of a round in which the plain receiver passes messages to a function.
template <bool keeps_memory>
double by_function(const Work &work, Sum &sum) {
    plain::Receiver<keeps_memory> receiver(session, 1, work.window);
    mold_taken taken{};
    const Clock::time_point began = Clock::now();
    for (const Arrival &arrival : work.arrivals)
        receiver.take(arrival.line, arrival.bytes.data(), arrival.bytes.size(), taken,
                      [&sum](std::uint64_t, const std::uint8_t *at, std::size_t length) { sum.add(at, length); });
    return since(began);
}

/// The time of a round in which the library's listener passes messages to a function.
double by_hearing(const Work &work, Sum &sum) {
    mold::Listener listener;
    if (listener.open(*mold::Session::of("BENCH"), 1, work.window) != mold::Code::Done)
        stop("the listener cannot be made");
    mold_delivery delivery{};
    const Clock::time_point began = Clock::now();
    for (const Arrival &arrival : work.arrivals)
        if (listener.hear(static_cast<mold::Line>(arrival.line), arrival.bytes, delivery, [&sum](mold::Bytes message) {
                sum.add(message.data(), message.size());
            }) != mold::Code::Done)
            stop("a datagram was refused");
    return since(began);
}

/// The time of a round in which one call returns all messages of the batch, which is then cleared. The batch is read
/// after `at_once` datagrams.
template <class Listener>
double by_batch(const Work &work, Sum &sum) {
    Listener listener(work.window);
    std::vector<mold_bytes> room(64);
    mold_taken taken{};
    std::size_t delivered = 0, datagrams = 0;
    const Clock::time_point began = Clock::now();
    for (const Arrival &arrival : work.arrivals) {
        if (listener.take(arrival.line, arrival.bytes.data(), arrival.bytes.size(), taken) != MOLD_DONE)
            stop("a datagram was refused");
        delivered += taken.delivered;
        if (delivered == 0 || ++datagrams < work.at_once)
            continue;
        if (delivered > room.size())
            room.resize(delivered);
        if (listener.messages(room.data(), room.size()) != delivered)
            stop("the batch has another number of messages than were delivered");
        for (std::size_t i = 0; i < delivered; i++)
            sum.add(room[i].at, room[i].length);
        listener.clear();
        delivered = datagrams = 0;
    }
    return since(began);
}

// ---- Tables ----

void run_row(const Work &work, int rounds) {
    using Round = double (*)(const Work &, Sum &);
    const Round rounds_of[] = {by_function<true>,      by_function<false>, by_hearing, by_batch<Plain<true>>,
                               by_batch<Plain<false>>, by_batch<Library>};
    const std::size_t columns[] = {0, 0, 1, 2, 2, 3};
    double least[] = {1e18, 1e18, 1e18, 1e18};
    for (int round = 0; round < rounds; round++) {
        Sum sums[6];
        for (std::size_t who = 0; who < 6; who++) {
            double &best = least[columns[who]];
            best = std::min(best, rounds_of[who](work, sums[who]));
            if (!(sums[who] == sums[0]))
                stop("the receivers delivered different messages");
        }
    }
    const double count = static_cast<double>(work.arrivals.size());
    std::printf("%-38s %9.2f %9.2f %7.2f %9.2f %9.2f %7.2f\n", work.name.c_str(), least[0] / count, least[1] / count,
                least[1] / least[0], least[2] / count, least[3] / count, least[3] / least[2]);
    std::fflush(stdout);
}

/// Datagrams a second, by the clock and by the processor time of the threads.
struct Rates {
    double by_clock = 0, by_processors = 0;
};

/// The processor time of this thread, in nanoseconds.
double processor_time() {
    timespec time{};
    if (clock_gettime(CLOCK_THREAD_CPUTIME_ID, &time) != 0)
        stop("the processor time cannot be read");
    return 1e9 * static_cast<double>(time.tv_sec) + static_cast<double>(time.tv_nsec);
}

/// The rates of threads that start together, each with its own listener.
Rates in_threads(const Work &work, unsigned threads, int rounds) {
    std::atomic<unsigned> ready{0};
    std::atomic<bool> go{false};
    std::vector<std::thread> started;
    std::vector<double> used(threads);
    for (unsigned i = 0; i < threads; i++)
        started.emplace_back([&work, &ready, &go, &time = used[i], rounds] {
            Sum sum;
            by_batch<Library>(work, sum);
            ready++;
            while (!go.load())
                std::this_thread::yield();
            const double began = processor_time();
            for (int round = 0; round < rounds; round++)
                by_batch<Library>(work, sum);
            time = processor_time() - began;
        });
    while (ready.load() < threads)
        std::this_thread::yield();
    const Clock::time_point began = Clock::now();
    go.store(true);
    for (std::thread &thread : started)
        thread.join();
    const double took = since(began), datagrams = 1e9 * rounds * static_cast<double>(work.arrivals.size());
    Rates rates{threads * datagrams / took, 0};
    for (double time : used)
        rates.by_processors += datagrams / time;
    return rates;
}

/// Prints the rates of one, two and four threads. The fastest of many short runs counts, because on a busy machine all
/// processors are seldom free at once.
void run_threads(int runs) {
    const Work work = in_order(10);
    Rates alone;
    std::printf("%-20s %17s %17s %17s %10s\n", "threads", "datagrams/s", "by one", "by processors", "by one");
    for (unsigned threads : {1u, 2u, 4u}) {
        Rates most;
        for (int run = 0; run < runs; run++) {
            const Rates rates = in_threads(work, threads, 100);
            most.by_clock = std::max(most.by_clock, rates.by_clock);
            most.by_processors = std::max(most.by_processors, rates.by_processors);
        }
        alone = threads == 1 ? most : alone;
        std::printf("%-20u %17.0f %17.2f %17.0f %10.2f\n", threads, most.by_clock, most.by_clock / alone.by_clock,
                    most.by_processors, most.by_processors / alone.by_processors);
    }
}

/// Prints the first table.
void run_rows(int rounds) {
    const char *const line = "%-38s %9s %9s %7s %9s %9s %7s\n";
    std::printf(line, "nanoseconds a datagram", "function,", "function,", "library", "copied,", "copied,", "library");
    std::printf(line, "", "plain", "library", "/ plain", "plain", "library", "/ plain");
    for (const Work &work : {heartbeats(), in_order(1), in_order(10), in_order(30), in_order_at_once(1), repeated(),
                             two_lines(), stored(), never_empty(), never_empty_behind(), far_ahead(1024), far_ahead(65536)})
        run_row(work, rounds);
}

} // namespace

int main(int count, char **words) {
    const std::vector<std::string> options(words + 1, words + count);
    const auto has = [&options](const char *name) { return std::count(options.begin(), options.end(), name) > 0; };
    if (options.size() == 2 && has("--rounds")) {
        run_rows(std::max(1, std::atoi(words[2])));
        return 0;
    }
    if (!has("--threads")) {
        run_rows(has("--brief") ? 3 : 500);
        std::printf("\n");
    }
    run_threads(has("--brief") ? 3 : 200);
    return 0;
}
