// A feed handler for many channels in one thread, in C++20. Each channel is a session on two lines, with a re-request
// server. All sockets are in one epoll set, and each channel has a repairer.
//
//     c++ -O2 -std=c++20 -I library library/examples/channels.cpp library/out/libmold.a -o channels
//     ./channels ONE,239.192.1.1:26477,239.192.2.1:26477,10.0.0.9:26401
//
// Each further argument is another channel. If the address of a line is a multicast group, the handler joins it on the
// interface. `./channels --help` lists the options and their defaults.
//
// At the end it prints what each channel delivered, and the latency: the time from the system's receipt of a datagram
// to the delivery of a message in it. For a message that was stored above a gap, this includes the wait for the gap.
// The percentiles are exact to two percent. The status is 0 if it delivered the whole session of each channel, 1 if
// messages are missing, and 3 after an error.
#include <mold.hpp>
#include "udp.h"

#include <algorithm>
#include <array>
#include <bit>
#include <cinttypes>
#include <cstring>
#include <memory>
#include <string>
#include <sys/epoll.h>
#include <sys/timerfd.h>
#include <vector>

namespace {

constexpr char usage[] =
    "usage: channels [OPTION VALUE].. SESSION,LINE_A,LINE_B,SERVER..\n"
    "\n"
    "Receives any number of channels, each with a session, two lines and a re-request server. Addresses are such\n"
    "as 239.192.1.1:26477.\n"
    "\n"
    "  --interface ADDRESS  the interface on which the handler joins multicast groups (chosen by the system)\n"
    "  --output FILE        write each message to a file, as a line SESSION NUMBER BYTES (messages are only counted)\n"
    "  --window W           the window of a channel, in messages (65536)\n"
    "  --give-up N          a message is given up after N requests without a response (never)\n"
    "  --quiet MS           the handler ends after this time without a datagram (10000)\n"
    "  --help               print this text\n";

/// The greatest number of datagrams of one system call.
constexpr std::size_t at_once = 32;

struct Options {
    const char *interface = "0.0.0.0";
    FILE *output = nullptr;
    mold::RepairOptions repair;
    std::uint64_t quiet = 10000 * MILLISECONDS;
    std::vector<const char *> channels;
};

/// The time of the clock that the system stamps datagrams with, in nanoseconds.
std::uint64_t stamp() {
    timespec time{};
    clock_gettime(CLOCK_REALTIME, &time);
    return static_cast<std::uint64_t>(time.tv_sec) * 1000000000 + static_cast<std::uint64_t>(time.tv_nsec);
}

/// Times in nanoseconds, counted in buckets: 64 between a power of two and the next.
class Latency {
public:
    void add(std::uint64_t began, std::uint64_t ended) {
        const std::uint64_t time = ended > began ? ended - began : 0;
        const int shift = static_cast<int>(std::bit_width(time | 127)) - 7;
        buckets_[static_cast<std::size_t>(shift) * 64 + (time >> shift)]++;
        count_++;
        worst_ = std::max(worst_, time);
    }

    void print(const char *what) const {
        std::printf("latency %s messages %" PRIu64 " p50 %.1f us p99 %.1f us worst %.1f us\n", what, count_,
                    at_percent(50), at_percent(99), static_cast<double>(worst_) / 1000);
    }

private:
    /// The time that this part of the messages does not exceed, in microseconds.
    double at_percent(std::uint64_t percent) const {
        std::uint64_t seen = 0;
        for (std::size_t i = 0; i < buckets_.size(); i++) {
            seen += buckets_[i];
            if (seen > 0 && seen * 100 >= count_ * percent) {
                const std::size_t shift = i < 128 ? 0 : i / 64 - 1;
                const std::uint64_t above = ((std::uint64_t{i} - shift * 64 + 1) << shift) - 1;
                return static_cast<double>(std::min(above, worst_)) / 1000;
            }
        }
        return 0;
    }

    std::array<std::uint64_t, 58 * 64 + 64> buckets_{};
    std::uint64_t count_ = 0, worst_ = 0;
};

/// The latencies of all channels.
struct Latencies {
    Latency in_order, stored;
};

class Channel;

/// A socket in the epoll set.
struct Source {
    Channel *channel;
    mold::Line origin;
    int socket;
};

class Channel {
public:
    /// Opens the sockets of a channel, which `text` describes, and adds them to the epoll set.
    Channel(const Options &options, const char *text, int set, Latencies &latencies)
        : options_(options), latencies_(latencies), stamps_(options.repair.window) {
        const std::vector<std::string> parts = parts_of(text);
        if (parts.size() != 4)
            fail_usage(usage, text, "a channel is SESSION,LINE_A,LINE_B,SERVER");
        name_ = parts[0];
        const std::optional<mold::Session> session = mold::Session::of(name_);
        if (!session || name_.empty())
            fail(text, "a session has 1 to 10 characters");
        need("repairer", static_cast<std::uint32_t>(repairer_.open(*session, options.repair)));
        server_ = address_of(parts[3].c_str());
        const sockaddr_in a = address_of(parts[1].c_str()), b = address_of(parts[2].c_str());
        sources_ = {Source{this, mold::Line::A, open_line(&a, options.interface)},
                    Source{this, mold::Line::B, open_line(&b, options.interface)},
                    Source{this, mold::server(0), open_socket()}};
        for (Source &source : sources_)
            add_to(set, source);
    }

    Channel(const Channel &) = delete;
    Channel &operator=(const Channel &) = delete;

    ~Channel() {
        for (const Source &source : sources_)
            close(source.socket);
    }

    /// Takes datagrams of a socket with one system call, and delivers their messages. Returns how many there were.
    int receive(const Source &source) {
        static std::uint8_t rooms[at_once][GREATEST];
        alignas(cmsghdr) static char controls[at_once][CMSG_SPACE(sizeof(timespec))];
        std::array<mmsghdr, at_once> heads{};
        std::array<iovec, at_once> buffers;
        for (std::size_t i = 0; i < at_once; i++) {
            buffers[i] = {rooms[i], GREATEST};
            heads[i].msg_hdr.msg_iov = &buffers[i];
            heads[i].msg_hdr.msg_iovlen = 1;
            heads[i].msg_hdr.msg_control = controls[i];
            heads[i].msg_hdr.msg_controllen = sizeof controls[i];
        }
        const int came = recvmmsg(source.socket, heads.data(), at_once, 0, nullptr);
        const std::uint64_t time = now();
        for (int i = 0; i < came; i++) {
            mmsghdr &head = heads[static_cast<std::size_t>(i)];
            take(source.origin, time, mold::Bytes(rooms[i], head.msg_len), stamp_of(head.msg_hdr));
        }
        return std::max(came, 0);
    }

    /// Gives up messages and sends requests, as far as that is due.
    void repair(std::uint64_t time) {
        std::array<std::uint8_t, 20> request;
        std::uint32_t server;
        mold_range lost;
        while (repairer_.lost(time, lost) == mold::Code::Done)
            deliver(stamp());
        while (repairer_.poll(time, request, server) == mold::Code::Done)
            if (sendto(sources_[MOLD_ANSWER].socket, request.data(), request.size(), 0,
                       reinterpret_cast<const sockaddr *>(&server_), sizeof server_) < 0)
                failed_++;
    }

    /// When `repair` has to be called, at the latest.
    std::uint64_t deadline(std::uint64_t time) {
        std::uint64_t deadline;
        return repairer_.deadline(time, deadline) == mold::Code::Done ? deadline : UINT64_MAX;
    }

    bool finished() const { return repairer_.finished(); }

    /// Prints a line about the channel. Returns whether all messages were delivered.
    bool print() const {
        mold_repair_stats stats;
        need("stats", static_cast<std::uint32_t>(repairer_.stats(stats)));
        std::printf("%s %s next %" PRIu64 " lost %" PRIu64 " requests %" PRIu64 " refused %" PRIu64 " failed %" PRIu64
                    "\n",
                    name_.c_str(), finished() ? "finished" : "open", stats.next, stats.lost, stats.requests, refused_,
                    failed_);
        return finished() && stats.lost == 0;
    }

private:
    /// The parts of a text between its commas.
    static std::vector<std::string> parts_of(const std::string &text) {
        std::vector<std::string> parts(1);
        for (const char letter : text)
            if (letter == ',')
                parts.emplace_back();
            else
                parts.back() += letter;
        return parts;
    }

    static void add_to(int set, Source &source) {
        const int yes = 1;
        epoll_event event{};
        event.events = EPOLLIN;
        event.data.ptr = &source;
        if (setsockopt(source.socket, SOL_SOCKET, SO_TIMESTAMPNS, &yes, sizeof yes) != 0)
            fail("SO_TIMESTAMPNS", strerror(errno));
        if (epoll_ctl(set, EPOLL_CTL_ADD, source.socket, &event) != 0)
            fail("epoll_ctl", strerror(errno));
    }

    /// The time at which the system received a datagram.
    static std::uint64_t stamp_of(msghdr &head) {
        for (cmsghdr *it = CMSG_FIRSTHDR(&head); it != nullptr; it = CMSG_NXTHDR(&head, it))
            if (it->cmsg_level == SOL_SOCKET && it->cmsg_type == SCM_TIMESTAMPNS) {
                timespec time;
                std::memcpy(&time, CMSG_DATA(it), sizeof time);
                return static_cast<std::uint64_t>(time.tv_sec) * 1000000000 + static_cast<std::uint64_t>(time.tv_nsec);
            }
        return stamp();
    }

    void take(mold::Line origin, std::uint64_t time, mold::Bytes datagram, std::uint64_t received) {
        mold_taken taken;
        if (repairer_.take(time, origin, datagram, taken) != mold::Code::Done) {
            refused_++;
            return;
        }
        if (taken.kept > 0)
            note(datagram, received);
        if (taken.delivered > 0)
            deliver(received);
    }

    /// Keeps the time at which the stored messages of a datagram were received.
    void note(mold::Bytes datagram, std::uint64_t received) {
        mold_packet packet;
        if (mold::decode(datagram, packet) != mold::Code::Done)
            return;
        const std::uint64_t end = std::min(packet.sequence + packet.count, repairer_.next() + stamps_.size());
        for (std::uint64_t number = packet.sequence; number < end; number++) {
            std::uint64_t &kept = stamps_[number % stamps_.size()];
            kept = kept == 0 ? received : kept;
        }
    }

    /// Delivers the messages of the batch. Those without a kept time are of a datagram that was received then.
    void deliver(std::uint64_t received) {
        std::uint64_t number = repairer_.first();
        for (const mold::Bytes message : repairer_.batch()) {
            std::uint64_t &kept = stamps_[number % stamps_.size()];
            (kept == 0 ? latencies_.in_order : latencies_.stored).add(kept == 0 ? received : kept, stamp());
            kept = 0;
            handle(number++, message);
        }
        repairer_.clear();
    }

    /// The program's work for a message.
    void handle(std::uint64_t number, mold::Bytes message) {
        if (options_.output == nullptr)
            return;
        std::fprintf(options_.output, "%s %" PRIu64 " ", name_.c_str(), number);
        for (const std::uint8_t byte : message)
            std::fprintf(options_.output, "%02x", byte);
        std::fputs(message.empty() ? "-\n" : "\n", options_.output);
    }

    const Options &options_;
    Latencies &latencies_;
    /// When each stored message was received, by its number modulo the window; 0 if it is not stored.
    std::vector<std::uint64_t> stamps_;
    std::string name_;
    mold::Repairer repairer_;
    sockaddr_in server_{};
    std::array<Source, 3> sources_{};
    std::uint64_t refused_ = 0, failed_ = 0;
};

Options options_of(int count, char **words) {
    Options options;
    for (int i = 1; i < count; i++) {
        const char *name = words[i];
        if (std::strncmp(name, "--", 2) != 0) {
            options.channels.push_back(name);
            continue;
        }
        const char *value = value_of(usage, count, words, &i);
        if (strcmp(name, "--interface") == 0)
            options.interface = value;
        else if (strcmp(name, "--window") == 0)
            options.repair.window = static_cast<std::uint32_t>(number_of(value, 1, 1048576));
        else if (strcmp(name, "--give-up") == 0)
            options.repair.give_up = static_cast<std::uint32_t>(number_of(value, 0, 1000));
        else if (strcmp(name, "--quiet") == 0)
            options.quiet = number_of(value, 1, 86400000) * MILLISECONDS;
        else if (strcmp(name, "--output") == 0 && (options.output = std::fopen(value, "w")) == nullptr)
            fail(value, strerror(errno));
    }
    if (options.channels.empty())
        fail_usage(usage, "channels", "no channel is given");
    return options;
}

/// Wakes up the epoll set at a time.
class Timer {
public:
    explicit Timer(int set) : timer_(timerfd_create(CLOCK_MONOTONIC, TFD_NONBLOCK | TFD_CLOEXEC)) {
        epoll_event event{};
        event.events = EPOLLIN;
        if (timer_ < 0 || epoll_ctl(set, EPOLL_CTL_ADD, timer_, &event) != 0)
            fail("timerfd", strerror(errno));
    }

    Timer(const Timer &) = delete;
    Timer &operator=(const Timer &) = delete;
    ~Timer() { close(timer_); }

    void set(std::uint64_t time) {
        if (time == time_)
            return;
        itimerspec when{};
        when.it_value.tv_sec = static_cast<time_t>(time / 1000000000);
        when.it_value.tv_nsec = static_cast<long>(time % 1000000000);
        if (timerfd_settime(timer_, TFD_TIMER_ABSTIME, &when, nullptr) != 0)
            fail("timerfd_settime", strerror(errno));
        time_ = time;
    }

private:
    int timer_;
    std::uint64_t time_ = 0;
};

using Channels = std::vector<std::unique_ptr<Channel>>;

/// Waits for datagrams, or until something is due. Takes the datagrams, and returns how many there were.
int turn(int set, Timer &timer, Channels &channels, std::uint64_t until) {
    std::array<epoll_event, 64> events;
    for (const std::unique_ptr<Channel> &channel : channels)
        until = std::min(until, channel->deadline(now()));
    timer.set(until);
    const int ready = epoll_wait(set, events.data(), static_cast<int>(events.size()), -1);
    if (ready < 0 && errno != EINTR)
        fail("epoll_wait", strerror(errno));
    int came = 0;
    for (int i = 0; i < ready; i++)
        // The timer has no source. Setting it anew makes it not ready.
        if (const auto *source = static_cast<const Source *>(events[static_cast<std::size_t>(i)].data.ptr))
            came += source->channel->receive(*source);
    for (const std::unique_ptr<Channel> &channel : channels)
        channel->repair(now());
    return came;
}

int run(const Options &options) {
    const int set = epoll_create1(EPOLL_CLOEXEC);
    if (set < 0)
        fail("epoll_create1", strerror(errno));
    Timer timer(set);
    const auto latencies = std::make_unique<Latencies>();
    Channels channels;
    for (const char *text : options.channels)
        channels.push_back(std::make_unique<Channel>(options, text, set, *latencies));
    const auto is_finished = [](const std::unique_ptr<Channel> &channel) { return channel->finished(); };
    std::uint64_t last = now();
    while (!std::ranges::all_of(channels, is_finished) && now() < last + options.quiet)
        if (turn(set, timer, channels, last + options.quiet) > 0)
            last = now();
    bool is_whole = true;
    for (const std::unique_ptr<Channel> &channel : channels)
        is_whole = channel->print() && is_whole;
    latencies->in_order.print("in order");
    latencies->stored.print("after a gap");
    close(set);
    return is_whole ? 0 : 1;
}

} // namespace

int main(int count, char **words) {
    const Options options = options_of(count, words);
    const int status = run(options);
    if (options.output != nullptr && std::fclose(options.output) != 0)
        fail("output", strerror(errno));
    return std::fflush(stdout) == 0 ? status : 3;
}
