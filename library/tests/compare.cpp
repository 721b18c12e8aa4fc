// Passes random datagrams to the library's listener and to the plain receiver of the benchmark, and compares all that
// they return.
//
//     cd library/tests && c++ -std=c++17 -O2 compare.cpp ../out/libmold.a -o compare && ./compare 300000 1
//
// The arguments are the number of datagrams and the seed. Most datagrams are valid data packets and heartbeats of a
// random session. The others are true and wrong end packets, packets with invalid sequence numbers, and datagrams that
// were truncated, extended or changed.
#include "../bench/plain.hpp"
#include "../mold.hpp"

#include <cstdio>
#include <cstdlib>
#include <random>

namespace {

using Bytes = std::vector<std::uint8_t>;

const std::uint8_t session[] = {'C', 'O', 'M', 'P', 'A', 'R', 'E', ' ', ' ', ' '};
unsigned long checks, faults;
unsigned long codes[38];

void check(bool holds, const char *what, unsigned long place) {
    checks++;
    if (!holds) {
        faults++;
        std::printf("FAILED  datagram %lu: %s\n", place, what);
    }
}

class Chance {
public:
    explicit Chance(unsigned long seed) : engine_(seed) {}

    std::uint64_t below(std::uint64_t bound) { return engine_() % bound; }

private:
    std::mt19937_64 engine_;
};

/// Message `number` of the session. Its length and bytes depend only on its number.
Bytes message_of(std::uint64_t number) {
    std::mt19937 engine(static_cast<std::uint32_t>(number));
    Bytes made(engine() % 4 == 0 ? 0 : engine() % 50);
    for (std::uint8_t &byte : made)
        byte = static_cast<std::uint8_t>(engine());
    return made;
}

void put(Bytes &bytes, std::size_t at, std::uint64_t number, std::size_t length) {
    for (std::size_t i = length; i-- > 0; number >>= 8)
        bytes[at + i] = static_cast<std::uint8_t>(number);
}

Bytes packet_of(std::uint64_t sequence, std::uint16_t count) {
    Bytes made(session, session + sizeof session);
    made.resize(20);
    put(made, 10, sequence, 8);
    put(made, 18, count, 2);
    if (count == 65535)
        return made;
    for (std::uint64_t i = 0; i < count; i++) {
        const Bytes message = message_of(sequence + i);
        made.resize(made.size() + 2);
        put(made, made.size() - 2, message.size(), 2);
        made.insert(made.end(), message.begin(), message.end());
    }
    return made;
}

/// A random datagram with a sequence number near `next`, in most cases a valid one.
Bytes draw(Chance &chance, std::uint64_t next, std::uint64_t messages) {
    const std::uint64_t back = chance.below(20), sequence = (next > back ? next - back : 1) + chance.below(30);
    const std::uint64_t left = sequence <= messages ? messages + 1 - sequence : 0;
    const auto count = static_cast<std::uint16_t>(std::min<std::uint64_t>(chance.below(12), left));
    Bytes made = packet_of(std::min(sequence, messages + 1), count);
    switch (chance.below(24)) {
    case 0:
        return packet_of(chance.below(4) == 0 ? sequence : messages + 1, 65535);
    case 1:
        made.resize(chance.below(made.size() + 1));
        return made;
    case 2:
        made[chance.below(made.size())] ^= static_cast<std::uint8_t>(1 + chance.below(255));
        return made;
    case 3:
        return packet_of(back % 2 == 0 ? 0 : UINT64_MAX - chance.below(3), static_cast<std::uint16_t>(back % 4));
    case 4:
        made.push_back(0);
        return made;
    default:
        return made;
    }
}

/// A listener that receives a session by both calls, and a list of what its batch has to have.
class Mixed {
public:
    Mixed(std::uint64_t next, std::uint32_t window) {
        check(listener_.open(*mold::Session::of("COMPARE"), next, window) == mold::Code::Done,
              "a listener cannot be made", 0);
    }

    /// Passes a datagram to one of the calls, or to both if the first one has to be refused because the batch is not
    /// cleared. `taken`, `wanted` and `batch` are what the plain receiver returned and delivered.
    void pass(std::uint32_t line, const Bytes &bytes, const mold_taken &taken, std::uint32_t wanted,
              const plain::Batch &batch, unsigned long place) {
        const std::uint64_t drawn = place * 0x9e3779b97f4a7c15 >> 60;
        if (drawn % 2 == 0 || !hears(line, bytes, taken, wanted, batch, place))
            takes(line, bytes, taken, wanted, batch, place);
        check(listener_.count() == batch_.size(), "the batch after both calls differs", place);
        std::size_t i = 0;
        for (const mold::Bytes message : listener_.batch()) {
            check(i < batch_.size() && std::equal(message.begin(), message.end(), batch_[i].begin(), batch_[i].end()),
                  "a message of both calls differs", place);
            i++;
        }
        if (drawn >= 10) {
            check(listener_.clear() == mold::Code::Done, "the batch cannot be cleared", place);
            batch_.clear();
            is_owed_ = false;
        }
    }

    const mold_listener &listener() const { return *listener_.get(); }

private:
    /// Whether the datagram was taken, or refused by the receiving rule.
    bool hears(std::uint32_t line, const Bytes &bytes, const mold_taken &taken, std::uint32_t wanted,
               const plain::Batch &batch, unsigned long place) {
        mold_delivery delivery{9, 9, 9, 9, 9, 9};
        const std::uint32_t code =
            mold_listener_hear(listener_.get(), line, bytes.data(), bytes.size(), &delivery);
        if (is_owed_) {
            check(code == MOLD_E_BATCH && delivery.detail == 0 && delivery.own == 0 && delivery.stored == 0,
                  "a batch that is not cleared was discarded", place);
            return false;
        }
        check(code == wanted && delivery.detail == taken.detail && delivery.own + delivery.stored == taken.delivered,
              "the result after both calls differs", place);
        batch_.clear();
        join(batch, delivery.own);
        return true;
    }

    void takes(std::uint32_t line, const Bytes &bytes, const mold_taken &taken, std::uint32_t wanted,
               const plain::Batch &batch, unsigned long place) {
        mold_taken found{};
        const mold::Code code = listener_.take(static_cast<mold::Line>(line), bytes, found);
        check(code == static_cast<mold::Code>(wanted) && found.delivered == taken.delivered,
              "the result after both calls differs", place);
        join(batch, 0);
        is_owed_ = is_owed_ || batch.size() > 0;
    }

    void join(const plain::Batch &batch, std::size_t first) {
        for (std::size_t i = first; i < batch.size(); i++)
            batch_.emplace_back(batch[i].at, batch[i].at + batch[i].length);
    }

    mold::Listener listener_;
    std::vector<Bytes> batch_;
    /// Whether the batch has messages that only a clear may discard.
    bool is_owed_ = false;
};

/// A listener and a plain receiver that receive the same session. A second listener copies no messages, and a third one
/// copies those of some datagrams.
class Pair {
public:
    Pair(std::uint64_t next, std::uint32_t window) : plain_(session, next, window), mixed_(next, window) {
        check(mold_listener_new(&listener_, session, next, window) == MOLD_DONE, "a listener cannot be made", 0);
        check(hearing_.open(*mold::Session::of("COMPARE"), next, window) == mold::Code::Done,
              "a listener cannot be made", 0);
    }

    Pair(const Pair &) = delete;
    Pair &operator=(const Pair &) = delete;
    ~Pair() { mold_free(&listener_); }

    void take(std::uint32_t line, const Bytes &bytes, unsigned long place) {
        mold_taken taken{}, other{};
        plain::Batch batch;
        const std::uint64_t first = plain_.next();
        const std::uint32_t wanted = plain_.take(
            line, bytes.data(), bytes.size(), other,
            [&batch](std::uint64_t, const std::uint8_t *at, std::size_t length) { batch.push(at, length); });
        const std::uint32_t code = mold_listener_take(&listener_, line, bytes.data(), bytes.size(), &taken);
        codes[code % 38]++;
        check(code == wanted && taken.detail == other.detail, "the codes or their numbers differ", place);
        check(taken.delivered == other.delivered && taken.kept == other.kept && taken.dropped == other.dropped,
              "the counts differ", place);
        hear(line, bytes, taken, code, batch, place);
        compare_batch(batch, first, place);
        compare_state(listener_, place);
        compare_state(*hearing_.get(), place);
        mixed_.pass(line, bytes, taken, code, batch, place);
        compare_state(mixed_.listener(), place);
    }

    std::uint64_t next() const { return mold_listener_next(&listener_); }

private:
    void hear(std::uint32_t line, const Bytes &bytes, const mold_taken &taken, std::uint32_t wanted,
              const plain::Batch &batch, unsigned long place) {
        mold_delivery delivery{};
        std::size_t i = 0;
        const mold::Code code = hearing_.hear(static_cast<mold::Line>(line), bytes, delivery, [&](mold::Bytes message) {
            check(i < batch.size() && message.size() == batch[i].length &&
                      (message.empty() || std::memcmp(message.data(), batch[i].at, message.size()) == 0),
                  "a message that was not copied differs", place);
            i++;
        });
        check(code == static_cast<mold::Code>(wanted) && delivery.detail == taken.detail,
              "the codes without copies differ", place);
        check(i == batch.size() && delivery.own + delivery.stored == taken.delivered && delivery.kept == taken.kept &&
                  delivery.dropped == taken.dropped && hearing_.count() == delivery.stored,
              "the counts without copies differ", place);
    }

    void compare_batch(const plain::Batch &batch, std::uint64_t first, unsigned long place) {
        const std::size_t count = mold_listener_count(&listener_);
        check(count == batch.size() && mold_listener_first(&listener_) == (count > 0 ? first : 0), "the batches differ",
              place);
        for (std::size_t i = 0; i < count && i < batch.size(); i++) {
            mold_bytes message = MOLD_NO_BYTES;
            check(mold_listener_message(&listener_, i, &message) == MOLD_DONE, "a message is absent", place);
            check(message.length == batch[i].length &&
                      (message.length == 0 || std::memcmp(message.at, batch[i].at, message.length) == 0),
                  "the bytes of a message differ", place);
        }
        check(mold_listener_clear(&listener_) == MOLD_DONE, "the batch cannot be cleared", place);
    }

    void compare_state(const mold_listener &listener, unsigned long place) {
        check(mold_listener_next(&listener) == plain_.next() && mold_listener_known(&listener) == plain_.known() &&
                  mold_listener_finished(&listener) == plain_.finished(),
              "the progress differs", place);
        for (std::uint32_t line = 0; line < 2; line++) {
            mold_report report{};
            const plain::Report &other = plain_.report(line);
            check(mold_listener_report(&listener, line, &report) == MOLD_DONE && report.datagrams == other.datagrams &&
                      report.refused == other.refused && report.front == other.front,
                  "the reports of a line differ", place);
        }
    }

    mold_listener listener_ = MOLD_EMPTY;
    mold::Listener hearing_;
    plain::Receiver<true> plain_;
    Mixed mixed_;
};

} // namespace

int main(int count, char **words) {
    const unsigned long datagrams = count > 1 ? std::strtoul(words[1], nullptr, 10) : 300000;
    Chance chance(count > 2 ? std::strtoul(words[2], nullptr, 10) : 1);
    unsigned long place = 0;
    while (place < datagrams) {
        const std::uint32_t windows[] = {1, 4, 16, 100, 1024};
        const std::uint64_t messages = chance.below(400), first = 1 + chance.below(3);
        Pair pair(first, windows[chance.below(5)]);
        for (std::uint64_t left = 4 * messages + 10; left > 0 && place < datagrams; left--)
            pair.take(static_cast<std::uint32_t>(chance.below(3)), draw(chance, pair.next(), messages), ++place);
    }
    for (std::uint32_t code : {0, 1, 2, 3, 8, 9, 10, 11, 12, 13, 14})
        check(codes[code] > 0, "the code with this number was never returned", code);
    std::printf("%lu checks, %lu failed\n", checks, faults);
    return faults == 0 ? 0 : 1;
}
