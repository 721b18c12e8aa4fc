// A plain receiver in C++, written for speed, to compare the library's listener with. It has the same refusals in the
// same order, the same window, and the same counts of each line. Nothing about it is proved. It passes each delivered
// message to a function. Its store is a ring of vectors. When a message leaves the store, its vector either keeps its
// memory (`keeps_memory`) or frees it. Which is faster depends on the work.
#ifndef PLAIN_HPP
#define PLAIN_HPP

#include "../mold.h"

#include <algorithm>
#include <cstddef>
#include <cstdint>
#include <cstring>
#include <vector>

namespace plain {

constexpr std::size_t header = 20;

inline std::uint64_t big_endian(const std::uint8_t *at) {
    std::uint64_t number;
    std::memcpy(&number, at, sizeof number);
    return __builtin_bswap64(number);
}

inline std::size_t length_at(const std::uint8_t *at) {
    return static_cast<std::size_t>(at[0]) << 8 | at[1];
}

/// What was received on a line.
struct Report {
    std::uint64_t datagrams = 0, refused = 0, front = 0;
};

/// A decoded packet.
struct Packet {
    std::uint64_t sequence = 0;
    std::size_t count = 0;
    bool is_end = false;
    const std::uint8_t *blocks = nullptr;
};

/// Copies of messages in one buffer. Index i gives a slice of message i.
class Batch {
public:
    void push(const std::uint8_t *message, std::size_t length) {
        bytes_.insert(bytes_.end(), message, message + length);
        ends_.push_back(bytes_.size());
    }

    std::size_t size() const { return ends_.size(); }

    mold_bytes operator[](std::size_t i) const {
        const std::size_t start = i == 0 ? 0 : ends_[i - 1];
        return {bytes_.data() + start, ends_[i] - start};
    }

    void clear() {
        bytes_.clear();
        ends_.clear();
    }

private:
    std::vector<std::uint8_t> bytes_;
    std::vector<std::size_t> ends_;
};

template <bool keeps_memory>
class Receiver {
public:
    Receiver(const std::uint8_t *session, std::uint64_t next, std::uint32_t window)
        : next_(next), known_(next), window_(window), ring_(power_above(window)), mask_(ring_.size() - 1) {
        std::memcpy(session_, session, sizeof session_);
        reports_[0].front = reports_[1].front = next;
    }

    /// Takes a datagram of a line, or a response. Calls `hand` with the number, the bytes and the length of each
    /// delivered message.
    template <class Hand>
    std::uint32_t take(std::uint32_t line, const std::uint8_t *bytes, std::size_t length, mold_taken &taken,
                       Hand &&hand) {
        Packet packet;
        std::uint64_t detail = 0;
        const std::uint32_t code = judge(bytes, length, packet, detail);
        taken = {code == MOLD_DONE ? 0 : detail, 0, 0, 0, 0};
        if (code != MOLD_DONE) {
            if (line < 2)
                reports_[line].refused++;
            return code;
        }
        const std::uint64_t top = packet.sequence + packet.count;
        if (packet.count > 0 && top > next_) {
            if (packet.sequence <= next_)
                hand_on(packet, taken, hand);
            else
                store(packet, taken);
        }
        if (packet.is_end) {
            end_ = packet.sequence;
            ended_ = true;
        }
        known_ = std::max(known_, top);
        if (line < 2) {
            reports_[line].datagrams++;
            reports_[line].front = std::max(reports_[line].front, top);
        }
        return MOLD_DONE;
    }

    std::uint64_t next() const { return next_; }
    std::uint64_t known() const { return known_; }
    bool finished() const { return ended_ && end_ == next_; }
    const Report &report(std::uint32_t line) const { return reports_[line]; }

private:
    /// A slot of the ring.
    struct Slot {
        std::vector<std::uint8_t> bytes;
        bool is_held = false;
    };

    /// The least power of two that is not below the window.
    static std::size_t power_above(std::size_t window) {
        std::size_t size = 1;
        while (size < window)
            size *= 2;
        return size;
    }

    Slot &slot(std::uint64_t number) { return ring_[number & mask_]; }

    static std::uint32_t decode(const std::uint8_t *bytes, std::size_t length, Packet &packet, std::uint64_t &detail) {
        if (length < header) {
            detail = length;
            return MOLD_E_SHORT;
        }
        packet.sequence = big_endian(bytes + 10);
        packet.blocks = bytes + header;
        std::size_t stated = length_at(bytes + 18), at = header;
        packet.is_end = stated == 65535;
        packet.count = packet.is_end ? 0 : stated;
        for (std::size_t i = 0; i < packet.count; i++) {
            if (length - at < 2 || length - at - 2 < length_at(bytes + at)) {
                detail = i;
                return MOLD_E_BLOCK_CUT;
            }
            at += 2 + length_at(bytes + at);
        }
        detail = at;
        return at == length ? MOLD_DONE : MOLD_E_TRAILING;
    }

    /// The code of the first reason to refuse a datagram.
    std::uint32_t judge(const std::uint8_t *bytes, std::size_t length, Packet &packet, std::uint64_t &detail) {
        const std::uint32_t code = decode(bytes, length, packet, detail);
        if (code != MOLD_DONE)
            return code;
        detail = 0;
        if (std::memcmp(bytes, session_, sizeof session_) != 0)
            return MOLD_E_WRONG_SESSION;
        if (packet.sequence == 0)
            return MOLD_E_SEQUENCE_ZERO;
        if (packet.count > UINT64_MAX - packet.sequence)
            return MOLD_E_PAST_LAST;
        if (packet.is_end)
            return judge_end(packet, detail);
        if (ended_ && packet.sequence + packet.count > end_) {
            detail = end_;
            return MOLD_E_PAST_END;
        }
        return held_ > 0 ? compare(packet, detail) : static_cast<std::uint32_t>(MOLD_DONE);
    }

    std::uint32_t judge_end(const Packet &packet, std::uint64_t &detail) const {
        if (ended_ && packet.sequence != end_) {
            detail = end_;
            return MOLD_E_END_CONFLICT;
        }
        if (packet.sequence < known_) {
            detail = known_;
            return MOLD_E_END_BELOW;
        }
        return MOLD_DONE;
    }

    /// Compares the messages of a packet with those stored under their numbers.
    std::uint32_t compare(const Packet &packet, std::uint64_t &detail) {
        const std::uint8_t *at = packet.blocks;
        for (std::size_t i = 0; i < packet.count; i++) {
            const std::uint64_t number = packet.sequence + i;
            const std::size_t length = length_at(at);
            at += 2;
            if (number >= next_ && number - next_ < window_ && slot(number).is_held) {
                const std::vector<std::uint8_t> &stored = slot(number).bytes;
                if (stored.size() != length || std::memcmp(stored.data(), at, length) != 0) {
                    detail = number;
                    return MOLD_E_CONFLICT;
                }
            }
            at += length;
        }
        return MOLD_DONE;
    }

    /// Delivers the messages of a packet from the next number on, and the stored ones after them.
    template <class Hand>
    void hand_on(const Packet &packet, mold_taken &taken, Hand &&hand) {
        const std::uint8_t *at = packet.blocks;
        std::size_t i = 0;
        for (; packet.sequence + i < next_; i++)
            at += 2 + length_at(at);
        const std::uint64_t first = next_;
        for (; i < packet.count; i++) {
            const std::size_t length = length_at(at);
            if (held_ > 0)
                release(next_);
            hand(next_, at + 2, length);
            at += 2 + length;
            next_++;
        }
        while (held_ > 0 && slot(next_).is_held) {
            const std::vector<std::uint8_t> &stored = slot(next_).bytes;
            hand(next_, stored.data(), stored.size());
            release(next_);
            next_++;
        }
        taken.delivered = static_cast<std::uint32_t>(next_ - first);
    }

    /// Empties the slot of a number.
    void release(std::uint64_t number) {
        Slot &freed = slot(number);
        if (!freed.is_held)
            return;
        held_--;
        freed.is_held = false;
        if (!keeps_memory)
            std::vector<std::uint8_t>().swap(freed.bytes);
    }

    /// Stores the messages of a packet within the window.
    void store(const Packet &packet, mold_taken &taken) {
        const std::uint8_t *at = packet.blocks;
        for (std::size_t i = 0; i < packet.count; i++) {
            const std::size_t length = length_at(at);
            const std::uint64_t number = packet.sequence + i;
            if (number - next_ >= window_) {
                taken.dropped = static_cast<std::uint32_t>(packet.count - i);
                return;
            }
            Slot &kept = slot(number);
            if (!kept.is_held) {
                kept.bytes.assign(at + 2, at + 2 + length);
                kept.is_held = true;
                held_++;
                taken.kept++;
            }
            at += 2 + length;
        }
    }

    std::uint8_t session_[10];
    std::uint64_t next_, known_, end_ = 0;
    bool ended_ = false;
    std::uint32_t window_;
    std::vector<Slot> ring_;
    std::uint64_t mask_;
    std::size_t held_ = 0;
    Report reports_[2];
};

/// A plain receiver with the calls of the library. It copies messages into a batch. Its calls are never inlined, like
/// the calls of a library that is compiled separately.
template <bool keeps_memory>
class Listener {
public:
    Listener(const std::uint8_t *session, std::uint64_t next, std::uint32_t window)
        : receiver_(session, next, window) {}

    [[gnu::noinline]] std::uint32_t take(std::uint32_t line, const std::uint8_t *bytes, std::size_t length,
                                         mold_taken &taken) {
        const auto copy = [this](std::uint64_t, const std::uint8_t *at, std::size_t size) { batch_.push(at, size); };
        return receiver_.take(line, bytes, length, taken, copy);
    }

    /// Writes slices of the first messages of the batch, as many as the array has room for.
    [[gnu::noinline]] std::size_t messages(mold_bytes *array, std::size_t room) const {
        const std::size_t count = std::min(room, batch_.size());
        for (std::size_t i = 0; i < count; i++)
            array[i] = batch_[i];
        return count;
    }

    [[gnu::noinline]] void clear() { batch_.clear(); }

private:
    Receiver<keeps_memory> receiver_;
    Batch batch_;
};

} // namespace plain

#endif
