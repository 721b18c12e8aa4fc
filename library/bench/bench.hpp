// What the benchmarks share: datagrams, time, and the end after a wrong result.
#ifndef MOLD_BENCH_HPP
#define MOLD_BENCH_HPP

#include "../mold.h"

#include <algorithm>
#include <chrono>
#include <cstdint>
#include <cstdio>
#include <cstdlib>
#include <cstring>
#include <string>
#include <vector>

using Clock = std::chrono::steady_clock;

const std::uint8_t session[] = {'B', 'E', 'N', 'C', 'H', ' ', ' ', ' ', ' ', ' '};

/// A data packet of `count` messages of `length` bytes.
inline std::vector<std::uint8_t> datagram(std::uint64_t sequence, std::size_t count, std::size_t length) {
    constexpr std::size_t header = 20;
    std::vector<std::uint8_t> made(header + count * (2 + length));
    std::memcpy(made.data(), session, sizeof session);
    for (std::size_t i = 0; i < 8; i++)
        made[10 + i] = static_cast<std::uint8_t>(sequence >> (56 - 8 * i));
    made[18] = static_cast<std::uint8_t>(count >> 8);
    made[19] = static_cast<std::uint8_t>(count);
    for (std::size_t i = 0; i < count; i++) {
        std::uint8_t *block = made.data() + header + i * (2 + length);
        block[0] = static_cast<std::uint8_t>(length >> 8);
        block[1] = static_cast<std::uint8_t>(length);
        for (std::size_t k = 0; k < length; k++)
            block[2 + k] = static_cast<std::uint8_t>(sequence * 31 + i * 7 + k);
    }
    return made;
}

[[noreturn]] inline void stop(const char *why) {
    std::fprintf(stderr, "bench: %s\n", why);
    std::exit(1);
}

inline double since(Clock::time_point began) {
    return std::chrono::duration<double, std::nano>(Clock::now() - began).count();
}

#endif
