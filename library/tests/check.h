/* Functions that the tests of the library share. They count checks, write datagrams byte by byte, and record which
 * codes the calls returned. */
#ifndef CHECK_H
#define CHECK_H

#include "../mold.h"

#include <stdio.h>
#include <stdlib.h>
#include <string.h>

#define CODES 38

/* The number of checks, the number of failed checks, and whether a call has returned each code. */
extern unsigned long checks, faults;
extern bool answered[CODES];

/* Counts a check. If it fails, prints its file, line and condition. */
#define CHECK(condition) check_at((condition), #condition, __FILE__, __LINE__)

/* Checks that a call returns the wanted code, and records the code. */
#define CODE(call, wanted) check_code((call), (wanted), #call, __FILE__, __LINE__)

/* Checks that the `length` bytes at `at` are those that the hexadecimal digits encode. */
#define HEX(at, length, digits) check_hex((at), (length), (digits), __FILE__, __LINE__)

static inline void check_at(bool holds, const char *what, const char *file, int line) {
    checks++;
    if (!holds) {
        faults++;
        printf("FAILED  %s:%d: %s\n", file, line, what);
    }
}

static inline void check_code(uint32_t code, uint32_t wanted, const char *call, const char *file, int line) {
    checks++;
    if (code < CODES)
        answered[code] = true;
    if (code != wanted) {
        faults++;
        printf("FAILED  %s:%d: %s returned %u instead of %u\n", file, line, call, (unsigned)code, (unsigned)wanted);
    }
}

static inline unsigned digit(char text) {
    return (unsigned)(text <= '9' ? text - '0' : text - 'a' + 10);
}

/* Decodes lower-case hexadecimal digits, and returns the number of bytes. */
static inline size_t unhex(const char *digits, uint8_t *bytes) {
    size_t length = strlen(digits) / 2;
    for (size_t i = 0; i < length; i++)
        bytes[i] = (uint8_t)(digit(digits[2 * i]) << 4 | digit(digits[2 * i + 1]));
    return length;
}

static inline void check_hex(const uint8_t *at, size_t length, const char *digits, const char *file, int line) {
    uint8_t wanted[4096];
    size_t size = unhex(digits, wanted);
    check_at(size == length && memcmp(at, wanted, size) == 0, digits, file, line);
}

/* A datagram in an allocation of exactly its length, so that tools such as valgrind detect each access beyond it. */
typedef struct datagram {
    uint8_t *at;
    size_t length;
} datagram;

static inline datagram of_length(size_t length) {
    datagram made = {malloc(length + (length == 0)), length};
    if (made.at == NULL)
        abort();
    memset(made.at, 0, length);
    return made;
}

static inline datagram of_hex(const char *digits) {
    datagram made = of_length(strlen(digits) / 2);
    unhex(digits, made.at);
    return made;
}

static inline void put_number(uint8_t *at, uint64_t number, size_t bytes) {
    for (size_t i = bytes; i-- > 0; number >>= 8)
        at[i] = (uint8_t)number;
}

#define SESSION "SESSION001"
#define SESSION_HEX "53455353494f4e303031"

static const uint8_t *const session = (const uint8_t *)SESSION;

/* A packet of `count` messages of `length` bytes. Each byte of a message is the low byte of its sequence number. */
static inline datagram packet_of(uint64_t sequence, uint16_t count, size_t length) {
    datagram made = of_length(20 + (size_t)count * (2 + length));
    memcpy(made.at, SESSION, 10);
    put_number(made.at + 10, sequence, 8);
    put_number(made.at + 18, count, 2);
    for (size_t i = 0; i < count; i++) {
        uint8_t *block = made.at + 20 + i * (2 + length);
        put_number(block, length, 2);
        memset(block + 2, (int)((sequence + i) & 0xff), length);
    }
    return made;
}

/* An end packet. */
static inline datagram end_of(uint64_t sequence) {
    datagram made = packet_of(sequence, 0, 0);
    put_number(made.at + 18, 65535, 2);
    return made;
}

/* The first `length` bytes of a datagram, as a new datagram. Frees the whole one. */
static inline datagram cut(datagram whole, size_t length) {
    datagram made = of_length(length);
    memcpy(made.at, whole.at, length);
    free(whole.at);
    return made;
}

/* Passes a datagram to a listener, and frees it. */
static inline uint32_t take(mold_listener *listener, uint32_t line, datagram given, mold_taken *taken) {
    uint32_t code = mold_listener_take(listener, line, given.at, given.length, taken);
    free(given.at);
    return code;
}

/* Passes a datagram to a listener without a copy, and frees it. */
static inline uint32_t hear(mold_listener *listener, uint32_t line, datagram given, mold_delivery *delivery) {
    uint32_t code = mold_listener_hear(listener, line, given.at, given.length, delivery);
    free(given.at);
    return code;
}

static inline bool is_delivery(const mold_delivery *delivery, size_t offset, uint32_t own, uint32_t stored,
                               uint32_t kept, uint32_t dropped) {
    return delivery->detail == 0 && delivery->offset == offset && delivery->own == own && delivery->stored == stored &&
           delivery->kept == kept && delivery->dropped == dropped;
}

static inline mold_listener listener_at(uint64_t next, uint32_t window) {
    mold_listener made = MOLD_EMPTY;
    CODE(mold_listener_new(&made, session, next, window), MOLD_DONE);
    return made;
}

static inline bool is_taken(const mold_taken *taken, uint32_t delivered, uint32_t kept, uint32_t dropped) {
    return taken->delivered == delivered && taken->kept == kept && taken->dropped == dropped;
}

/* Whether the message at index i of the batch is `length` bytes of one value, both as a slice and as a copy. */
static inline bool is_message(mold_listener *listener, size_t i, int value, size_t length) {
    uint8_t copy[64], wanted[64];
    size_t size = 99;
    mold_bytes lent = MOLD_NO_BYTES;
    memset(wanted, value, sizeof wanted);
    memset(copy, 7, sizeof copy);
    return mold_listener_message(listener, i, &lent) == MOLD_DONE && lent.length == length &&
           memcmp(lent.at, wanted, length) == 0 &&
           mold_listener_copy(listener, i, copy, length, &size) == MOLD_DONE && size == length &&
           memcmp(copy, wanted, length) == 0 && copy[length] == 7;
}

static inline mold_publisher publisher_of(size_t limit) {
    mold_publisher made = MOLD_EMPTY;
    CODE(mold_publisher_new(&made, session, limit), MOLD_DONE);
    return made;
}

/* Publishes a message of `length` bytes, at most 64, all of one value. */
static inline uint32_t publish(mold_publisher *publisher, int value, size_t length, uint64_t *number) {
    uint8_t bytes[64];
    memset(bytes, value, sizeof bytes);
    return mold_publisher_publish(publisher, bytes, length, number);
}

/* A journal file of version 1 with five messages. Message k is 20 bytes of value k. */
static inline datagram five_messages(void) {
    datagram made = of_length(18 + 5 * 22);
    memcpy(made.at, "MOLDJNL1" SESSION, 18);
    for (int k = 1; k <= 5; k++) {
        uint8_t *block = made.at + 18 + (k - 1) * 22;
        put_number(block, 20, 2);
        memset(block + 2, k, 20);
    }
    return made;
}

static inline uint32_t server_new(mold_server *server, size_t limit, uint16_t burst, datagram journal,
                                  uint64_t *number) {
    uint32_t code = mold_server_new(server, limit, burst, journal.at, journal.length, number);
    free(journal.at);
    return code;
}

static inline mold_server server_of_five(uint16_t burst) {
    mold_server made = MOLD_EMPTY;
    uint64_t number = 0;
    CODE(server_new(&made, 64, burst, five_messages(), &number), MOLD_DONE);
    return made;
}

static inline uint32_t answer(mold_server *server, const char *digits, datagram room, uint64_t *number) {
    datagram request = of_hex(digits);
    uint32_t code = mold_server_answer(server, request.at, request.length, room.at, room.length, number);
    free(request.at);
    return code;
}

static inline uint32_t plan(mold_server *server, const char *digits, mold_plan *made, uint64_t *number) {
    datagram request = of_hex(digits);
    uint32_t code = mold_server_plan(server, request.at, request.length, made, number);
    free(request.at);
    return code;
}

/* Prints the counts, and returns the exit status. */
static inline int report_checks(void) {
    printf("%lu checks, %lu failed\n", checks, faults);
    return faults == 0 ? 0 : 1;
}

#ifdef CHECK_MAIN
unsigned long checks, faults;
bool answered[CODES];
#endif

#endif
