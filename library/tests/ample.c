/* Tests that each call which may return MOLD_E_MEMORY succeeds when there is memory, at the limits of its ranges. The
 * contracts cannot refuse a call that always returns MOLD_E_MEMORY. */
#include "check.h"
#include "test.h"

static const size_t limits[] = {64, 65, 1400, 65506, 65507};
static const uint16_t bursts[] = {1, 2, 63, 64};

/* A publisher of each limit publishes the longest message, and its server responds with it, for each burst. */
static void limits_and_bursts_of_publishers(void) {
    for (size_t i = 0; i < sizeof limits / sizeof *limits; i++) {
        for (size_t k = 0; k < sizeof bursts / sizeof *bursts; k++) {
            mold_publisher publisher = publisher_of(limits[i]);
            datagram message = of_length(limits[i] - 22), room = of_length(limits[i]);
            uint64_t number = 0;
            size_t size = 0;
            CODE(mold_publisher_publish(&publisher, message.at, message.length, &number), MOLD_DONE);
            CODE(mold_publisher_datagram(&publisher, room.at, room.length, &size), MOLD_DONE);
            CHECK(number == 1 && size == limits[i]);
            CODE(mold_server_from_publisher(&publisher, bursts[k]), MOLD_DONE);
            CODE(answer(mold_server_of(&publisher), SESSION_HEX "00000000000000010001", room, &number), MOLD_DONE);
            CHECK(number == limits[i]);
            mold_free(&publisher);
            free(message.at);
            free(room.at);
        }
    }
}

/* A journal file of version 1 with `count` messages of `length` bytes. */
static datagram journal_of(uint16_t count, size_t length) {
    datagram packet = packet_of(1, count, length), made = of_length(packet.length - 2);
    memcpy(made.at, "MOLDJNL1" SESSION, 18);
    memcpy(made.at + 18, packet.at + 20, packet.length - 20);
    free(packet.at);
    return made;
}

/* A server of each limit and each burst, over an empty journal, one with the longest message, and a long one. */
static void limits_and_bursts_of_servers(void) {
    for (size_t i = 0; i < sizeof limits / sizeof *limits; i++) {
        for (size_t k = 0; k < sizeof bursts / sizeof *bursts; k++) {
            datagram journals[] = {journal_of(0, 0), journal_of(1, limits[i] - 22), journal_of(20000, 1)};
            for (size_t j = 0; j < 3; j++) {
                mold_server server = MOLD_EMPTY;
                uint64_t number = 9;
                CODE(server_new(&server, limits[i], bursts[k], journals[j], &number), MOLD_DONE);
                CHECK(number == 0 && server.live);
                mold_free(&server);
            }
        }
    }
}

/* A listener of each window stores and delivers messages, also of the greatest datagram. */
static void windows_of_listeners(void) {
    static const uint32_t windows[] = {1, 2, 1023, 1024, 1025, 65536, 65537, 1048575, 1048576};
    for (size_t i = 0; i < sizeof windows / sizeof *windows; i++) {
        mold_listener listener = listener_at(1, windows[i]);
        mold_taken taken = {0, 0, 0, 0, 0};
        bool stored = windows[i] > 1;
        CODE(take(&listener, MOLD_LINE_A, packet_of(windows[i], 1, 65485), &taken), MOLD_DONE);
        CHECK(is_taken(&taken, stored ? 0 : 1, stored ? 1 : 0, 0));
        CODE(take(&listener, MOLD_LINE_B, packet_of(windows[i] + 2, 1, 65485), &taken), MOLD_DONE);
        CHECK(is_taken(&taken, 0, 0, 1));
        mold_free(&listener);
        listener = listener_at(UINT64_MAX - 9, windows[i]);
        CODE(take(&listener, MOLD_ANSWER, packet_of(UINT64_MAX - 9, 9, 7000), &taken), MOLD_DONE);
        CHECK(is_taken(&taken, 9, 0, 0) && mold_listener_count(&listener) == 9);
        mold_free(&listener);
    }
}

/* A checker takes the greatest datagrams and 2,000 ranges, and reports all missing ranges. */
static void checkers_of_many_ranges(void) {
    static mold_range ranges[2000];
    mold_checker checker = MOLD_EMPTY;
    mold_verdict verdict = {9, 9, 9, 9, 9};
    uint64_t number = 9;
    size_t count = 0;
    CODE(mold_checker_new(&checker), MOLD_DONE);
    CODE(mold_checker_verdict(&checker, &verdict), MOLD_DONE);
    CODE(mold_checker_ranges(&checker, ranges, 2000, &count), MOLD_DONE);
    for (uint64_t i = 1; i <= 2000; i++) {
        datagram given = packet_of(2 * i, 1, i == 2000 ? 65485 : 1);
        CODE(mold_checker_take(&checker, given.at, given.length, &number), MOLD_DONE);
        free(given.at);
    }
    CODE(mold_checker_verdict(&checker, &verdict), MOLD_DONE);
    CHECK(number == 0 && verdict.whole == 0 && verdict.ranges == 2000);
    CODE(mold_checker_ranges(&checker, ranges, 2000, &count), MOLD_DONE);
    CHECK(count == 2000 && ranges[1999].first == 3999 && ranges[1999].last == 3999);
    mold_free(&checker);
}

void test_ample(void) {
    limits_and_bursts_of_publishers();
    limits_and_bursts_of_servers();
    windows_of_listeners();
    checkers_of_many_ranges();
}
