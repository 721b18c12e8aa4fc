/* Tests of the repairer. */
#include "check.h"
#include "test.h"

#define LATEST 4611686018427387903u
#define MS 1000000u

static uint32_t take_at(mold_repairer *repairer, uint64_t now, uint32_t origin, datagram given, mold_taken *taken) {
    uint32_t code = mold_repairer_take(repairer, now, origin, given.at, given.length, taken);
    free(given.at);
    return code;
}

static mold_repair_options options_of(uint32_t servers, uint32_t give_up) {
    mold_repair_options made;
    mold_repair_options_default(&made);
    made.window = 16;
    made.patience = MS;
    made.servers = servers;
    made.give_up = give_up;
    return made;
}

static mold_repairer repairer_of(uint32_t servers, uint32_t give_up) {
    mold_repairer made = MOLD_EMPTY;
    mold_repair_options options = options_of(servers, give_up);
    CODE(mold_repairer_new(&made, session, &options), MOLD_DONE);
    return made;
}

static void repairers_that_cannot_be(void) {
    mold_repairer repairer = MOLD_EMPTY;
    mold_repair_options options;
    mold_repair_options_default(&options);
    CHECK(options.size == sizeof options && options.next == 1 && options.patience == 0 && options.timeout == 50 * MS);
    CHECK(options.ceiling == 1000 * MS && options.settle == 2 * MS && options.interval == MS && options.window == 65536);
    CHECK(options.bucket == 32 && options.places == 256 && options.servers == 1 && options.give_up == 0);
    CHECK(options.audit == 0 && options.store == 0);
    options.next = 0;
    options.window = 0;
    options.servers = 9;
    CODE(mold_repairer_new(&repairer, session, &options), MOLD_E_OPTIONS);
    options.servers = 8;
    options.size = sizeof options - 8;
    CODE(mold_repairer_new(&repairer, session, &options), MOLD_E_OPTIONS);
    options.size = sizeof options;
    options.store = 65506;
    CODE(mold_repairer_new(&repairer, session, &options), MOLD_E_NEXT_ZERO);
    options.next = 1;
    CODE(mold_repairer_new(&repairer, session, &options), MOLD_E_WINDOW);
    options.window = 1048577;
    CODE(mold_repairer_new(&repairer, session, &options), MOLD_E_WINDOW);
    options.window = 1048576;
    CODE(mold_repairer_new(&repairer, session, &options), MOLD_E_OPTIONS);
    CHECK(repairer.at == NULL && !repairer.live);
    options.store = 65507;
    CODE(mold_repairer_new(&repairer, session, &options), MOLD_DONE);
    CODE(mold_repairer_new(&repairer, session, &options), MOLD_E_BROKEN);
    CHECK(mold_listener_next(mold_listener_of(&repairer)) == 1);
    mold_taken taken = {0, 0, 0, 0, 0};
    datagram first = packet_of(2, 1, 65000), second = packet_of(3, 1, 65000);
    CODE(mold_repairer_take(&repairer, 0, 0, first.at, first.length, &taken), MOLD_DONE);
    CHECK(is_taken(&taken, 0, 1, 0));
    CODE(mold_repairer_take(&repairer, 0, 0, second.at, second.length, &taken), MOLD_DONE);
    CHECK(is_taken(&taken, 0, 0, 1));
    free(first.at);
    free(second.at);
    mold_free(&repairer);
}

/* Messages 2 and 3 are lost on both lines. They are requested after one to two patiences, from server 0 first. It does
 * not respond, so the request goes to server 1 after the timeout. */
static void a_gap_is_repaired(void) {
    mold_repairer repairer = repairer_of(2, 0);
    mold_listener *listener = mold_listener_of(&repairer);
    mold_taken taken = {9, 9, 9, 9, 9};
    uint8_t request[20] = {7};
    uint32_t server = 9;
    uint64_t now = 5 * MS, deadline = 99;
    CODE(mold_repairer_deadline(&repairer, now, &deadline), MOLD_E_ABSENT);
    CODE(take_at(&repairer, now, MOLD_LINE_A, packet_of(1, 1, 5), &taken), MOLD_DONE);
    CHECK(is_taken(&taken, 1, 0, 0) && taken.detail == 0 && is_message(listener, 0, 1, 5));
    CODE(take_at(&repairer, now, MOLD_LINE_B, packet_of(4, 2, 5), &taken), MOLD_DONE);
    CHECK(is_taken(&taken, 0, 2, 0) && mold_listener_count(listener) == 1);
    CODE(mold_repairer_poll(&repairer, now, request, &server), MOLD_E_ABSENT);
    CHECK(request[0] == 7 && server == 9 && deadline == 99);
    for (int turns = 0; turns < 10 && mold_repairer_poll(&repairer, now, request, &server) == MOLD_E_ABSENT; turns++) {
        CODE(mold_repairer_deadline(&repairer, now, &deadline), MOLD_DONE);
        CHECK(deadline > now);
        now = deadline;
    }
    HEX(request, 20, SESSION_HEX "00000000000000020002");
    CHECK(server == 0 && now >= 6 * MS && now <= 8 * MS);
    CODE(mold_repairer_poll(&repairer, now, request, &server), MOLD_E_ABSENT);
    CODE(mold_repairer_poll(&repairer, now + 49 * MS, request, &server), MOLD_E_ABSENT);
    CODE(mold_repairer_deadline(&repairer, now, &deadline), MOLD_DONE);
    CHECK(deadline == now + 50 * MS);
    CODE(mold_repairer_poll(&repairer, deadline, request, &server), MOLD_DONE);
    CHECK(server == 1 && request[17] == 2 && request[19] == 2);
    CODE(mold_listener_clear(listener), MOLD_DONE);
    CODE(take_at(&repairer, deadline, MOLD_SERVER(1), packet_of(2, 2, 5), &taken), MOLD_DONE);
    CHECK(is_taken(&taken, 4, 0, 0) && mold_listener_first(listener) == 2 && mold_listener_count(listener) == 4);
    CHECK(is_message(listener, 1, 3, 5) && is_message(listener, 3, 5, 5) && mold_listener_next(listener) == 6);
    CODE(mold_repairer_deadline(&repairer, 0, &deadline), MOLD_E_ABSENT);
    mold_free(&repairer);
}

static void datagrams_are_refused(void) {
    mold_repairer repairer = repairer_of(2, 0);
    mold_taken taken = {9, 9, 9, 9, 9};
    CODE(take_at(&repairer, LATEST + 1, 4, of_length(3), &taken), MOLD_E_LINE);
    CODE(take_at(&repairer, 0, UINT32_MAX, of_length(3), &taken), MOLD_E_LINE);
    CODE(take_at(&repairer, LATEST + 1, MOLD_SERVER(1), of_length(3), &taken), MOLD_E_TIME);
    CODE(take_at(&repairer, UINT64_MAX, MOLD_LINE_A, packet_of(1, 1, 1), &taken), MOLD_E_TIME);
    CHECK(taken.detail == 9 && is_taken(&taken, 9, 9, 9) && mold_listener_next(mold_listener_of(&repairer)) == 1);
    CODE(take_at(&repairer, LATEST, MOLD_SERVER(1), of_length(3), &taken), MOLD_E_SHORT);
    CHECK(taken.detail == 3 && is_taken(&taken, 0, 0, 0));
    CODE(take_at(&repairer, LATEST, MOLD_LINE_B, packet_of(0, 1, 1), &taken), MOLD_E_SEQUENCE_ZERO);
    mold_free(&repairer);
}

/* The server has nothing. After two requests the missing messages are given up, and the stored ones delivered. */
static void a_gap_is_given_up(void) {
    mold_repairer repairer = repairer_of(1, 2);
    mold_listener *listener = mold_listener_of(&repairer);
    mold_taken taken = {0, 0, 0, 0, 0};
    mold_range lost = {9, 9}, ranges[2];
    uint8_t request[20];
    uint32_t server = 9, requests = 0;
    uint64_t now = 0;
    CODE(take_at(&repairer, now, MOLD_LINE_A, packet_of(1, 1, 1), &taken), MOLD_DONE);
    CODE(take_at(&repairer, now, MOLD_LINE_A, packet_of(4, 2, 1), &taken), MOLD_DONE);
    CODE(take_at(&repairer, now, MOLD_LINE_A, packet_of(9, 0, 0), &taken), MOLD_DONE);
    CODE(mold_repairer_lost(&repairer, now, &lost), MOLD_E_BATCH);
    CODE(mold_repairer_lost(&repairer, LATEST + 1, &lost), MOLD_E_TIME);
    CODE(mold_repairer_poll(&repairer, LATEST + 1, request, &server), MOLD_E_TIME);
    CODE(mold_repairer_deadline(&repairer, LATEST + 1, &now), MOLD_E_TIME);
    CHECK(now == 0 && server == 9 && mold_listener_count(listener) == 1);
    CODE(mold_listener_clear(listener), MOLD_DONE);
    CHECK(mold_listener_ranges(listener, 0, ranges, 2) == 2 && ranges[0].first == 2 && ranges[0].last == 3);
    while (now < 1000 * (uint64_t)MS && mold_repairer_lost(&repairer, now, &lost) == MOLD_E_ABSENT) {
        CHECK(lost.first == 9 && lost.last == 9);
        while (mold_repairer_poll(&repairer, now, request, &server) == MOLD_DONE)
            requests += request[17] == 2;
        CODE(mold_repairer_deadline(&repairer, now, &now), MOLD_DONE);
    }
    CHECK(lost.first == 2 && lost.last == 3 && requests == 2);
    CHECK(mold_listener_first(listener) == 4 && mold_listener_count(listener) == 2 && is_message(listener, 1, 5, 1));
    CHECK(mold_listener_next(listener) == 6 && mold_listener_known(listener) == 9);
    CODE(mold_repairer_lost(&repairer, now, &lost), MOLD_E_BATCH);
    mold_repair_stats stats;
    CODE(mold_repairer_stats(&repairer, &stats), MOLD_DONE);
    CHECK(stats.next == 6 && stats.known == 9 && stats.gap_first == 6 && stats.gap_last == 8 && stats.missing == 3);
    CHECK(stats.stored == 0 && stats.patience == MS && stats.lost == 2 && stats.requests >= 3 && stats.answers == 0);
    CHECK(stats.a.datagrams == 3 && stats.a.first == 2 && stats.a.again == 1 && stats.b.datagrams == 0);
    mold_free(&repairer);
}

/* The statistics of lines, of responses and of contradictions. */
static void repairers_count(void) {
    mold_repairer repairer = MOLD_EMPTY;
    mold_repair_options options = options_of(1, 0);
    mold_repair_stats stats;
    mold_taken taken = {0, 0, 0, 0, 0};
    options.patience = 0;
    options.audit = 8;
    CODE(mold_repairer_new(&repairer, session, &options), MOLD_DONE);
    CODE(mold_repairer_stats(&repairer, &stats), MOLD_DONE);
    CHECK(stats.next == 1 && stats.known == 1 && stats.gap_first == 0 && stats.gap_last == 0 && stats.missing == 0);
    CHECK(stats.patience == MS && stats.requests == 0 && stats.contradictions == 0 && stats.contradiction == 0);
    CODE(take_at(&repairer, 0, MOLD_LINE_A, packet_of(1, 2, 4), &taken), MOLD_DONE);
    CODE(take_at(&repairer, 3 * MS, MOLD_LINE_B, packet_of(1, 2, 4), &taken), MOLD_DONE);
    CODE(take_at(&repairer, 3 * MS, MOLD_LINE_B, of_length(3), &taken), MOLD_E_SHORT);
    CODE(take_at(&repairer, 3 * MS, MOLD_LINE_B, packet_of(5, 1, 4), &taken), MOLD_DONE);
    CODE(take_at(&repairer, 4 * MS, MOLD_SERVER(0), packet_of(3, 1, 4), &taken), MOLD_DONE);
    CODE(take_at(&repairer, 4 * MS, MOLD_SERVER(0), packet_of(3, 1, 4), &taken), MOLD_DONE);
    datagram other = packet_of(1, 2, 4);
    other.at[29] = 'X';
    CODE(take_at(&repairer, 5 * MS, MOLD_LINE_A, other, &taken), MOLD_DONE);
    CODE(mold_repairer_stats(&repairer, &stats), MOLD_DONE);
    CHECK(stats.next == 4 && stats.known == 6 && stats.gap_first == 4 && stats.gap_last == 4 && stats.missing == 1);
    CHECK(stats.stored == 1 && stats.patience == 6 * MS && stats.answers == 2 && stats.useless == 1 && stats.lost == 0);
    CHECK(stats.contradictions == 1 && stats.contradiction == 2);
    CHECK(stats.a.datagrams == 2 && stats.a.first == 1 && stats.a.again == 1 && stats.a.refused == 0);
    CHECK(stats.b.datagrams == 2 && stats.b.first == 1 && stats.b.again == 1 && stats.b.refused == 1);
    CHECK(stats.a.late == 0 && stats.b.late == 3 * MS);
    mold_free(&repairer);
}

/* All calls that read a listener read a repairer too. Those that change one do not, except mold_listener_clear. */
static void a_repairer_is_read_as_a_listener(void) {
    mold_repairer repairer = repairer_of(1, 0);
    mold_listener *listener = mold_listener_of(&repairer);
    mold_taken taken = {0, 0, 0, 0, 0};
    mold_delivery delivery = {9, 9, 9, 9, 9, 9};
    mold_report report = {9, 9, 9};
    mold_bytes slices[2];
    uint8_t request[20];
    CODE(take_at(&repairer, 0, MOLD_LINE_B, packet_of(1, 2, 3), &taken), MOLD_DONE);
    CODE(take_at(&repairer, 0, MOLD_LINE_B, packet_of(5, 1, 3), &taken), MOLD_DONE);
    CHECK(mold_listener_messages(listener, slices, 2) == 2 && slices[1].length == 3 && slices[1].at[0] == 2);
    CHECK(is_message(listener, 0, 1, 3) && mold_listener_first(listener) == 1 && mold_listener_known(listener) == 6);
    CHECK(mold_listener_wanted(listener, request) && request[17] == 3 && request[19] == 2);
    CHECK(!mold_listener_finished(listener));
    CODE(mold_listener_report(listener, MOLD_LINE_B, &report), MOLD_DONE);
    CHECK(report.datagrams == 2 && report.front == 6);
    CODE(take(listener, MOLD_LINE_A, packet_of(3, 2, 3), &taken), MOLD_E_BROKEN);
    CODE(hear(listener, MOLD_LINE_A, packet_of(3, 2, 3), &delivery), MOLD_E_BROKEN);
    CODE(mold_listener_skip(listener, 4), MOLD_E_BROKEN);
    CHECK(mold_listener_next(listener) == 3 && mold_listener_count(listener) == 2 && delivery.own == 9);
    CODE(mold_listener_clear(listener), MOLD_DONE);
    CHECK(mold_listener_count(listener) == 0 && mold_listener_first(listener) == 0);
    CHECK(mold_listener_next(listener) == 3);
    mold_free(&repairer);
}

void test_repairer(void) {
    repairers_that_cannot_be();
    a_gap_is_repaired();
    datagrams_are_refused();
    a_gap_is_given_up();
    repairers_count();
    a_repairer_is_read_as_a_listener();
}
