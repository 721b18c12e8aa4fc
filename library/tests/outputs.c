/* Passes uninitialized outputs to every call that has outputs, in calls that succeed and in calls that are refused. In
 * valgrind, the test fails if a call reads an output before it writes it.
 *
 *     cd library/tests && cc -std=c99 -g outputs.c ../out/libmold.a -o outputs && valgrind ./outputs */
#define CHECK_MAIN
#include "check.h"

/* A buffer whose bytes are uninitialized. */
static uint8_t *uninitialized(size_t length) {
    uint8_t *made = malloc(length);
    if (made == NULL)
        abort();
    return made;
}

static void texts(void) {
    mold_bytes text, terminated, unknown;
    mold_text(MOLD_E_FULL, &text);
    mold_terminated_text(MOLD_E_FULL, &terminated);
    mold_terminated_text(UINT32_MAX, &unknown);
    CHECK(terminated.length == text.length + 1 && memcmp(terminated.at, text.at, text.length) == 0);
    CHECK(unknown.length == 13 && memcmp(unknown.at, "unknown code", 13) == 0);
}

static void packets(void) {
    datagram given = packet_of(7, 2, 3);
    mold_packet packet, refused;
    mold_place places[3];
    mold_request request, other;
    uint8_t *buffer = uninitialized(64), bytes[20];
    mold_packer packer = MOLD_PACKER(buffer, 64);
    CODE(mold_decode(given.at, given.length, &packet), MOLD_DONE);
    CHECK(packet.sequence == 7 && packet.count == 2 && packet.kind == MOLD_DATA && packet.detail == 0);
    CODE(mold_decode(given.at, 19, &refused), MOLD_E_SHORT);
    CHECK(refused.detail == 19);
    CODE(mold_read(given.at, given.length, &packet, places, 3), MOLD_DONE);
    CHECK(places[0].offset == 22 && places[1].offset == 27 && places[1].length == 3);
    CODE(mold_read(given.at, 24, &packet, places, 3), MOLD_E_BLOCK_CUT);
    CODE(mold_request_decode(given.at, 20, &request), MOLD_DONE);
    CHECK(request.sequence == 7 && request.count == 2);
    CODE(mold_request_decode(given.at, 21, &other), MOLD_E_REQUEST_LENGTH);
    mold_request_encode(&request, bytes);
    CHECK(memcmp(bytes, given.at, 20) == 0);
    CODE(mold_packer_start(&packer, session, 7), MOLD_DONE);
    CODE(mold_packer_add(&packer, given.at + 22, 3), MOLD_DONE);
    CODE(mold_packer_add(&packer, given.at, 60), MOLD_E_FULL);
    CHECK(packer.used == 25 && memcmp(buffer + 20, given.at + 20, 5) == 0);
    CODE(mold_packer_end(&packer, session, 8), MOLD_DONE);
    CHECK(packer.used == 20);
    free(given.at);
    free(buffer);
}

static void listeners(void) {
    mold_listener listener = listener_at(1, 4);
    mold_taken taken, refused;
    mold_delivery delivery, not_delivered, not_cleared;
    mold_report report, no_report;
    mold_bytes message, absent, all[4];
    mold_range ranges[2];
    uint8_t *buffer = uninitialized(4), request[20];
    size_t size, needed, no_size;
    CODE(take(&listener, MOLD_LINE_A, packet_of(3, 9, 2), &taken), MOLD_DONE);
    CHECK(is_taken(&taken, 0, 2, 7) && taken.detail == 0);
    CODE(take(&listener, MOLD_LINE_A, of_length(3), &refused), MOLD_E_SHORT);
    CHECK(refused.detail == 3 && is_taken(&refused, 0, 0, 0));
    CODE(take(&listener, 9, of_length(3), &refused), MOLD_E_LINE);
    CHECK(mold_listener_wanted(&listener, request) && request[17] == 1 && request[19] == 2);
    CODE(hear(&listener, MOLD_LINE_B, packet_of(1, 1, 2), &delivery), MOLD_DONE);
    CHECK(is_delivery(&delivery, 20, 1, 0, 0, 0));
    CODE(hear(&listener, MOLD_LINE_B, packet_of(0, 1, 2), &not_delivered), MOLD_E_SEQUENCE_ZERO);
    CHECK(is_delivery(&not_delivered, 0, 0, 0, 0, 0));
    CODE(hear(&listener, 9, packet_of(1, 1, 2), &not_delivered), MOLD_E_LINE);
    CODE(take(&listener, MOLD_ANSWER, packet_of(2, 1, 2), &taken), MOLD_DONE);
    CODE(hear(&listener, MOLD_LINE_B, packet_of(5, 1, 2), &not_cleared), MOLD_E_BATCH);
    CHECK(is_delivery(&not_cleared, 0, 0, 0, 0, 0));
    CODE(mold_listener_message(&listener, 2, &message), MOLD_DONE);
    CHECK(message.length == 2 && message.at[1] == 4);
    CODE(mold_listener_message(&listener, 3, &absent), MOLD_E_ABSENT);
    CHECK(mold_listener_messages(&listener, all, 4) == 3 && all[0].at[0] == 2 && all[2].length == 2);
    CODE(mold_listener_copy(&listener, 0, buffer, 4, &size), MOLD_DONE);
    CHECK(size == 2 && buffer[1] == 2);
    CODE(mold_listener_copy(&listener, 0, buffer, 1, &needed), MOLD_E_ROOM);
    CHECK(needed == 2);
    CODE(mold_listener_copy(&listener, 3, buffer, 4, &no_size), MOLD_E_ABSENT);
    CODE(mold_listener_report(&listener, MOLD_LINE_A, &report), MOLD_DONE);
    CHECK(report.datagrams == 1 && report.refused == 1 && report.front == 12);
    CODE(mold_listener_report(&listener, 2, &no_report), MOLD_E_LINE);
    CHECK(mold_listener_ranges(&listener, 0, ranges, 2) == 1 && ranges[0].first == 5 && ranges[0].last == 11);
    mold_free(&listener);
    free(buffer);
}

static void repairers(void) {
    mold_repairer repairer = MOLD_EMPTY;
    mold_repair_options options;
    datagram given = packet_of(3, 1, 2);
    mold_taken taken, refused;
    mold_repair_stats stats;
    mold_range lost, no_range;
    uint8_t request[20], no_request[20];
    uint32_t server, no_server;
    uint64_t now = 0, deadline, no_deadline;
    mold_repair_options_default(&options);
    options.give_up = 1;
    CODE(mold_repairer_new(&repairer, session, &options), MOLD_DONE);
    CODE(mold_repairer_deadline(&repairer, now, &no_deadline), MOLD_E_ABSENT);
    CODE(mold_repairer_poll(&repairer, now, no_request, &no_server), MOLD_E_ABSENT);
    CODE(mold_repairer_take(&repairer, now, MOLD_LINE_A, given.at, given.length, &taken), MOLD_DONE);
    CODE(mold_repairer_take(&repairer, now, MOLD_SERVER(0), given.at, 7, &refused), MOLD_E_SHORT);
    CHECK(is_taken(&taken, 0, 1, 0) && refused.detail == 7);
    CODE(mold_repairer_lost(&repairer, now, &no_range), MOLD_E_ABSENT);
    while (now < 100000000 && mold_repairer_poll(&repairer, now, request, &server) == MOLD_E_ABSENT) {
        CODE(mold_repairer_deadline(&repairer, now, &deadline), MOLD_DONE);
        now = deadline;
    }
    CHECK(server == 0 && request[17] == 1 && request[19] == 2);
    CODE(mold_repairer_lost(&repairer, now + 1000000000, &lost), MOLD_DONE);
    CHECK(lost.first == 1 && lost.last == 2);
    CODE(mold_repairer_stats(&repairer, &stats), MOLD_DONE);
    CHECK(stats.lost == 2 && stats.a.datagrams == 1 && stats.b.late == 0);
    mold_free(&repairer);
    free(given.at);
}

static void publishers(void) {
    mold_publisher publisher = publisher_of(64);
    uint8_t *buffer = uninitialized(64);
    uint64_t number, too_long, unsent, none;
    size_t size;
    CODE(publish(&publisher, 5, 3, &number), MOLD_DONE);
    CODE(publish(&publisher, 5, 60, &too_long), MOLD_E_TOO_LONG);
    CHECK(number == 1 && too_long == 60);
    CODE(mold_publisher_close(&publisher, &unsent), MOLD_E_UNSENT);
    CHECK(unsent == 1);
    CODE(mold_publisher_datagram(&publisher, buffer, 64, &size), MOLD_DONE);
    CHECK(size == 25 && buffer[22] == 5);
    CODE(mold_publisher_datagram(&publisher, buffer, 64, &size), MOLD_E_ABSENT);
    CODE(mold_publisher_heartbeat(&publisher, buffer, 64, &size), MOLD_DONE);
    CODE(mold_publisher_end(&publisher, buffer, 63, &size), MOLD_E_ROOM);
    CHECK(size == 64);
    CODE(mold_publisher_close(&publisher, &none), MOLD_DONE);
    CODE(mold_publisher_end(&publisher, buffer, 64, &size), MOLD_DONE);
    CODE(mold_publisher_save(&publisher, buffer, 64, &size), MOLD_DONE);
    CHECK(none == 0 && size == 32 && buffer[31] == 5);
    mold_free(&publisher);
    free(buffer);
}

static void journals(void) {
    mold_publisher publisher = publisher_of(64);
    uint8_t *buffer = uninitialized(64);
    uint64_t number, refused;
    size_t size, needed, absent;
    CODE(mold_journal_head(&publisher, buffer, 18, &needed), MOLD_E_ROOM);
    CODE(mold_journal_head(&publisher, buffer, 64, &size), MOLD_DONE);
    CHECK(needed == 19 && size == 19);
    CODE(publish(&publisher, 5, 3, &number), MOLD_DONE);
    CODE(mold_journal_records(&publisher, 1, buffer + 18, 7, &needed), MOLD_E_ROOM);
    CODE(mold_journal_records(&publisher, 3, buffer + 18, 46, &absent), MOLD_E_ABSENT);
    CODE(mold_journal_records(&publisher, 1, buffer + 18, 46, &size), MOLD_DONE);
    CHECK(needed == 8 && absent == 0 && size == 8 && buffer[24] == 5);
    mold_free(&publisher);
    CODE(mold_publisher_resume(&publisher, 64, buffer, 17, &refused), MOLD_E_FILE_SHORT);
    CODE(mold_publisher_resume(&publisher, 64, buffer, 26, &number), MOLD_DONE);
    CHECK(refused == 17 && number == 25);
    mold_free(&publisher);
    free(buffer);
}

static void servers(void) {
    mold_server server = MOLD_EMPTY;
    datagram room = {uninitialized(64), 64};
    mold_plan made, none;
    uint64_t number, refused, length;
    size_t size;
    CODE(server_new(&server, 64, 4, of_length(17), &refused), MOLD_E_FILE_SHORT);
    CODE(server_new(&server, 64, 4, five_messages(), &number), MOLD_DONE);
    CHECK(refused == 17 && number == 0);
    CODE(answer(&server, SESSION_HEX "00000000000000020001", room, &length), MOLD_DONE);
    CHECK(length == 42 && room.at[41] == 2);
    CODE(answer(&server, SESSION_HEX "00000000000000060001", room, &refused), MOLD_E_AHEAD);
    CODE(plan(&server, SESSION_HEX "00000000000000000001", &none, &refused), MOLD_E_SEQUENCE_ZERO);
    CODE(plan(&server, SESSION_HEX "00000000000000030002", &made, &number), MOLD_DONE);
    CODE(mold_server_datagram(&server, &made, room.at, 64, &size), MOLD_DONE);
    CHECK(size == 64 && room.at[22] == 3 && made.from == 5);
    CODE(mold_server_datagram(&server, &made, room.at, 64, &size), MOLD_E_ABSENT);
    mold_free(&server);
    free(room.at);
}

static void checkers(void) {
    mold_checker checker = MOLD_EMPTY;
    datagram given = packet_of(2, 1, 1);
    mold_verdict verdict;
    mold_range ranges[2];
    uint64_t number, refused;
    size_t count;
    CODE(mold_checker_new(&checker), MOLD_DONE);
    CODE(mold_checker_take(&checker, given.at, 3, &refused), MOLD_E_SHORT);
    CODE(mold_checker_take(&checker, given.at, given.length, &number), MOLD_DONE);
    CHECK(refused == 3 && number == 0);
    CODE(mold_checker_verdict(&checker, &verdict), MOLD_DONE);
    CHECK(verdict.whole == 0 && verdict.ranges == 1 && verdict.end == 0);
    CODE(mold_checker_ranges(&checker, ranges, 2, &count), MOLD_DONE);
    CHECK(count == 1 && ranges[0].first == 1 && ranges[0].last == 1);
    mold_free(&checker);
    free(given.at);
}

int main(void) {
    texts();
    packets();
    listeners();
    repairers();
    publishers();
    journals();
    servers();
    checkers();
    return report_checks();
}
