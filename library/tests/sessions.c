/* Tests of the publisher, and of the server, which reads from a journal or from a publisher. */
#include "check.h"
#include "test.h"

static void limits_of_publishers(void) {
    mold_publisher publisher = MOLD_EMPTY;
    CODE(mold_publisher_new(&publisher, session, 63), MOLD_E_LIMIT);
    CODE(mold_publisher_new(&publisher, session, 65508), MOLD_E_LIMIT);
    CODE(mold_publisher_new(&publisher, session, SIZE_MAX), MOLD_E_LIMIT);
    CHECK(publisher.at == NULL && !publisher.live);
    CODE(mold_publisher_new(&publisher, session, 65507), MOLD_DONE);
    CODE(mold_publisher_new(&publisher, session, 64), MOLD_E_BROKEN);
    mold_free(&publisher);
}

static void a_session_is_published(void) {
    mold_publisher publisher = publisher_of(64);
    datagram room = of_length(64);
    uint64_t number = 99;
    size_t size = 99;
    CODE(mold_publisher_datagram(&publisher, room.at, 63, &size), MOLD_E_ROOM);
    CHECK(size == 64);
    CODE(mold_publisher_datagram(&publisher, room.at, 64, &size), MOLD_E_ABSENT);
    CHECK(size == 0);
    CODE(mold_publisher_end(&publisher, room.at, 64, &size), MOLD_E_ABSENT);
    CODE(mold_publisher_heartbeat(&publisher, room.at, 64, &size), MOLD_DONE);
    HEX(room.at, size, SESSION_HEX "00000000000000010000");
    CODE(publish(&publisher, 1, 20, &number), MOLD_DONE);
    CHECK(number == 1);
    CODE(publish(&publisher, 2, 20, &number), MOLD_DONE);
    CHECK(number == 2 && !mold_publisher_is_full(&publisher));
    CODE(mold_publisher_publish(&publisher, NULL, 0, &number), MOLD_DONE);
    CHECK(number == 3 && mold_publisher_is_full(&publisher));
    CODE(publish(&publisher, 4, 43, &number), MOLD_E_TOO_LONG);
    CHECK(number == 43);
    CODE(mold_publisher_close(&publisher, &number), MOLD_E_UNSENT);
    CHECK(number == 3);
    CODE(mold_publisher_datagram(&publisher, room.at, 64, &size), MOLD_DONE);
    HEX(room.at, size, SESSION_HEX "00000000000000010002" "00140101010101010101010101010101010101010101"
        "00140202020202020202020202020202020202020202");
    CODE(mold_publisher_heartbeat(&publisher, room.at, 64, &size), MOLD_DONE);
    HEX(room.at, size, SESSION_HEX "00000000000000030000");
    CHECK(!mold_publisher_is_full(&publisher));
    CODE(mold_publisher_datagram(&publisher, room.at, 64, &size), MOLD_DONE);
    HEX(room.at, size, SESSION_HEX "000000000000000300010000");
    CODE(mold_publisher_datagram(&publisher, room.at, 64, &size), MOLD_E_ABSENT);
    free(room.at);
    mold_free(&publisher);
}

static void buffers_that_are_too_small(void) {
    mold_publisher publisher = publisher_of(64);
    datagram room = of_length(64);
    uint64_t number = 0;
    size_t size = 99;
    CODE(publish(&publisher, 1, 40, &number), MOLD_DONE);
    CODE(mold_publisher_datagram(&publisher, room.at, 63, &size), MOLD_E_ROOM);
    CHECK(size == 64);
    CODE(mold_publisher_datagram(&publisher, NULL, 0, &size), MOLD_E_ROOM);
    CODE(mold_publisher_heartbeat(&publisher, room.at, 19, &size), MOLD_E_ROOM);
    CHECK(room.at[0] == 0);
    CODE(mold_publisher_datagram(&publisher, room.at, 64, &size), MOLD_DONE);
    CHECK(size == 62);
    CODE(mold_publisher_close(&publisher, &number), MOLD_DONE);
    CODE(mold_publisher_end(&publisher, room.at, 19, &size), MOLD_E_ROOM);
    CODE(mold_publisher_end(&publisher, NULL, 0, &size), MOLD_E_ROOM);
    free(room.at);
    mold_free(&publisher);
}

static void a_session_is_closed(void) {
    mold_publisher publisher = publisher_of(64);
    datagram room = of_length(64);
    uint64_t number = 99;
    size_t size = 99;
    CODE(publish(&publisher, 0x41, 1, &number), MOLD_DONE);
    CODE(mold_publisher_datagram(&publisher, room.at, 64, &size), MOLD_DONE);
    CODE(mold_publisher_close(&publisher, &number), MOLD_DONE);
    CODE(mold_publisher_close(&publisher, &number), MOLD_DONE);
    CODE(publish(&publisher, 1, 43, &number), MOLD_E_CLOSED);
    CODE(mold_publisher_heartbeat(&publisher, room.at, 64, &size), MOLD_E_ABSENT);
    CODE(mold_publisher_datagram(&publisher, room.at, 64, &size), MOLD_E_ABSENT);
    CODE(mold_publisher_end(&publisher, room.at, 64, &size), MOLD_DONE);
    HEX(room.at, size, SESSION_HEX "0000000000000002ffff");
    CODE(mold_publisher_end(&publisher, room.at, 64, &size), MOLD_DONE);
    HEX(room.at, size, SESSION_HEX "0000000000000002ffff");
    free(room.at);
    mold_free(&publisher);
}

static void a_journal_is_saved(void) {
    mold_publisher publisher = publisher_of(64);
    datagram room = of_length(33);
    uint64_t number = 0;
    size_t size = 0;
    CODE(mold_publisher_save(&publisher, NULL, 0, &size), MOLD_E_ROOM);
    CHECK(size == 27);
    CODE(mold_publisher_save(&publisher, room.at, 27, &size), MOLD_DONE);
    HEX(room.at, size, "4d4f4c444a4e4c32" SESSION_HEX "00" "0000000000000000");
    CODE(mold_publisher_publish(&publisher, (const uint8_t *)"AB", 2, &number), MOLD_DONE);
    CODE(mold_publisher_publish(&publisher, NULL, 0, &number), MOLD_DONE);
    memset(room.at, 7, 33);
    CODE(mold_publisher_save(&publisher, room.at, 32, &size), MOLD_E_ROOM);
    CHECK(size == 33 && room.at[0] == 7);
    CODE(mold_publisher_save(&publisher, room.at, 33, &size), MOLD_DONE);
    HEX(room.at, size, "4d4f4c444a4e4c32" SESSION_HEX "00" "0000000000000002" "00024142" "0000");
    datagram sent = of_length(64);
    CODE(mold_publisher_datagram(&publisher, sent.at, 64, &size), MOLD_DONE);
    CODE(mold_publisher_close(&publisher, &number), MOLD_DONE);
    CODE(mold_publisher_save(&publisher, room.at, 33, &size), MOLD_DONE);
    HEX(room.at, size, "4d4f4c444a4e4c32" SESSION_HEX "01" "0000000000000002" "00024142" "0000");
    free(sent.at);
    free(room.at);
    mold_free(&publisher);
}

static void servers_that_cannot_be(void) {
    mold_server server = MOLD_EMPTY;
    uint64_t number = 99;
    CODE(server_new(&server, 63, 0, five_messages(), &number), MOLD_E_LIMIT);
    CODE(server_new(&server, 65508, 1, five_messages(), &number), MOLD_E_LIMIT);
    CODE(server_new(&server, 64, 0, five_messages(), &number), MOLD_E_BURST);
    CODE(server_new(&server, 64, 65, five_messages(), &number), MOLD_E_BURST);
    CHECK(server.at == NULL && !server.live);
    server = server_of_five(64);
    CODE(server_new(&server, 64, 1, five_messages(), &number), MOLD_E_BROKEN);
    mold_free(&server);
}

#define VERSION_2 "4d4f4c444a4e4c32" SESSION_HEX
#define VERSION_3 "4d4f4c444a4e4c33" SESSION_HEX

static void files_that_are_no_journals(void) {
    mold_server server = MOLD_EMPTY;
    uint64_t number = 99;
    CODE(mold_server_new(&server, 64, 1, NULL, 0, &number), MOLD_E_FILE_SHORT);
    CHECK(number == 0);
    CODE(server_new(&server, 64, 1, cut(five_messages(), 17), &number), MOLD_E_FILE_SHORT);
    CHECK(number == 17);
    CODE(server_new(&server, 64, 1, of_length(18), &number), MOLD_E_BAD_MAGIC);
    CODE(server_new(&server, 64, 1, of_hex(VERSION_2 "0000000000000000"), &number), MOLD_E_FILE_SHORT);
    CHECK(number == 26);
    CODE(server_new(&server, 64, 1, of_hex(VERSION_2 "020000000000000000"), &number), MOLD_E_BAD_FLAG);
    CHECK(number == 2);
    CODE(server_new(&server, 64, 1, cut(five_messages(), 19), &number), MOLD_E_FILE_CUT);
    CHECK(number == 1);
    CODE(server_new(&server, 64, 1, cut(five_messages(), 18 + 22 + 21), &number), MOLD_E_FILE_CUT);
    CHECK(number == 2);
    CODE(server_new(&server, 64, 1, of_hex(VERSION_2 "000000000000000003" "00024142" "0000"), &number),
         MOLD_E_COUNT_DIFFERS);
    CHECK(number == 2);
    CODE(server_new(&server, 64, 1, of_hex(VERSION_3), &number), MOLD_E_DAMAGED);
    CHECK(number == 1);
    CODE(server_new(&server, 64, 1, of_hex(VERSION_3 "0100" "00024142" "0102"), &number), MOLD_E_DAMAGED);
    CHECK(number == 2);
    datagram longer = five_messages();
    longer.at[19] = 43;
    CODE(server_new(&server, 64, 1, longer, &number), MOLD_E_TOO_LONG);
    CHECK(number == 43 && server.at == NULL && !server.live);
}

static void journals_of_both_versions(void) {
    mold_server server = MOLD_EMPTY;
    uint64_t number = 99;
    datagram room = of_length(64);
    uint8_t request[20];
    unhex(SESSION_HEX "00000000000000010002", request);
    CODE(server_new(&server, 64, 1, of_hex(VERSION_2 "010000000000000002" "00024142" "0000"), &number), MOLD_DONE);
    CODE(mold_server_answer(&server, request, 20, room.at, 64, &number), MOLD_DONE);
    HEX(room.at, (size_t)number, SESSION_HEX "00000000000000010002000241420000");
    mold_free(&server);
    CODE(server_new(&server, 64, 1, cut(five_messages(), 18), &number), MOLD_DONE);
    CODE(mold_server_answer(&server, request, 20, room.at, 64, &number), MOLD_E_AHEAD);
    CHECK(number == 1);
    mold_free(&server);
    free(room.at);
}

#define TWENTY_1 "00140101010101010101010101010101010101010101"
#define TWENTY_2 "00140202020202020202020202020202020202020202"
#define TWENTY_3 "00140303030303030303030303030303030303030303"
#define TWENTY_5 "00140505050505050505050505050505050505050505"

static void requests_are_answered(void) {
    mold_server server = server_of_five(1);
    datagram room = of_length(64);
    uint64_t number = 99;
    CODE(answer(&server, SESSION_HEX "0000000000000002ffff", room, &number), MOLD_DONE);
    HEX(room.at, (size_t)number, SESSION_HEX "00000000000000020002" TWENTY_2 TWENTY_3);
    CODE(answer(&server, SESSION_HEX "00000000000000020001", room, &number), MOLD_DONE);
    HEX(room.at, (size_t)number, SESSION_HEX "00000000000000020001" TWENTY_2);
    CODE(answer(&server, SESSION_HEX "00000000000000050009", room, &number), MOLD_DONE);
    HEX(room.at, (size_t)number, SESSION_HEX "00000000000000050001" TWENTY_5);
    mold_free(&server);
    free(room.at);
}

static void requests_are_refused(void) {
    static const char *const wrong[] = {
        SESSION_HEX "000000000000000100ff00", "53455353494f4e30303200000000000000000001",
        SESSION_HEX "00000000000000000000", SESSION_HEX "00000000000000010000", SESSION_HEX "00000000000000060001"};
    static const uint32_t codes[] = {
        MOLD_E_REQUEST_LENGTH, MOLD_E_WRONG_SESSION, MOLD_E_SEQUENCE_ZERO, MOLD_E_EMPTY_REQUEST, MOLD_E_AHEAD};
    mold_server server = server_of_five(1);
    datagram room = of_length(64);
    mold_plan made = {5, 6, 7, {1}};
    for (size_t i = 0; i < 5; i++) {
        uint64_t answered_by = 99, planned = 99;
        CODE(answer(&server, wrong[i], room, &answered_by), codes[i]);
        CODE(plan(&server, wrong[i], &made, &planned), codes[i]);
        CHECK(codes[i] != MOLD_E_REQUEST_LENGTH || (answered_by == 21 && planned == 21));
        CHECK(codes[i] != MOLD_E_AHEAD || (answered_by == 6 && planned == 6));
    }
    CHECK(made.from == 5 && made.to == 6 && made.left == 7 && made.session[0] == 1 && room.at[0] == 0);
    uint64_t number = 99;
    CODE(mold_server_answer(&server, NULL, 0, room.at, 64, &number), MOLD_E_REQUEST_LENGTH);
    CHECK(number == 0);
    uint8_t request[20];
    unhex(SESSION_HEX "00000000000000010001", request);
    CODE(mold_server_answer(&server, request, 20, room.at, 19, &number), MOLD_E_ROOM);
    CODE(mold_server_answer(&server, request, 20, NULL, 0, &number), MOLD_E_ROOM);
    mold_free(&server);
    free(room.at);
}

static void an_answer_of_a_burst(void) {
    mold_server server = server_of_five(2);
    datagram room = of_length(64);
    mold_plan made = {0, 0, 0, {0}};
    uint64_t number = 0;
    size_t size = 0;
    CODE(plan(&server, SESSION_HEX "0000000000000002ffff", &made, &number), MOLD_DONE);
    CHECK(made.from == 2 && made.to == 6 && made.left == 2 && memcmp(made.session, SESSION, 10) == 0);
    CODE(mold_server_datagram(&server, &made, room.at, 19, &size), MOLD_E_ROOM);
    CHECK(made.from == 2 && made.left == 2);
    CODE(mold_server_datagram(&server, &made, room.at, 64, &size), MOLD_DONE);
    HEX(room.at, size, SESSION_HEX "00000000000000020002" TWENTY_2 TWENTY_3);
    CHECK(made.from == 4 && made.to == 6 && made.left == 1);
    CODE(mold_server_datagram(&server, &made, room.at, 64, &size), MOLD_DONE);
    CHECK(made.from == 6 && made.to == 6 && made.left == 0 && size == 64 && room.at[17] == 4 && room.at[44] == 5);
    CODE(mold_server_datagram(&server, &made, room.at, 64, &size), MOLD_E_ABSENT);
    CODE(plan(&server, SESSION_HEX "0000000000000001ffff", &made, &number), MOLD_DONE);
    made.left = 0;
    CODE(mold_server_datagram(&server, &made, room.at, 64, &size), MOLD_E_ABSENT);
    mold_free(&server);
    free(room.at);
}

static void plans_that_cannot_be(void) {
    mold_server server = server_of_five(2);
    datagram room = of_length(64);
    size_t size = 0;
    mold_plan zero = {0, 3, 1, {0}}, turned = {4, 3, 1, {0}}, behind = {2, 7, 1, {0}}, other = {2, 3, 1, {0}};
    memcpy(zero.session, SESSION, 10);
    memcpy(turned.session, SESSION, 10);
    memcpy(behind.session, SESSION, 10);
    memcpy(other.session, "SESSION002", 10);
    CODE(mold_server_datagram(&server, &zero, room.at, 64, &size), MOLD_E_BROKEN);
    CODE(mold_server_datagram(&server, &turned, room.at, 64, &size), MOLD_E_BROKEN);
    CODE(mold_server_datagram(&server, &behind, room.at, 64, &size), MOLD_E_BROKEN);
    CODE(mold_server_datagram(&server, &other, room.at, 64, &size), MOLD_E_BROKEN);
    CHECK(zero.from == 0 && turned.from == 4 && behind.from == 2 && other.left == 1 && room.at[0] == 0);
    mold_free(&server);
    free(room.at);
}

/* Serves a plan of messages 1 to 5 with this many datagrams, and returns how many datagrams were written. */
static unsigned served(mold_server *server, uint16_t left, uint32_t last) {
    datagram room = of_length(64);
    mold_plan made = {1, 6, left, {0}};
    size_t size = 0;
    unsigned count = 0;
    uint32_t code;
    memcpy(made.session, SESSION, 10);
    while ((code = mold_server_datagram(server, &made, room.at, 64, &size)) == MOLD_DONE)
        count++;
    CODE(code, last);
    CHECK(last != MOLD_E_BROKEN || (made.from == 1 && made.left == left && size == 0 && room.at[0] == 0));
    free(room.at);
    return count;
}

/* A plan has no more datagrams than the burst of the server, also at the greatest burst. */
static void plans_longer_than_a_response(void) {
    mold_server server = server_of_five(2);
    CHECK(served(&server, 2, MOLD_E_ABSENT) == 2);
    CHECK(served(&server, 3, MOLD_E_BROKEN) == 0 && served(&server, UINT16_MAX, MOLD_E_BROKEN) == 0);
    mold_free(&server);
    server = server_of_five(64);
    CHECK(served(&server, 64, MOLD_E_ABSENT) == 3);
    CHECK(served(&server, 65, MOLD_E_BROKEN) == 0);
    mold_free(&server);
}

/* A publisher gets one server, which also responds after the session is closed. */
static void a_publisher_serves(void) {
    mold_publisher publisher = publisher_of(64);
    mold_server *server = mold_server_of(&publisher);
    datagram room = of_length(64);
    uint64_t number = 0;
    size_t size = 0;
    CODE(publish(&publisher, 1, 20, &number), MOLD_DONE);
    CODE(mold_publisher_datagram(&publisher, room.at, 64, &size), MOLD_DONE);
    CODE(answer(server, SESSION_HEX "00000000000000010001", room, &number), MOLD_E_BROKEN);
    CODE(mold_server_from_publisher(&publisher, 0), MOLD_E_BURST);
    CODE(mold_server_from_publisher(&publisher, 65), MOLD_E_BURST);
    CODE(answer(server, SESSION_HEX "00000000000000010001", room, &number), MOLD_E_BROKEN);
    CODE(mold_server_from_publisher(&publisher, 2), MOLD_DONE);
    CODE(mold_server_from_publisher(&publisher, 0), MOLD_E_BROKEN);
    CODE(mold_publisher_close(&publisher, &number), MOLD_DONE);
    CODE(answer(server, SESSION_HEX "00000000000000010001", room, &number), MOLD_DONE);
    HEX(room.at, (size_t)number, SESSION_HEX "00000000000000010001" TWENTY_1);
    CODE(answer(server, SESSION_HEX "00000000000000020001", room, &number), MOLD_E_AHEAD);
    CHECK(number == 2);
    free(room.at);
    mold_free(server);
    CHECK(!publisher.live);
}

/* The server of a publisher has no unsent message. A datagram has room for two of these messages. */
static void unsent_messages_are_not_served(void) {
    mold_publisher publisher = publisher_of(64);
    mold_server *server = mold_server_of(&publisher);
    datagram room = of_length(64);
    mold_plan made = {0, 0, 0, {0}}, of_three = {1, 4, 2, {0}};
    uint64_t number = 0;
    size_t size = 0;
    memcpy(of_three.session, SESSION, 10);
    CODE(mold_server_from_publisher(&publisher, 2), MOLD_DONE);
    for (int i = 1; i <= 3; i++)
        CODE(publish(&publisher, i, 20, &number), MOLD_DONE);
    CODE(answer(server, SESSION_HEX "00000000000000010001", room, &number), MOLD_E_AHEAD);
    CHECK(number == 1);
    CODE(mold_publisher_datagram(&publisher, room.at, 64, &size), MOLD_DONE);
    CODE(answer(server, SESSION_HEX "00000000000000030001", room, &number), MOLD_E_AHEAD);
    CHECK(number == 3);
    number = 0;
    CODE(plan(server, SESSION_HEX "00000000000000030001", &made, &number), MOLD_E_AHEAD);
    CHECK(number == 3 && made.from == 0);
    CODE(mold_server_datagram(server, &of_three, room.at, 64, &size), MOLD_E_BROKEN);
    CODE(answer(server, SESSION_HEX "00000000000000010009", room, &number), MOLD_DONE);
    HEX(room.at, (size_t)number, SESSION_HEX "00000000000000010002" TWENTY_1 TWENTY_2);
    CODE(plan(server, SESSION_HEX "00000000000000020009", &made, &number), MOLD_DONE);
    CHECK(made.from == 2 && made.to == 3 && made.left == 2);
    CODE(mold_publisher_datagram(&publisher, room.at, 64, &size), MOLD_DONE);
    CODE(mold_server_datagram(server, &made, room.at, 64, &size), MOLD_DONE);
    HEX(room.at, size, SESSION_HEX "00000000000000020001" TWENTY_2);
    CODE(mold_server_datagram(server, &made, room.at, 64, &size), MOLD_E_ABSENT);
    CODE(answer(server, SESSION_HEX "00000000000000030009", room, &number), MOLD_DONE);
    HEX(room.at, (size_t)number, SESSION_HEX "00000000000000030001" TWENTY_3);
    CODE(mold_server_datagram(server, &of_three, room.at, 64, &size), MOLD_DONE);
    CODE(mold_server_datagram(server, &of_three, room.at, 64, &size), MOLD_DONE);
    HEX(room.at, size, SESSION_HEX "00000000000000030001" TWENTY_3);
    free(room.at);
    mold_free(&publisher);
}

void test_sessions(void) {
    limits_of_publishers();
    a_session_is_published();
    buffers_that_are_too_small();
    a_session_is_closed();
    a_journal_is_saved();
    servers_that_cannot_be();
    files_that_are_no_journals();
    journals_of_both_versions();
    requests_are_answered();
    requests_are_refused();
    an_answer_of_a_burst();
    plans_that_cannot_be();
    plans_longer_than_a_response();
    a_publisher_serves();
    unsent_messages_are_not_served();
}
