/* Tests of the calls without a handle: packets, requests and the packer. */
#include "check.h"
#include "test.h"

static uint32_t decoded(datagram given, mold_packet *packet) {
    uint32_t code = mold_decode(given.at, given.length, packet);
    free(given.at);
    return code;
}

static void packets_are_decoded(void) {
    mold_packet packet = {0, 0, 9, 0, {0}};
    CODE(decoded(of_hex(SESSION_HEX "00000000000000010000"), &packet), MOLD_DONE);
    CHECK(packet.kind == MOLD_HEARTBEAT && packet.sequence == 1 && packet.count == 0);
    CHECK(memcmp(packet.session, SESSION, 10) == 0);
    CODE(decoded(of_hex(SESSION_HEX "0000000000000003ffff"), &packet), MOLD_DONE);
    CHECK(packet.kind == MOLD_END && packet.sequence == 3 && packet.count == 0 && packet.detail == 0);
    CODE(decoded(of_hex(SESSION_HEX "00000000000000010002000241420000"), &packet), MOLD_DONE);
    CHECK(packet.kind == MOLD_DATA && packet.sequence == 1 && packet.count == 2);
    CODE(decoded(of_hex(SESSION_HEX "ffffffffffffffff0002000141000142"), &packet), MOLD_DONE);
    CHECK(packet.kind == MOLD_DATA && packet.sequence == UINT64_MAX && packet.count == 2);
    CODE(decoded(of_hex("ff00000000000000000000000000000000000000"), &packet), MOLD_DONE);
    CHECK(packet.kind == MOLD_HEARTBEAT && packet.sequence == 0 && packet.session[0] == 0xff);
}

static void packets_are_refused(void) {
    mold_packet packet = {0, 0, 0, 0, {0}};
    CODE(mold_decode(NULL, 0, &packet), MOLD_E_SHORT);
    CHECK(packet.detail == 0);
    CODE(decoded(of_hex(SESSION_HEX "000000000000000100"), &packet), MOLD_E_SHORT);
    CHECK(packet.detail == 19);
    CODE(decoded(of_hex(SESSION_HEX "0000000000000001000200015800"), &packet), MOLD_E_BLOCK_CUT);
    CHECK(packet.detail == 1);
    CODE(decoded(of_hex(SESSION_HEX "00000000000000010001"), &packet), MOLD_E_BLOCK_CUT);
    CHECK(packet.detail == 0);
    CODE(decoded(of_hex(SESSION_HEX "000000000000000100010002aa"), &packet), MOLD_E_BLOCK_CUT);
    CHECK(packet.detail == 0);
    CODE(decoded(of_hex(SESSION_HEX "0000000000000003ffff00"), &packet), MOLD_E_TRAILING);
    CHECK(packet.detail == 20);
    CODE(decoded(of_hex(SESSION_HEX "00000000000000030000ffff"), &packet), MOLD_E_TRAILING);
    CHECK(packet.detail == 20);
    CODE(decoded(of_hex(SESSION_HEX "000000000000000100020002414200005a"), &packet), MOLD_E_TRAILING);
    CHECK(packet.detail == 26);
}

static bool is_place(mold_place place, size_t offset, size_t length) {
    return place.offset == offset && place.length == length;
}

static void places_are_read(void) {
    mold_packet packet = {0, 0, 0, 0, {0}};
    mold_place places[4] = {{7, 7}, {7, 7}, {7, 7}, {7, 7}};
    datagram given = of_hex(SESSION_HEX "0000000000000001000300024142000000015a");
    CODE(mold_read(given.at, given.length, &packet, NULL, 0), MOLD_DONE);
    CODE(mold_read(given.at, given.length, &packet, places, 2), MOLD_DONE);
    CHECK(packet.count == 3 && is_place(places[0], 22, 2) && is_place(places[1], 26, 0) && is_place(places[2], 7, 7));
    CODE(mold_read(given.at, given.length, &packet, places, 4), MOLD_DONE);
    CHECK(is_place(places[2], 28, 1) && is_place(places[3], 7, 7) && given.at[28] == 'Z');
    places[0].offset = 99;
    CODE(mold_read(given.at, given.length - 1, &packet, places, 4), MOLD_E_BLOCK_CUT);
    CHECK(packet.detail == 2 && places[0].offset == 99 && is_place(places[2], 28, 1));
    CODE(mold_read(given.at, 12, &packet, places, 4), MOLD_E_SHORT);
    CHECK(packet.detail == 12 && places[0].offset == 99);
    free(given.at);
}

/* A packet with the greatest number of messages, and one with messages of the greatest length. */
static void the_greatest_packets_are_read(void) {
    mold_packet packet = {0, 0, 0, 0, {0}};
    mold_place last[1] = {{0, 0}};
    datagram many = packet_of(1, 65534, 0);
    mold_place *places = calloc(65534, sizeof *places);
    CHECK(places != NULL);
    if (places == NULL)
        return;
    CODE(mold_read(many.at, many.length, &packet, places, 65534), MOLD_DONE);
    CHECK(packet.count == 65534 && is_place(places[65533], many.length, 0));
    datagram longest = packet_of(1, 2, 65535);
    CODE(mold_read(longest.at, longest.length, &packet, last, 1), MOLD_DONE);
    CHECK(packet.count == 2 && is_place(last[0], 22, 65535));
    free(places);
    free(many.at);
    free(longest.at);
}

static void requests_are_read_and_written(void) {
    mold_request request = {9, 9, {0}};
    uint8_t bytes[21];
    unhex(SESSION_HEX "00000000000000020003ff", bytes);
    CODE(mold_request_decode(bytes, 21, &request), MOLD_E_REQUEST_LENGTH);
    CODE(mold_request_decode(bytes, 19, &request), MOLD_E_REQUEST_LENGTH);
    CODE(mold_request_decode(NULL, 0, &request), MOLD_E_REQUEST_LENGTH);
    CHECK(request.sequence == 9 && request.count == 9);
    CODE(mold_request_decode(bytes, 20, &request), MOLD_DONE);
    CHECK(request.sequence == 2 && request.count == 3 && memcmp(request.session, SESSION, 10) == 0);
    request.sequence = 1;
    request.count = 65535;
    mold_request_encode(&request, bytes);
    HEX(bytes, 21, SESSION_HEX "0000000000000001ffffff");
}

static void a_packet_is_packed(void) {
    uint8_t bytes[20];
    memset(bytes, 1, sizeof bytes);
    datagram room = of_length(64);
    mold_packer packer = MOLD_PACKER(room.at, room.length);
    CHECK(!mold_packer_fits(&packer, 0));
    CODE(mold_packer_add(&packer, bytes, 1), MOLD_E_FULL);
    CODE(mold_packer_start(&packer, session, 7), MOLD_DONE);
    HEX(packer.buffer, packer.used, SESSION_HEX "00000000000000070000");
    CHECK(mold_packer_fits(&packer, 42) && !mold_packer_fits(&packer, 43) && !mold_packer_fits(&packer, SIZE_MAX / 2));
    CODE(mold_packer_add(&packer, bytes, 20), MOLD_DONE);
    CODE(mold_packer_add(&packer, NULL, 0), MOLD_DONE);
    CHECK(packer.used == 44 && packer.count == 2 && mold_packer_fits(&packer, 18) && !mold_packer_fits(&packer, 19));
    CODE(mold_packer_add(&packer, bytes, 19), MOLD_E_FULL);
    CODE(mold_packer_add(&packer, bytes, 18), MOLD_DONE);
    HEX(packer.buffer, packer.used,
        SESSION_HEX "00000000000000070003" "00140101010101010101010101010101010101010101"
        "0000" "0012010101010101010101010101010101010101");
    CHECK(packer.used == 64 && !mold_packer_fits(&packer, 0));
    CODE(mold_packer_add(&packer, NULL, 0), MOLD_E_FULL);
    CODE(mold_packer_end(&packer, session, 10), MOLD_DONE);
    HEX(packer.buffer, packer.used, SESSION_HEX "000000000000000affff");
    CHECK(!mold_packer_fits(&packer, 0));
    CODE(mold_packer_add(&packer, bytes, 1), MOLD_E_FULL);
    free(room.at);
}

static void limits_of_packers(void) {
    datagram room = of_length(65508);
    const size_t bad[] = {0, 63, 65508};
    for (size_t i = 0; i < 3; i++) {
        mold_packer packer = MOLD_PACKER(room.at, bad[i]);
        CODE(mold_packer_start(&packer, session, 1), MOLD_E_LIMIT);
        CODE(mold_packer_end(&packer, session, 1), MOLD_E_LIMIT);
        CHECK(packer.used == 0 && packer.count == 0 && !packer.open && room.at[0] == 0);
    }
    mold_packer none = MOLD_PACKER(NULL, 0);
    CODE(mold_packer_start(&none, session, 1), MOLD_E_LIMIT);
    CHECK(!mold_packer_fits(&none, 0));
    mold_packer packer = MOLD_PACKER(room.at, 65507);
    CODE(mold_packer_start(&packer, session, 1), MOLD_DONE);
    for (unsigned i = 0; i < 32743; i++)
        CODE(mold_packer_add(&packer, NULL, 0), MOLD_DONE);
    CODE(mold_packer_add(&packer, NULL, 0), MOLD_E_FULL);
    CHECK(packer.count == 32743 && packer.used == 65506);
    free(room.at);
}

/* A packer with invalid fields is refused, and nothing is written. */
static void packers_that_cannot_be(void) {
    uint8_t byte[1] = {1};
    datagram room = of_length(64);
    const mold_packer wrong[] = {
        {NULL, 0, SIZE_MAX, 1, true}, {NULL, 0, 3, 1, true}, {NULL, 0, 65, 1, true}, {NULL, 0, 30, 65535, true}};
    for (size_t i = 0; i < 4; i++) {
        mold_packer packer = wrong[i];
        packer.buffer = room.at;
        packer.limit = room.length;
        CODE(mold_packer_add(&packer, byte, 1), MOLD_E_BROKEN);
        CHECK(packer.used == wrong[i].used && packer.count == wrong[i].count && room.at[0] == 0 && room.at[31] == 0);
    }
    free(room.at);
}

void test_packets(void) {
    packets_are_decoded();
    packets_are_refused();
    places_are_read();
    the_greatest_packets_are_read();
    requests_are_read_and_written();
    a_packet_is_packed();
    limits_of_packers();
    packers_that_cannot_be();
}
