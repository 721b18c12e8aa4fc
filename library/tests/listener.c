/* Tests of the listener. */
#include "check.h"
#include "test.h"

static bool wants(mold_listener *listener, const char *digits) {
    uint8_t request[20], wanted[20];
    memset(request, 7, sizeof request);
    memset(wanted, 7, sizeof wanted);
    bool asks = mold_listener_wanted(listener, request);
    if (digits != NULL)
        unhex(digits, wanted);
    return asks == (digits != NULL) && memcmp(request, wanted, 20) == 0;
}

static void listeners_that_cannot_be(void) {
    mold_listener listener = MOLD_EMPTY;
    CODE(mold_listener_new(&listener, session, 0, 0), MOLD_E_NEXT_ZERO);
    CODE(mold_listener_new(&listener, session, 1, 0), MOLD_E_WINDOW);
    CODE(mold_listener_new(&listener, session, 1, 1048577), MOLD_E_WINDOW);
    CHECK(listener.at == NULL && !listener.live);
    CODE(mold_listener_new(&listener, session, UINT64_MAX, 1048576), MOLD_DONE);
    CHECK(mold_listener_next(&listener) == UINT64_MAX && mold_listener_known(&listener) == UINT64_MAX);
    CODE(mold_listener_new(&listener, session, 1, 4), MOLD_E_BROKEN);
    CHECK(mold_listener_next(&listener) == UINT64_MAX);
    mold_free(&listener);
}

/* Messages 3, 2 and 1 arrive in this order. The first two are stored. */
static void messages_come_backwards(void) {
    mold_listener listener = listener_at(1, 4);
    mold_taken taken = {0, 9, 9, 9, 0};
    CHECK(wants(&listener, NULL) && mold_listener_first(&listener) == 0);
    CODE(take(&listener, MOLD_LINE_A, packet_of(3, 1, 5), &taken), MOLD_DONE);
    CHECK(is_taken(&taken, 0, 1, 0) && mold_listener_known(&listener) == 4 && mold_listener_next(&listener) == 1);
    CHECK(wants(&listener, SESSION_HEX "00000000000000010002") && mold_listener_count(&listener) == 0);
    CODE(take(&listener, MOLD_LINE_B, packet_of(2, 1, 0), &taken), MOLD_DONE);
    CHECK(is_taken(&taken, 0, 1, 0) && wants(&listener, SESSION_HEX "00000000000000010001"));
    CODE(take(&listener, MOLD_ANSWER, packet_of(1, 1, 5), &taken), MOLD_DONE);
    CHECK(is_taken(&taken, 3, 0, 0) && mold_listener_count(&listener) == 3 && mold_listener_first(&listener) == 1);
    CHECK(is_message(&listener, 0, 1, 5) && is_message(&listener, 1, 2, 0) && is_message(&listener, 2, 3, 5));
    CHECK(mold_listener_next(&listener) == 4 && mold_listener_known(&listener) == 4 && wants(&listener, NULL));
    mold_free(&listener);
}

static void the_batch_is_lent(void) {
    mold_listener listener = listener_at(1, 4);
    mold_taken taken = {0, 0, 0, 0, 0};
    mold_bytes lent[4] = {MOLD_NO_BYTES, MOLD_NO_BYTES, MOLD_NO_BYTES, MOLD_NO_BYTES};
    uint8_t copy[4] = {7, 7, 7, 7};
    size_t size = 99;
    CODE(take(&listener, MOLD_LINE_A, packet_of(1, 2, 3), &taken), MOLD_DONE);
    CODE(take(&listener, MOLD_LINE_A, packet_of(3, 1, 2), &taken), MOLD_DONE);
    CHECK(mold_listener_messages(&listener, NULL, 0) == 0);
    CHECK(mold_listener_messages(&listener, lent, 2) == 2 && lent[0].length == 3 && lent[1].at[2] == 2);
    CHECK(lent[2].at == NULL && lent[2].length == 0);
    CHECK(mold_listener_messages(&listener, lent, 4) == 3 && lent[2].length == 2 && lent[2].at[1] == 3);
    CHECK(lent[3].at == NULL && lent[3].length == 0);
    CODE(mold_listener_message(&listener, 3, &lent[3]), MOLD_E_ABSENT);
    CODE(mold_listener_message(&listener, SIZE_MAX, &lent[3]), MOLD_E_ABSENT);
    CHECK(lent[3].at == NULL);
    CODE(mold_listener_copy(&listener, 3, copy, 4, &size), MOLD_E_ABSENT);
    CHECK(size == 99 && copy[0] == 7);
    CODE(mold_listener_copy(&listener, 1, copy, 2, &size), MOLD_E_ROOM);
    CHECK(size == 3 && copy[0] == 7);
    CODE(mold_listener_copy(&listener, 1, NULL, 0, &size), MOLD_E_ROOM);
    CODE(mold_listener_copy(&listener, 1, copy, 4, &size), MOLD_DONE);
    CHECK(size == 3 && copy[0] == 2 && copy[2] == 2 && copy[3] == 7);
    CODE(mold_listener_clear(&listener), MOLD_DONE);
    CHECK(mold_listener_count(&listener) == 0 && mold_listener_first(&listener) == 0);
    CHECK(mold_listener_messages(&listener, lent, 4) == 0);
    CODE(mold_listener_message(&listener, 0, &lent[3]), MOLD_E_ABSENT);
    CODE(take(&listener, MOLD_LINE_A, packet_of(4, 1, 1), &taken), MOLD_DONE);
    CHECK(mold_listener_first(&listener) == 4 && is_message(&listener, 0, 4, 1));
    mold_free(&listener);
}

static bool is_report(mold_listener *listener, uint32_t line, uint64_t datagrams, uint64_t refused, uint64_t front) {
    mold_report report = {9, 9, 9};
    return mold_listener_report(listener, line, &report) == MOLD_DONE && report.datagrams == datagrams &&
           report.refused == refused && report.front == front;
}

static void two_lines_are_reported(void) {
    mold_listener listener = listener_at(1, 4);
    mold_taken taken = {0, 0, 0, 0, 0};
    mold_report report = {9, 9, 9};
    CODE(take(&listener, MOLD_LINE_A, packet_of(1, 3, 1), &taken), MOLD_DONE);
    CHECK(is_taken(&taken, 3, 0, 0));
    CHECK(is_report(&listener, MOLD_LINE_A, 1, 0, 4) && is_report(&listener, MOLD_LINE_B, 0, 0, 1));
    CODE(take(&listener, MOLD_LINE_B, packet_of(1, 3, 1), &taken), MOLD_DONE);
    CHECK(is_taken(&taken, 0, 0, 0) && mold_listener_count(&listener) == 3);
    CHECK(is_report(&listener, MOLD_LINE_B, 1, 0, 4));
    CODE(take(&listener, MOLD_LINE_B, of_length(3), &taken), MOLD_E_SHORT);
    CODE(take(&listener, MOLD_ANSWER, of_length(3), &taken), MOLD_E_SHORT);
    CODE(take(&listener, MOLD_ANSWER, packet_of(4, 1, 1), &taken), MOLD_DONE);
    CHECK(is_report(&listener, MOLD_LINE_A, 1, 0, 4) && is_report(&listener, MOLD_LINE_B, 1, 1, 4));
    CODE(mold_listener_report(&listener, MOLD_ANSWER, &report), MOLD_E_LINE);
    CODE(mold_listener_report(&listener, UINT32_MAX, &report), MOLD_E_LINE);
    CHECK(report.datagrams == 9 && report.refused == 9 && report.front == 9);
    CODE(take(&listener, 3, packet_of(5, 1, 1), &taken), MOLD_E_LINE);
    CHECK(mold_listener_next(&listener) == 5 && mold_listener_known(&listener) == 5);
    CHECK(is_report(&listener, MOLD_LINE_A, 1, 0, 4) && is_report(&listener, MOLD_LINE_B, 1, 1, 4));
    mold_free(&listener);
}

/* With a window of 4, messages 2 to 4 of messages 2 to 9 are stored. */
static void messages_behind_the_window(void) {
    mold_listener listener = listener_at(1, 4);
    mold_taken taken = {0, 0, 0, 0, 0};
    CODE(take(&listener, MOLD_LINE_A, packet_of(2, 8, 2), &taken), MOLD_DONE);
    CHECK(is_taken(&taken, 0, 3, 5) && mold_listener_known(&listener) == 10);
    CHECK(wants(&listener, SESSION_HEX "00000000000000010001"));
    CODE(take(&listener, MOLD_LINE_A, packet_of(1, 1, 2), &taken), MOLD_DONE);
    CHECK(is_taken(&taken, 4, 0, 0) && mold_listener_next(&listener) == 5);
    CHECK(wants(&listener, SESSION_HEX "00000000000000050005"));
    mold_free(&listener);
    listener = listener_at(1, 1);
    CODE(take(&listener, MOLD_LINE_A, packet_of(1, 9, 2), &taken), MOLD_DONE);
    CHECK(is_taken(&taken, 9, 0, 0) && mold_listener_next(&listener) == 10);
    mold_free(&listener);
}

/* The greatest window is filled backwards. Then a gap has more messages than one request can ask for. */
static void the_greatest_window(void) {
    mold_listener listener = listener_at(1, 65536);
    mold_taken taken = {0, 0, 0, 0, 0};
    for (uint64_t number = 65536; number > 1; number--) {
        CODE(take(&listener, MOLD_LINE_A, packet_of(number, 1, 3), &taken), MOLD_DONE);
        CHECK(is_taken(&taken, 0, 1, 0));
    }
    CODE(take(&listener, MOLD_LINE_A, packet_of(65537, 1, 3), &taken), MOLD_DONE);
    CHECK(is_taken(&taken, 0, 0, 1));
    CODE(take(&listener, MOLD_LINE_A, packet_of(1, 1, 3), &taken), MOLD_DONE);
    CHECK(is_taken(&taken, 65536, 0, 0) && mold_listener_count(&listener) == 65536);
    CHECK(is_message(&listener, 65535, 0, 3) && is_message(&listener, 258, 3, 3));
    CODE(take(&listener, MOLD_LINE_A, packet_of(1000000, 0, 0), &taken), MOLD_DONE);
    CHECK(wants(&listener, SESSION_HEX "0000000000010001fffe"));
    mold_free(&listener);
}

static void the_top_of_numbers(void) {
    mold_listener listener = listener_at(1, 4);
    mold_taken taken = {0, 0, 0, 0, 0};
    CODE(take(&listener, MOLD_LINE_A, packet_of(UINT64_MAX, 1, 1), &taken), MOLD_E_PAST_LAST);
    CHECK(mold_listener_known(&listener) == 1);
    CODE(take(&listener, MOLD_LINE_A, packet_of(UINT64_MAX, 0, 0), &taken), MOLD_DONE);
    CHECK(is_taken(&taken, 0, 0, 0) && mold_listener_known(&listener) == UINT64_MAX);
    CHECK(wants(&listener, SESSION_HEX "0000000000000001fffe"));
    mold_free(&listener);
    listener = listener_at(UINT64_MAX - 1, 4);
    CODE(take(&listener, MOLD_LINE_A, packet_of(UINT64_MAX - 1, 1, 1), &taken), MOLD_DONE);
    CODE(take(&listener, MOLD_LINE_A, end_of(UINT64_MAX), &taken), MOLD_DONE);
    CHECK(mold_listener_next(&listener) == UINT64_MAX && mold_listener_finished(&listener));
    mold_free(&listener);
}

static void datagrams_are_refused(void) {
    mold_listener listener = listener_at(1, 4);
    mold_taken taken = {0, 0, 0, 0, 0};
    datagram other = packet_of(1, 1, 1);
    CODE(mold_listener_take(&listener, MOLD_LINE_A, NULL, 0, &taken), MOLD_E_SHORT);
    CHECK(taken.detail == 0);
    CODE(take(&listener, MOLD_LINE_A, of_length(19), &taken), MOLD_E_SHORT);
    CHECK(taken.detail == 19);
    CODE(mold_listener_take(&listener, MOLD_LINE_A, other.at, 22, &taken), MOLD_E_BLOCK_CUT);
    CHECK(taken.detail == 0);
    CODE(take(&listener, MOLD_LINE_A, of_hex(SESSION_HEX "0000000000000003ffff00"), &taken), MOLD_E_TRAILING);
    CHECK(taken.detail == 20);
    other.at[9] = '2';
    CODE(take(&listener, MOLD_LINE_A, other, &taken), MOLD_E_WRONG_SESSION);
    CODE(take(&listener, MOLD_LINE_A, packet_of(0, 1, 1), &taken), MOLD_E_SEQUENCE_ZERO);
    CODE(take(&listener, MOLD_LINE_A, packet_of(0, 0, 0), &taken), MOLD_E_SEQUENCE_ZERO);
    CHECK(is_report(&listener, MOLD_LINE_A, 0, 7, 1) && mold_listener_known(&listener) == 1);
    mold_free(&listener);
}

static void ends_are_taken_and_refused(void) {
    mold_listener listener = listener_at(1, 4);
    mold_taken taken = {0, 0, 0, 0, 0};
    CODE(take(&listener, MOLD_LINE_A, packet_of(1, 2, 1), &taken), MOLD_DONE);
    CODE(take(&listener, MOLD_LINE_A, end_of(2), &taken), MOLD_E_END_BELOW);
    CHECK(taken.detail == 3 && !mold_listener_finished(&listener));
    CODE(take(&listener, MOLD_LINE_A, end_of(4), &taken), MOLD_DONE);
    CHECK(mold_listener_known(&listener) == 4 && !mold_listener_finished(&listener));
    CHECK(wants(&listener, SESSION_HEX "00000000000000030001"));
    CODE(take(&listener, MOLD_LINE_A, end_of(5), &taken), MOLD_E_END_CONFLICT);
    CHECK(taken.detail == 4);
    CODE(take(&listener, MOLD_LINE_A, end_of(2), &taken), MOLD_E_END_CONFLICT);
    CODE(take(&listener, MOLD_LINE_A, packet_of(3, 2, 1), &taken), MOLD_E_PAST_END);
    CHECK(taken.detail == 4);
    CODE(take(&listener, MOLD_LINE_A, packet_of(5, 0, 0), &taken), MOLD_E_PAST_END);
    CODE(take(&listener, MOLD_LINE_A, packet_of(4, 0, 0), &taken), MOLD_DONE);
    CODE(take(&listener, MOLD_LINE_A, packet_of(3, 1, 1), &taken), MOLD_DONE);
    CHECK(is_taken(&taken, 1, 0, 0) && mold_listener_finished(&listener) && wants(&listener, NULL));
    CODE(take(&listener, MOLD_LINE_A, end_of(4), &taken), MOLD_DONE);
    CHECK(is_taken(&taken, 0, 0, 0) && mold_listener_finished(&listener));
    mold_free(&listener);
}

static void another_message_is_refused(void) {
    mold_listener listener = listener_at(1, 8);
    mold_taken taken = {0, 0, 0, 0, 0};
    datagram other = packet_of(2, 3, 1);
    CODE(take(&listener, MOLD_LINE_A, packet_of(3, 2, 1), &taken), MOLD_DONE);
    other.at[25] = 'X';
    other.at[28] = 'X';
    CODE(mold_listener_take(&listener, MOLD_LINE_B, other.at, other.length, &taken), MOLD_E_CONFLICT);
    CHECK(taken.detail == 3 && mold_listener_next(&listener) == 1 && mold_listener_count(&listener) == 0);
    other.at[25] = 3;
    CODE(take(&listener, MOLD_LINE_B, other, &taken), MOLD_E_CONFLICT);
    CHECK(taken.detail == 4 && is_report(&listener, MOLD_LINE_B, 0, 2, 1));
    CODE(take(&listener, MOLD_LINE_B, packet_of(3, 1, 2), &taken), MOLD_E_CONFLICT);
    CODE(take(&listener, MOLD_LINE_B, packet_of(1, 4, 1), &taken), MOLD_DONE);
    CHECK(is_taken(&taken, 4, 0, 0) && is_message(&listener, 2, 3, 1));
    CODE(take(&listener, MOLD_LINE_B, packet_of(3, 1, 2), &taken), MOLD_DONE);
    CHECK(is_taken(&taken, 0, 0, 0));
    mold_free(&listener);
}

/* Messages 2 and 3 are stored, then 5. Messages 1 to 3 and then 1 to 6 arrive: what is new of them is delivered from the
 * datagram, and what is stored after them from the batch. */
static void messages_are_not_copied(void) {
    mold_listener listener = listener_at(1, 8);
    mold_taken taken = {0, 9, 9, 9, 0};
    mold_delivery delivery = {9, 9, 9, 9, 9, 9};
    CODE(take(&listener, MOLD_LINE_A, packet_of(1, 1, 5), &taken), MOLD_DONE);
    CHECK(mold_listener_count(&listener) == 1);
    CODE(mold_listener_clear(&listener), MOLD_DONE);
    CODE(hear(&listener, MOLD_LINE_A, packet_of(2, 0, 0), &delivery), MOLD_DONE);
    CHECK(is_delivery(&delivery, 20, 0, 0, 0, 0) && mold_listener_count(&listener) == 0);
    CODE(hear(&listener, MOLD_LINE_A, packet_of(2, 2, 3), &delivery), MOLD_DONE);
    CHECK(is_delivery(&delivery, 20, 2, 0, 0, 0) && mold_listener_next(&listener) == 4);
    CODE(hear(&listener, MOLD_LINE_B, packet_of(2, 2, 3), &delivery), MOLD_DONE);
    CHECK(is_delivery(&delivery, 30, 0, 0, 0, 0) && mold_listener_next(&listener) == 4);
    CODE(hear(&listener, MOLD_LINE_B, packet_of(6, 9, 1), &delivery), MOLD_DONE);
    CHECK(is_delivery(&delivery, 47, 0, 0, 6, 3) && mold_listener_known(&listener) == 15);
    CODE(hear(&listener, MOLD_ANSWER, packet_of(2, 4, 3), &delivery), MOLD_DONE);
    CHECK(is_delivery(&delivery, 30, 2, 6, 0, 0) && mold_listener_next(&listener) == 12);
    CHECK(mold_listener_count(&listener) == 6 && mold_listener_first(&listener) == 6);
    CHECK(is_message(&listener, 0, 6, 1) && is_message(&listener, 5, 11, 1));
    CODE(hear(&listener, MOLD_LINE_A, packet_of(10, 4, 0), &delivery), MOLD_DONE);
    CHECK(is_delivery(&delivery, 24, 2, 0, 0, 0) && mold_listener_count(&listener) == 0);
    CODE(take(&listener, MOLD_LINE_A, packet_of(14, 1, 2), &taken), MOLD_DONE);
    CHECK(is_taken(&taken, 1, 0, 0) && mold_listener_first(&listener) == 14);
    CHECK(is_report(&listener, MOLD_LINE_A, 5, 0, 15) && is_report(&listener, MOLD_LINE_B, 2, 0, 15));
    mold_free(&listener);
}

/* Whether all fields are 0. */
static bool is_undelivered(const mold_delivery *delivery) {
    return is_delivery(delivery, 0, 0, 0, 0, 0);
}

/* Nothing is received as long as the batch has messages that a call other than mold_listener_hear delivered. Those that
 * mold_listener_hear left in the batch are emptied by the next call. */
static void the_batch_is_cleared_before(void) {
    mold_listener listener = listener_at(1, 16);
    mold_taken taken = {0, 0, 0, 0, 0};
    mold_delivery delivery = {9, 9, 9, 9, 9, 9};
    CODE(take(&listener, MOLD_LINE_A, packet_of(1, 1, 5), &taken), MOLD_DONE);
    CODE(hear(&listener, MOLD_LINE_A, packet_of(2, 1, 5), &delivery), MOLD_E_BATCH);
    CHECK(is_undelivered(&delivery) && mold_listener_count(&listener) == 1 && is_message(&listener, 0, 1, 5));
    delivery.detail = 9;
    CODE(hear(&listener, MOLD_LINE_B, of_length(3), &delivery), MOLD_E_BATCH);
    CHECK(is_undelivered(&delivery) && mold_listener_count(&listener) == 1);
    CODE(hear(&listener, MOLD_ANSWER, packet_of(3, 1, 5), &delivery), MOLD_E_BATCH);
    CODE(hear(&listener, 3, packet_of(2, 1, 5), &delivery), MOLD_E_LINE);
    CHECK(mold_listener_next(&listener) == 2 && mold_listener_known(&listener) == 2);
    CHECK(is_report(&listener, MOLD_LINE_A, 1, 0, 2) && is_report(&listener, MOLD_LINE_B, 0, 0, 1));
    /* Messages that are stored, or known, are not in the batch. */
    CODE(mold_listener_clear(&listener), MOLD_DONE);
    CODE(take(&listener, MOLD_LINE_A, packet_of(3, 2, 5), &taken), MOLD_DONE);
    CODE(take(&listener, MOLD_LINE_A, packet_of(1, 1, 5), &taken), MOLD_DONE);
    CODE(hear(&listener, MOLD_LINE_A, packet_of(2, 1, 5), &delivery), MOLD_DONE);
    CHECK(is_delivery(&delivery, 20, 1, 2, 0, 0) && mold_listener_count(&listener) == 2);
    /* A datagram that delivers nothing leaves the batch as it is. One that delivers a message adds it. */
    CODE(take(&listener, MOLD_LINE_B, packet_of(2, 1, 5), &taken), MOLD_DONE);
    CODE(take(&listener, MOLD_LINE_B, of_length(3), &taken), MOLD_E_SHORT);
    CHECK(mold_listener_count(&listener) == 2);
    CODE(hear(&listener, MOLD_LINE_A, packet_of(6, 1, 5), &delivery), MOLD_DONE);
    CHECK(is_delivery(&delivery, 27, 0, 0, 1, 0) && mold_listener_count(&listener) == 0);
    CODE(hear(&listener, MOLD_LINE_A, packet_of(5, 1, 5), &delivery), MOLD_DONE);
    CHECK(is_delivery(&delivery, 20, 1, 1, 0, 0) && mold_listener_count(&listener) == 1);
    CODE(take(&listener, MOLD_LINE_A, packet_of(7, 1, 5), &taken), MOLD_DONE);
    CODE(hear(&listener, MOLD_LINE_A, packet_of(8, 1, 5), &delivery), MOLD_E_BATCH);
    CHECK(mold_listener_count(&listener) == 2 && is_message(&listener, 0, 6, 5) && is_message(&listener, 1, 7, 5));
    CODE(mold_listener_clear(&listener), MOLD_DONE);
    /* Messages that were given up leave stored ones in the batch, or none. */
    CODE(hear(&listener, MOLD_LINE_A, packet_of(10, 1, 5), &delivery), MOLD_DONE);
    CODE(mold_listener_skip(&listener, 9), MOLD_DONE);
    CODE(hear(&listener, MOLD_LINE_A, packet_of(12, 1, 5), &delivery), MOLD_DONE);
    CODE(mold_listener_skip(&listener, 10), MOLD_DONE);
    CODE(hear(&listener, MOLD_LINE_A, packet_of(11, 1, 5), &delivery), MOLD_E_BATCH);
    CHECK(is_undelivered(&delivery) && mold_listener_next(&listener) == 11 && is_message(&listener, 0, 10, 5));
    CODE(mold_listener_clear(&listener), MOLD_DONE);
    CODE(hear(&listener, MOLD_LINE_A, packet_of(11, 1, 5), &delivery), MOLD_DONE);
    CHECK(is_delivery(&delivery, 20, 1, 1, 0, 0) && mold_listener_next(&listener) == 13);
    mold_free(&listener);
}

/* Each second datagram arrives first, and the batch is never cleared. */
static void gaps_without_a_clear(void) {
    mold_listener listener = listener_at(1, 16);
    mold_taken taken = {0, 0, 0, 0, 0};
    mold_delivery delivery = {9, 9, 9, 9, 9, 9};
    for (uint64_t number = 1; number < 1000; number += 2) {
        CODE(hear(&listener, MOLD_LINE_A, packet_of(number + 1, 1, 3), &delivery), MOLD_DONE);
        CHECK(is_delivery(&delivery, 25, 0, 0, 1, 0) && mold_listener_count(&listener) == 0);
        CODE(hear(&listener, MOLD_LINE_B, packet_of(number, 1, 3), &delivery), MOLD_DONE);
        CHECK(is_delivery(&delivery, 20, 1, 1, 0, 0) && mold_listener_count(&listener) == 1);
    }
    CODE(take(&listener, MOLD_LINE_A, packet_of(1001, 1, 3), &taken), MOLD_DONE);
    CODE(hear(&listener, MOLD_LINE_A, packet_of(1002, 1, 3), &delivery), MOLD_E_BATCH);
    CHECK(mold_listener_count(&listener) == 2 && mold_listener_next(&listener) == 1002);
    mold_free(&listener);
}

/* The datagrams that are refused when they are not copied. A refusal by the receiving rule empties the batch. */
static void datagrams_are_not_heard(void) {
    mold_listener listener = listener_at(1, 4);
    mold_delivery delivery = {9, 9, 9, 9, 9, 9};
    datagram other = packet_of(2, 1, 1);
    CODE(hear(&listener, 3, packet_of(2, 1, 1), &delivery), MOLD_E_LINE);
    CODE(hear(&listener, UINT32_MAX, of_length(3), &delivery), MOLD_E_LINE);
    CHECK(delivery.detail == 9 && delivery.offset == 9 && delivery.own == 9 && mold_listener_known(&listener) == 1);
    CODE(hear(&listener, MOLD_LINE_A, packet_of(2, 1, 1), &delivery), MOLD_DONE);
    CODE(hear(&listener, MOLD_ANSWER, packet_of(1, 1, 1), &delivery), MOLD_DONE);
    CHECK(is_delivery(&delivery, 20, 1, 1, 0, 0) && mold_listener_count(&listener) == 1);
    CODE(hear(&listener, 3, packet_of(3, 1, 1), &delivery), MOLD_E_LINE);
    CHECK(mold_listener_count(&listener) == 1);
    CODE(mold_listener_hear(&listener, MOLD_LINE_A, NULL, 0, &delivery), MOLD_E_SHORT);
    CHECK(is_undelivered(&delivery) && mold_listener_count(&listener) == 0);
    CODE(hear(&listener, MOLD_ANSWER, of_length(19), &delivery), MOLD_E_SHORT);
    CHECK(delivery.detail == 19 && delivery.offset == 0);
    CODE(mold_listener_hear(&listener, MOLD_LINE_A, other.at, 22, &delivery), MOLD_E_BLOCK_CUT);
    CODE(hear(&listener, MOLD_LINE_A, of_hex(SESSION_HEX "0000000000000003ffff00"), &delivery), MOLD_E_TRAILING);
    CHECK(delivery.detail == 20);
    other.at[9] = '2';
    CODE(hear(&listener, MOLD_LINE_A, other, &delivery), MOLD_E_WRONG_SESSION);
    CODE(hear(&listener, MOLD_LINE_A, packet_of(0, 1, 1), &delivery), MOLD_E_SEQUENCE_ZERO);
    CODE(hear(&listener, MOLD_LINE_A, packet_of(UINT64_MAX, 1, 1), &delivery), MOLD_E_PAST_LAST);
    CODE(hear(&listener, MOLD_LINE_A, packet_of(4, 1, 1), &delivery), MOLD_DONE);
    CODE(hear(&listener, MOLD_LINE_B, packet_of(4, 1, 2), &delivery), MOLD_E_CONFLICT);
    CHECK(delivery.detail == 4 && delivery.own == 0 && mold_listener_next(&listener) == 3);
    CODE(hear(&listener, MOLD_LINE_B, end_of(4), &delivery), MOLD_E_END_BELOW);
    CHECK(delivery.detail == 5);
    CODE(hear(&listener, MOLD_LINE_B, end_of(5), &delivery), MOLD_DONE);
    CODE(hear(&listener, MOLD_LINE_B, end_of(6), &delivery), MOLD_E_END_CONFLICT);
    CODE(hear(&listener, MOLD_LINE_B, packet_of(3, 3, 1), &delivery), MOLD_E_PAST_END);
    CODE(hear(&listener, MOLD_ANSWER, packet_of(3, 1, 1), &delivery), MOLD_DONE);
    CHECK(is_delivery(&delivery, 20, 1, 1, 0, 0) && mold_listener_finished(&listener));
    CHECK(is_report(&listener, MOLD_LINE_A, 2, 6, 5) && is_report(&listener, MOLD_LINE_B, 1, 4, 5));
    mold_free(&listener);
}

static bool is_range(mold_range range, uint64_t first, uint64_t last) {
    return range.first == first && range.last == last;
}

/* Messages 3, 4 and 6 are stored, and 9 is known. */
static void gaps_are_written(void) {
    mold_listener listener = listener_at(1, 16);
    mold_taken taken = {0, 0, 0, 0, 0};
    mold_range ranges[4] = {{9, 9}, {9, 9}, {9, 9}, {9, 9}};
    CHECK(mold_listener_ranges(&listener, 0, ranges, 4) == 0 && is_range(ranges[0], 9, 9));
    CODE(take(&listener, MOLD_LINE_A, packet_of(3, 2, 1), &taken), MOLD_DONE);
    CODE(take(&listener, MOLD_LINE_B, packet_of(6, 1, 1), &taken), MOLD_DONE);
    CODE(take(&listener, MOLD_LINE_B, packet_of(9, 0, 0), &taken), MOLD_DONE);
    CHECK(mold_listener_ranges(&listener, 0, NULL, 0) == 0);
    CHECK(mold_listener_ranges(&listener, 0, ranges, 2) == 2);
    CHECK(is_range(ranges[0], 1, 2) && is_range(ranges[1], 5, 5) && is_range(ranges[2], 9, 9));
    CHECK(mold_listener_ranges(&listener, 6, ranges, 2) == 1 && is_range(ranges[0], 7, 8) && is_range(ranges[1], 5, 5));
    CHECK(mold_listener_ranges(&listener, 2, ranges, 4) == 3);
    CHECK(is_range(ranges[0], 2, 2) && is_range(ranges[1], 5, 5) && is_range(ranges[2], 7, 8));
    CHECK(is_range(ranges[3], 9, 9));
    CHECK(mold_listener_ranges(&listener, 8, ranges, 4) == 1 && is_range(ranges[0], 8, 8));
    CHECK(mold_listener_ranges(&listener, 9, ranges, 4) == 0);
    CHECK(mold_listener_ranges(&listener, UINT64_MAX, ranges, 4) == 0);
    mold_free(&listener);
}

/* Message 1 is given up, then 2, then 5, and last the known messages 7 and 8. */
static void gaps_are_given_up(void) {
    mold_listener listener = listener_at(1, 16);
    mold_taken taken = {0, 0, 0, 0, 0};
    mold_range range = {9, 9};
    CODE(mold_listener_skip(&listener, 2), MOLD_E_NOT_MISSING);
    CODE(take(&listener, MOLD_LINE_A, packet_of(3, 2, 1), &taken), MOLD_DONE);
    CODE(take(&listener, MOLD_LINE_A, packet_of(6, 1, 1), &taken), MOLD_DONE);
    CODE(take(&listener, MOLD_LINE_B, packet_of(9, 0, 0), &taken), MOLD_DONE);
    CODE(mold_listener_skip(&listener, 0), MOLD_E_NOT_MISSING);
    CODE(mold_listener_skip(&listener, 1), MOLD_E_NOT_MISSING);
    CODE(mold_listener_skip(&listener, 4), MOLD_E_NOT_MISSING);
    CODE(mold_listener_skip(&listener, UINT64_MAX), MOLD_E_NOT_MISSING);
    CHECK(mold_listener_next(&listener) == 1 && mold_listener_count(&listener) == 0);
    CODE(mold_listener_skip(&listener, 2), MOLD_DONE);
    CHECK(mold_listener_next(&listener) == 2 && mold_listener_count(&listener) == 0);
    CODE(take(&listener, MOLD_LINE_A, packet_of(1, 1, 1), &taken), MOLD_DONE);
    CHECK(is_taken(&taken, 0, 0, 0));
    CODE(mold_listener_skip(&listener, 3), MOLD_DONE);
    CHECK(mold_listener_next(&listener) == 5 && mold_listener_count(&listener) == 2);
    CHECK(mold_listener_first(&listener) == 3);
    CHECK(is_message(&listener, 0, 3, 1) && is_message(&listener, 1, 4, 1));
    CODE(mold_listener_skip(&listener, 6), MOLD_E_BATCH);
    CODE(mold_listener_skip(&listener, 99), MOLD_E_BATCH);
    CHECK(mold_listener_next(&listener) == 5 && mold_listener_count(&listener) == 2);
    CODE(mold_listener_clear(&listener), MOLD_DONE);
    CODE(mold_listener_skip(&listener, 6), MOLD_DONE);
    CHECK(mold_listener_next(&listener) == 7 && mold_listener_first(&listener) == 6 && is_message(&listener, 0, 6, 1));
    CHECK(mold_listener_ranges(&listener, 0, &range, 1) == 1 && is_range(range, 7, 8));
    CODE(mold_listener_clear(&listener), MOLD_DONE);
    CODE(mold_listener_skip(&listener, 10), MOLD_E_NOT_MISSING);
    CODE(mold_listener_skip(&listener, 9), MOLD_DONE);
    CHECK(mold_listener_next(&listener) == 9 && mold_listener_known(&listener) == 9 && wants(&listener, NULL));
    CHECK(is_report(&listener, MOLD_LINE_A, 3, 0, 7) && is_report(&listener, MOLD_LINE_B, 1, 0, 9));
    mold_free(&listener);
}

/* A store of 65,507 bytes has room for 46 messages of 1,400 bytes. The next datagram is dropped, with both messages. */
static void a_full_store_drops_datagrams(void) {
    mold_listener listener = MOLD_EMPTY;
    mold_taken taken = {0, 0, 0, 0, 0};
    CODE(mold_listener_bounded(&listener, session, 0, 0, 1), MOLD_E_NEXT_ZERO);
    CODE(mold_listener_bounded(&listener, session, 1, 0, 1), MOLD_E_WINDOW);
    CODE(mold_listener_bounded(&listener, session, 1, 1024, 1), MOLD_E_OPTIONS);
    CODE(mold_listener_bounded(&listener, session, 1, 1024, 65506), MOLD_E_OPTIONS);
    CHECK(listener.at == NULL && !listener.live);
    CODE(mold_listener_bounded(&listener, session, 1, 1024, 65507), MOLD_DONE);
    CODE(mold_listener_bounded(&listener, session, 1, 1024, 0), MOLD_E_BROKEN);
    CODE(take(&listener, MOLD_LINE_A, packet_of(2, 46, 1400), &taken), MOLD_DONE);
    CHECK(is_taken(&taken, 0, 46, 0));
    CODE(take(&listener, MOLD_LINE_A, packet_of(48, 2, 1400), &taken), MOLD_DONE);
    CHECK(is_taken(&taken, 0, 0, 2) && mold_listener_known(&listener) == 50);
    CODE(take(&listener, MOLD_LINE_B, packet_of(46, 3, 1400), &taken), MOLD_DONE);
    CHECK(is_taken(&taken, 0, 0, 1));
    CODE(take(&listener, MOLD_ANSWER, packet_of(1, 1, 1400), &taken), MOLD_DONE);
    CHECK(is_taken(&taken, 47, 0, 0) && wants(&listener, SESSION_HEX "00000000000000300002"));
    CODE(take(&listener, MOLD_ANSWER, packet_of(48, 2, 1400), &taken), MOLD_DONE);
    CHECK(is_taken(&taken, 2, 0, 0) && mold_listener_next(&listener) == 50);
    mold_free(&listener);
    CODE(mold_listener_bounded(&listener, session, 1, 4, 0), MOLD_DONE);
    CODE(take(&listener, MOLD_LINE_A, packet_of(2, 3, 65000), &taken), MOLD_DONE);
    CHECK(is_taken(&taken, 0, 3, 0));
    mold_free(&listener);
}

void test_listener(void) {
    listeners_that_cannot_be();
    a_full_store_drops_datagrams();
    messages_come_backwards();
    the_batch_is_lent();
    two_lines_are_reported();
    messages_behind_the_window();
    the_greatest_window();
    the_top_of_numbers();
    datagrams_are_refused();
    ends_are_taken_and_refused();
    another_message_is_refused();
    messages_are_not_copied();
    the_batch_is_cleared_before();
    gaps_without_a_clear();
    datagrams_are_not_heard();
    gaps_are_written();
    gaps_are_given_up();
}
