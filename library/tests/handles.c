/* Tests of the checker, of the texts of codes, and of handles that are empty, freed or of another kind. */
#include "check.h"
#include "test.h"

static uint32_t give(mold_checker *checker, datagram given, uint64_t *number) {
    uint32_t code = mold_checker_take(checker, given.at, given.length, number);
    free(given.at);
    return code;
}

static mold_checker checker_of_none(void) {
    mold_checker made = MOLD_EMPTY;
    CODE(mold_checker_new(&made), MOLD_DONE);
    return made;
}

static bool is_verdict(mold_checker *checker, uint32_t whole, uint64_t messages, uint64_t end, uint64_t ranges) {
    mold_verdict verdict = {9, 9, 9, 9, 9};
    return mold_checker_verdict(checker, &verdict) == MOLD_DONE && verdict.whole == whole &&
           (whole == 1 ? verdict.messages == messages : verdict.end == end && verdict.ranges == ranges);
}

static void sessions_are_checked(void) {
    mold_checker checker = checker_of_none();
    mold_range ranges[3] = {{9, 9}, {9, 9}, {9, 9}};
    uint64_t number = 99;
    size_t count = 99;
    CHECK(is_verdict(&checker, 0, 0, 0, 0));
    CODE(give(&checker, packet_of(3, 1, 1), &number), MOLD_DONE);
    CODE(give(&checker, packet_of(6, 2, 1), &number), MOLD_DONE);
    CHECK(is_verdict(&checker, 0, 0, 0, 2));
    CODE(give(&checker, end_of(9), &number), MOLD_DONE);
    CHECK(is_verdict(&checker, 0, 0, 9, 3));
    CODE(mold_checker_ranges(&checker, NULL, 0, &count), MOLD_DONE);
    CHECK(count == 3);
    CODE(mold_checker_ranges(&checker, ranges, 2, &count), MOLD_DONE);
    CHECK(count == 3 && ranges[1].last == 5 && ranges[2].first == 9);
    CODE(mold_checker_ranges(&checker, ranges, 3, &count), MOLD_DONE);
    CHECK(count == 3 && ranges[0].first == 1 && ranges[0].last == 2);
    CHECK(ranges[1].first == 4 && ranges[1].last == 5 && ranges[2].first == 8 && ranges[2].last == 8);
    CODE(give(&checker, packet_of(1, 8, 1), &number), MOLD_DONE);
    CHECK(is_verdict(&checker, 1, 8, 0, 0));
    CODE(mold_checker_ranges(&checker, NULL, 0, &count), MOLD_DONE);
    CHECK(count == 0);
    CODE(give(&checker, packet_of(2, 1, 1), &number), MOLD_DONE);
    CHECK(is_verdict(&checker, 1, 8, 0, 0));
    mold_free(&checker);
}

static void a_session_without_messages(void) {
    mold_checker checker = checker_of_none();
    uint64_t number = 99;
    CODE(give(&checker, packet_of(1, 0, 0), &number), MOLD_DONE);
    CHECK(is_verdict(&checker, 0, 0, 0, 0));
    CODE(give(&checker, end_of(1), &number), MOLD_DONE);
    CHECK(is_verdict(&checker, 1, 0, 0, 0));
    mold_free(&checker);
}

static void captures_are_refused(void) {
    mold_checker checker = checker_of_none();
    uint64_t number = 99;
    CODE(mold_checker_take(&checker, NULL, 0, &number), MOLD_E_SHORT);
    CHECK(number == 0);
    CODE(give(&checker, cut(packet_of(1, 2, 1), 25), &number), MOLD_E_BLOCK_CUT);
    CHECK(number == 1);
    CODE(give(&checker, of_hex(SESSION_HEX "0000000000000003ffff00"), &number), MOLD_E_TRAILING);
    CHECK(number == 20);
    CODE(give(&checker, packet_of(0, 1, 1), &number), MOLD_E_SEQUENCE_ZERO);
    CODE(give(&checker, packet_of(UINT64_MAX, 1, 1), &number), MOLD_E_PAST_LAST);
    CODE(give(&checker, packet_of(2, 2, 1), &number), MOLD_DONE);
    datagram other = packet_of(1, 3, 1);
    other.at[28] = 'X';
    CODE(give(&checker, other, &number), MOLD_E_CONFLICT);
    CHECK(number == 3);
    other = packet_of(1, 3, 1);
    other.at[0] = 'X';
    CODE(give(&checker, other, &number), MOLD_E_WRONG_SESSION);
    CODE(give(&checker, end_of(3), &number), MOLD_E_END_BELOW);
    CHECK(number == 4);
    CODE(give(&checker, end_of(5), &number), MOLD_DONE);
    CODE(give(&checker, end_of(6), &number), MOLD_E_END_CONFLICT);
    CHECK(number == 5);
    CODE(give(&checker, packet_of(4, 2, 1), &number), MOLD_E_PAST_END);
    CHECK(number == 5 && is_verdict(&checker, 0, 0, 5, 2));
    mold_free(&checker);
}

/* Checks each call of a listener on a handle that does not hold a listener. */
static void no_listener(mold_listener *handle) {
    mold_taken taken = {9, 9, 9, 9, 9};
    mold_delivery delivery = {9, 9, 9, 9, 9, 9};
    mold_report report = {9, 9, 9};
    mold_range range = {9, 9};
    mold_bytes bytes = MOLD_NO_BYTES;
    uint8_t room[64] = {7};
    size_t size = 99;
    CODE(take(handle, MOLD_LINE_A, packet_of(1, 1, 1), &taken), MOLD_E_BROKEN);
    CODE(take(handle, 9, packet_of(1, 1, 1), &taken), MOLD_E_BROKEN);
    CODE(hear(handle, MOLD_LINE_A, packet_of(1, 1, 1), &delivery), MOLD_E_BROKEN);
    CODE(hear(handle, 9, packet_of(1, 1, 1), &delivery), MOLD_E_BROKEN);
    CHECK(delivery.detail == 9 && delivery.offset == 9 && delivery.dropped == 9);
    CHECK(mold_listener_count(handle) == 0 && mold_listener_first(handle) == 0);
    CODE(mold_listener_message(handle, 0, &bytes), MOLD_E_BROKEN);
    CHECK(mold_listener_messages(handle, &bytes, 1) == 0 && bytes.at == NULL);
    CODE(mold_listener_copy(handle, 0, room, 64, &size), MOLD_E_BROKEN);
    CHECK(!mold_listener_wanted(handle, room) && room[0] == 7 && room[1] == 0);
    CHECK(mold_listener_next(handle) == 0 && mold_listener_known(handle) == 0 && !mold_listener_finished(handle));
    CODE(mold_listener_report(handle, MOLD_LINE_A, &report), MOLD_E_BROKEN);
    CHECK(report.datagrams == 9 && size == 99);
    CHECK(mold_listener_ranges(handle, 0, &range, 1) == 0 && range.first == 9 && range.last == 9);
    CODE(mold_listener_skip(handle, 2), MOLD_E_BROKEN);
    CODE(mold_listener_clear(handle), MOLD_E_BROKEN);
}

/* Checks each call of a repairer on a handle that does not hold a repairer. */
static void no_repairer(mold_repairer *handle) {
    mold_taken taken = {9, 9, 9, 9, 9};
    mold_range range = {9, 9};
    mold_repair_stats stats;
    datagram given = packet_of(1, 1, 1);
    uint8_t request[20] = {7};
    uint32_t server = 9;
    uint64_t deadline = 99;
    stats.next = 99;
    CODE(mold_repairer_take(handle, UINT64_MAX, 9, given.at, given.length, &taken), MOLD_E_BROKEN);
    CODE(mold_repairer_poll(handle, UINT64_MAX, request, &server), MOLD_E_BROKEN);
    CODE(mold_repairer_deadline(handle, 0, &deadline), MOLD_E_BROKEN);
    CODE(mold_repairer_lost(handle, 0, &range), MOLD_E_BROKEN);
    CODE(mold_repairer_stats(handle, &stats), MOLD_E_BROKEN);
    CHECK(taken.detail == 9 && request[0] == 7 && server == 9 && deadline == 99 && range.first == 9 && stats.next == 99);
    free(given.at);
}

/* Checks each call of a publisher on a handle that does not hold a publisher. */
static void no_publisher(mold_publisher *handle) {
    uint8_t room[64] = {7};
    uint64_t number = 99;
    size_t size = 99;
    CODE(publish(handle, 1, 1, &number), MOLD_E_BROKEN);
    CHECK(!mold_publisher_is_full(handle));
    CODE(mold_publisher_datagram(handle, room, 64, &size), MOLD_E_BROKEN);
    CODE(mold_publisher_heartbeat(handle, room, 64, &size), MOLD_E_BROKEN);
    CODE(mold_publisher_close(handle, &number), MOLD_E_BROKEN);
    CODE(mold_publisher_end(handle, room, 64, &size), MOLD_E_BROKEN);
    CODE(mold_publisher_save(handle, room, 64, &size), MOLD_E_BROKEN);
    CODE(mold_journal_head(handle, room, 64, &size), MOLD_E_BROKEN);
    CODE(mold_journal_records(handle, 1, room, 64, &size), MOLD_E_BROKEN);
    CODE(mold_server_from_publisher(handle, 1), MOLD_E_BROKEN);
    CHECK(room[0] == 7);
}

/* Checks each call of a server on a handle that does not hold a server. */
static void no_server(mold_server *handle) {
    datagram room = of_length(64);
    mold_plan made = {1, 2, 1, {0}};
    uint64_t number = 99;
    size_t size = 99;
    CODE(answer(handle, SESSION_HEX "00000000000000010001", room, &number), MOLD_E_BROKEN);
    CODE(plan(handle, SESSION_HEX "00000000000000010001", &made, &number), MOLD_E_BROKEN);
    CODE(mold_server_datagram(handle, &made, room.at, 64, &size), MOLD_E_BROKEN);
    CHECK(room.at[0] == 0 && made.from == 1 && made.left == 1);
    free(room.at);
}

/* Checks each call of a checker on a handle that does not hold a checker. */
static void no_checker(mold_checker *handle) {
    mold_verdict verdict = {9, 9, 9, 9, 9};
    mold_range range = {9, 9};
    uint64_t number = 99;
    size_t count = 99;
    CODE(give(handle, packet_of(1, 1, 1), &number), MOLD_E_BROKEN);
    CODE(mold_checker_verdict(handle, &verdict), MOLD_E_BROKEN);
    CODE(mold_checker_ranges(handle, &range, 1, &count), MOLD_E_BROKEN);
    CHECK(verdict.messages == 9 && range.first == 9);
}

static void empty_handles(void) {
    mold_listener listener = MOLD_EMPTY;
    mold_publisher publisher = MOLD_EMPTY;
    mold_server server = MOLD_EMPTY;
    mold_checker checker = MOLD_EMPTY;
    mold_repairer repairer = MOLD_EMPTY;
    no_listener(&listener);
    no_listener(mold_listener_of(&repairer));
    no_repairer(&repairer);
    no_publisher(&publisher);
    no_server(&server);
    no_checker(&checker);
    mold_free(&listener);
    mold_free(&repairer);
    mold_free(&publisher);
    mold_free(&server);
    mold_free(&checker);
}

/* A handle of each kind is passed to the calls of every other kind, and then freed twice. */
static void handles_of_another_kind(void) {
    mold_listener listener = listener_at(1, 4);
    mold_publisher publisher = publisher_of(64);
    mold_server server = server_of_five(1);
    mold_checker checker = checker_of_none();
    mold_repairer repairer = MOLD_EMPTY;
    mold_repair_options options;
    uint64_t number = 99;
    mold_repair_options_default(&options);
    CODE(mold_repairer_new(&repairer, session, &options), MOLD_DONE);
    void *const all[] = {&listener, &publisher, &server, &checker, &repairer};
    for (size_t i = 0; i < 5; i++) {
        if (all[i] != (void *)&listener && all[i] != (void *)&repairer)
            no_listener(all[i]);
        if (all[i] != (void *)&repairer)
            no_repairer(all[i]);
        if (all[i] != (void *)&publisher)
            no_publisher(all[i]);
        if (all[i] != (void *)&server)
            no_server(all[i]);
        if (all[i] != (void *)&checker)
            no_checker(all[i]);
        CODE(mold_listener_new(all[i], session, 1, 4), MOLD_E_BROKEN);
        CODE(mold_publisher_new(all[i], session, 64), MOLD_E_BROKEN);
        CODE(mold_publisher_resume(all[i], 64, NULL, 0, &number), MOLD_E_BROKEN);
        CODE(mold_checker_new(all[i]), MOLD_E_BROKEN);
        CODE(mold_repairer_new(all[i], session, &options), MOLD_E_BROKEN);
    }
    CHECK(mold_listener_next(&listener) == 1 && is_verdict(&checker, 0, 0, 0, 0) && number == 99);
    for (size_t i = 0; i < 10; i++)
        mold_free(all[i % 5]);
    CHECK(!listener.live && !publisher.live && !server.live && !checker.live && !repairer.live);
    listener = listener_at(1, 4);
    mold_free(&listener);
}

/* Handles are freed while they hold messages, and then made again. */
static void full_handles_are_freed(void) {
    mold_taken taken = {0, 0, 0, 0, 0};
    uint64_t number = 0;
    for (int times = 0; times < 2; times++) {
        mold_listener listener = listener_at(1, 65536);
        mold_checker checker = checker_of_none();
        mold_publisher publisher = publisher_of(64);
        for (uint64_t i = 0; i < 1000; i++) {
            CODE(take(&listener, MOLD_LINE_A, packet_of(3 + 7 * i, 3, 40), &taken), MOLD_DONE);
            CODE(give(&checker, packet_of(3 + 7 * i, 3, 40), &number), MOLD_DONE);
            CODE(publish(&publisher, (int)i, 40, &number), MOLD_DONE);
        }
        CODE(take(&listener, MOLD_ANSWER, packet_of(1, 2, 40), &taken), MOLD_DONE);
        CHECK(is_taken(&taken, 5, 0, 0) && is_verdict(&checker, 0, 0, 0, 1000));
        mold_free(&listener);
        mold_free(&checker);
        mold_free(&publisher);
    }
}

/* A listener receives two of every three data packets of a publisher. It requests the missing messages from the
 * publisher's server. */
static void from_publisher_to_listener(void) {
    mold_publisher publisher = publisher_of(200);
    mold_listener listener = listener_at(1, 16);
    mold_taken taken = {0, 0, 0, 0, 0};
    uint8_t room[200], request[20];
    uint64_t number = 0;
    size_t size = 0;
    CODE(mold_server_from_publisher(&publisher, 1), MOLD_DONE);
    for (int i = 1; i <= 100; i++)
        CODE(publish(&publisher, i, (size_t)i % 60, &number), MOLD_DONE);
    for (int sent = 0; mold_publisher_datagram(&publisher, room, sizeof room, &size) == MOLD_DONE; sent++) {
        if (sent % 3 != 0)
            CODE(mold_listener_take(&listener, MOLD_LINE_A, room, size, &taken), MOLD_DONE);
    }
    CODE(mold_publisher_close(&publisher, &number), MOLD_DONE);
    CODE(mold_publisher_end(&publisher, room, sizeof room, &size), MOLD_DONE);
    CODE(mold_listener_take(&listener, MOLD_LINE_B, room, size, &taken), MOLD_DONE);
    for (int turns = 0; turns < 200 && mold_listener_wanted(&listener, request); turns++) {
        CODE(mold_server_answer(mold_server_of(&publisher), request, 20, room, sizeof room, &number), MOLD_DONE);
        CODE(mold_listener_take(&listener, MOLD_ANSWER, room, (size_t)number, &taken), MOLD_DONE);
    }
    CHECK(mold_listener_finished(&listener) && mold_listener_count(&listener) == 100);
    for (int i = 1; i <= 100; i++)
        CHECK(is_message(&listener, (size_t)i - 1, i, (size_t)i % 60));
    mold_free(&listener);
    mold_free(&publisher);
}

static void codes_have_texts(void) {
    const char *texts[CODES + 2];
    for (uint32_t code = 0; code < CODES + 2; code++) {
        uint32_t number = code < CODES + 1 ? code : UINT32_MAX;
        mold_bytes text = MOLD_NO_BYTES;
        texts[code] = mold_code_text(number);
        mold_terminated_text(number, &text);
        CHECK(text.length > 1 && text.length == strlen(texts[code]) + 1 && (const char *)text.at == texts[code]);
        for (size_t i = 0; i + 1 < text.length; i++)
            CHECK(text.at[i] >= 0x20 && text.at[i] <= 0x7e);
        for (uint32_t other = 0; other < code && code < CODES; other++)
            CHECK(strcmp(texts[other], texts[code]) != 0);
    }
    CHECK(strcmp(texts[CODES], "unknown code") == 0 && strcmp(texts[CODES + 1], "unknown code") == 0);
}

static void versions_are_equal(void) {
    CHECK(mold_library_version() == MOLD_LIBRARY_VERSION);
}

/* Every code was returned except two: MOLD_E_MEMORY, which failing.c tests, and MOLD_E_NUMBERS, which takes more messages
 * than a test can publish. */
static void each_code_came(void) {
    for (uint32_t code = 0; code < CODES; code++)
        CHECK(answered[code] == (code != MOLD_E_MEMORY && code != MOLD_E_NUMBERS));
}

void test_handles(void) {
    sessions_are_checked();
    a_session_without_messages();
    captures_are_refused();
    empty_handles();
    handles_of_another_kind();
    full_handles_are_freed();
    from_publisher_to_listener();
    codes_have_texts();
    versions_are_equal();
    each_code_came();
}
