/* Tests the calls when allocations fail: each allocation once alone, and once together with all later ones. The call
 * then returns MOLD_E_MEMORY and changes nothing. If it is made again with memory, it succeeds. At the end all memory
 * is freed.
 *
 *     cd library/tests && cc -std=c99 failing.c ../out/libmold.a -o failing && ./failing
 *
 * The three allocation functions here replace those of alloc.c, as in a program that has its own allocator. */
#define CHECK_MAIN
#include "check.h"

typedef struct memory {
    uint64_t had;
    void *at;
} memory;

/* The header of each allocation. It has 32 bytes, so that the memory after it is aligned to 16. */
typedef union front {
    struct {
        size_t size, align;
    } asked;
    uint8_t room[32];
} front;

/* How many more allocations succeed before one fails, and whether all later ones fail too. */
static unsigned long left;
static bool all_fail;
/* The numbers of failed allocations, of allocations that are not freed, and of successful allocations. */
static unsigned long refused, live, allocations;

memory rattle_alloc(size_t size, size_t align);
memory rattle_realloc(void *old, size_t used, size_t size, size_t align);
void rattle_dealloc(void *old);

static bool is_refused(void) {
    if (left > 0) {
        left--;
        return false;
    }
    if (!all_fail && refused > 0)
        return false;
    refused++;
    return true;
}

memory rattle_alloc(size_t size, size_t align) {
    memory made = {0, NULL};
    CHECK(align >= 1 && align <= 16);
    front *at = is_refused() ? NULL : malloc(sizeof *at + size);
    if (at == NULL)
        return made;
    at->asked.size = size;
    at->asked.align = align;
    live++;
    allocations++;
    made.had = 1;
    made.at = at + 1;
    return made;
}

void rattle_dealloc(void *old) {
    front *at = (front *)old - 1;
    CHECK(at->asked.align >= 1 && at->asked.align <= 16);
    live--;
    free(at);
}

memory rattle_realloc(void *old, size_t used, size_t size, size_t align) {
    front *at = (front *)old - 1;
    CHECK(at->asked.size >= used && size >= used && at->asked.align == align);
    memory made = rattle_alloc(size, align);
    if (made.had == 0)
        return made;
    memcpy(made.at, old, used);
    rattle_dealloc(old);
    return made;
}

/* ---- The state of a handle, as a hash of everything that can be read from it ---- */

static uint64_t mixed(uint64_t sum, const void *bytes, size_t length) {
    for (size_t i = 0; i < length; i++)
        sum = (sum ^ ((const uint8_t *)bytes)[i]) * 1099511628211u;
    return sum;
}

static uint64_t sum_of_listener(mold_listener *listener) {
    uint64_t numbers[] = {mold_listener_next(listener), mold_listener_known(listener), mold_listener_first(listener),
                          mold_listener_finished(listener), mold_listener_count(listener)};
    uint8_t request[20] = {0};
    uint64_t sum = mixed(1, numbers, sizeof numbers);
    if (mold_listener_wanted(listener, request))
        sum = mixed(sum, request, sizeof request);
    for (uint32_t line = 0; line < 2; line++) {
        mold_report report = {0, 0, 0};
        CHECK(mold_listener_report(listener, line, &report) == MOLD_DONE);
        sum = mixed(sum, &report, sizeof report);
    }
    for (size_t i = 0; i < numbers[4]; i++) {
        mold_bytes message = MOLD_NO_BYTES;
        CHECK(mold_listener_message(listener, i, &message) == MOLD_DONE);
        sum = mixed(sum, message.at, message.length);
    }
    return sum;
}

static uint64_t sum_of_publisher(mold_publisher *publisher) {
    uint8_t journal[4096], heartbeat[64];
    size_t size = 0, length = 0;
    CHECK(mold_publisher_save(publisher, journal, sizeof journal, &size) == MOLD_DONE);
    CHECK(mold_publisher_heartbeat(publisher, heartbeat, sizeof heartbeat, &length) == MOLD_DONE);
    return mixed(mixed(mold_publisher_is_full(publisher), journal, size), heartbeat, length);
}

/* Checks that a call returned MOLD_E_MEMORY exactly when an allocation failed in it. `before` is the number of failed
 * allocations before the call. Returns whether to make the call again. */
static bool again(uint32_t code, unsigned long before) {
    CHECK((code == MOLD_E_MEMORY) == (refused > before));
    return code == MOLD_E_MEMORY && !all_fail;
}

/* ---- Calls that allocate ---- */

static uint32_t try_listener(mold_listener *listener) {
    unsigned long before = refused;
    uint32_t code = mold_listener_new(listener, session, 1, 64);
    CHECK(listener->live == (code == MOLD_DONE));
    return again(code, before) ? mold_listener_new(listener, session, 1, 64) : code;
}

static uint32_t try_take(mold_listener *listener, datagram given, mold_taken *taken) {
    unsigned long before = refused;
    uint64_t sum = sum_of_listener(listener);
    uint32_t code = mold_listener_take(listener, MOLD_LINE_A, given.at, given.length, taken);
    CHECK(code != MOLD_E_MEMORY || sum == sum_of_listener(listener));
    if (again(code, before))
        code = mold_listener_take(listener, MOLD_LINE_A, given.at, given.length, taken);
    free(given.at);
    return code;
}

/* The same without a copy. The batch is empty before, since a refusal empties it. */
static uint32_t try_hear(mold_listener *listener, datagram given, mold_delivery *delivery) {
    unsigned long before = refused;
    CHECK(mold_listener_clear(listener) == MOLD_DONE);
    uint64_t sum = sum_of_listener(listener);
    uint32_t code = mold_listener_hear(listener, MOLD_LINE_A, given.at, given.length, delivery);
    CHECK(code != MOLD_E_MEMORY || (sum == sum_of_listener(listener) && delivery->own == 0 && delivery->stored == 0));
    if (again(code, before))
        code = mold_listener_hear(listener, MOLD_LINE_A, given.at, given.length, delivery);
    free(given.at);
    return code;
}

static uint32_t try_skip(mold_listener *listener, uint64_t to) {
    unsigned long before = refused;
    CHECK(mold_listener_clear(listener) == MOLD_DONE);
    uint64_t sum = sum_of_listener(listener);
    uint32_t code = mold_listener_skip(listener, to);
    CHECK(code != MOLD_E_MEMORY || sum == sum_of_listener(listener));
    return again(code, before) ? mold_listener_skip(listener, to) : code;
}

static uint32_t try_publish(mold_publisher *publisher, int value, size_t length) {
    unsigned long before = refused;
    uint64_t number = 0, sum = sum_of_publisher(publisher);
    uint32_t code = publish(publisher, value, length, &number);
    CHECK(code != MOLD_E_MEMORY || sum == sum_of_publisher(publisher));
    return again(code, before) ? publish(publisher, value, length, &number) : code;
}

static uint32_t try_server(mold_server *server) {
    unsigned long before = refused;
    uint64_t number = 0;
    uint32_t code = server_new(server, 64, 1, five_messages(), &number);
    CHECK(server->live == (code == MOLD_DONE));
    return again(code, before) ? server_new(server, 64, 1, five_messages(), &number) : code;
}

static uint32_t try_resume(mold_publisher *publisher, datagram journal, uint64_t *number) {
    unsigned long before = refused;
    uint32_t code = mold_publisher_resume(publisher, 64, journal.at, journal.length, number);
    CHECK(publisher->live == (code == MOLD_DONE));
    if (again(code, before))
        code = mold_publisher_resume(publisher, 64, journal.at, journal.length, number);
    free(journal.at);
    return code;
}

static uint32_t try_check(mold_checker *checker, datagram given) {
    unsigned long before = refused;
    uint64_t number = 0;
    uint32_t code = mold_checker_take(checker, given.at, given.length, &number);
    if (again(code, before))
        code = mold_checker_take(checker, given.at, given.length, &number);
    free(given.at);
    return code;
}

static uint32_t try_repairer(mold_repairer *repairer, const mold_repair_options *options) {
    unsigned long before = refused;
    uint32_t code = mold_repairer_new(repairer, session, options);
    CHECK(repairer->live == (code == MOLD_DONE));
    return again(code, before) ? mold_repairer_new(repairer, session, options) : code;
}

static uint32_t try_repair(mold_repairer *repairer, uint64_t now, datagram given, mold_taken *taken) {
    unsigned long before = refused;
    uint64_t sum = sum_of_listener(mold_listener_of(repairer));
    uint32_t code = mold_repairer_take(repairer, now, MOLD_LINE_A, given.at, given.length, taken);
    CHECK(code != MOLD_E_MEMORY || sum == sum_of_listener(mold_listener_of(repairer)));
    if (again(code, before))
        code = mold_repairer_take(repairer, now, MOLD_LINE_A, given.at, given.length, taken);
    free(given.at);
    return code;
}

static uint32_t try_lost(mold_repairer *repairer, uint64_t now, mold_range *lost) {
    unsigned long before = refused;
    CHECK(mold_listener_clear(mold_listener_of(repairer)) == MOLD_DONE);
    uint64_t sum = sum_of_listener(mold_listener_of(repairer));
    uint32_t code = mold_repairer_lost(repairer, now, lost);
    CHECK(code != MOLD_E_MEMORY || sum == sum_of_listener(mold_listener_of(repairer)));
    return again(code, before) ? mold_repairer_lost(repairer, now, lost) : code;
}

/* ---- Runs in which allocations fail ---- */

/* Whether a call succeeded. It may return MOLD_E_MEMORY only in a run in which all later allocations fail. */
static bool done(uint32_t code) {
    CHECK(code == MOLD_DONE || (all_fail && code == MOLD_E_MEMORY));
    return code == MOLD_DONE;
}

/* A packet of messages of different lengths. The length of a message depends only on its number. */
static datagram varied(uint64_t sequence, uint16_t count) {
    datagram made = of_length(20 + (size_t)count * 62);
    size_t at = 20;
    memcpy(made.at, SESSION, 10);
    put_number(made.at + 10, sequence, 8);
    put_number(made.at + 18, count, 2);
    for (uint64_t number = sequence; number < sequence + count; number++) {
        size_t length = (size_t)(number * 7 % 60);
        put_number(made.at + at, length, 2);
        memset(made.at + at + 2, (int)number, length);
        at += 2 + length;
    }
    return cut(made, at);
}

static void run_listener(void) {
    mold_listener listener = MOLD_EMPTY;
    mold_taken taken = {0, 0, 0, 0, 0};
    if (done(try_listener(&listener))) {
        for (uint64_t number = 40; number > 3; number -= 2)
            done(try_take(&listener, varied(number, 2), &taken));
        done(try_take(&listener, varied(2, 1), &taken));
        done(try_take(&listener, varied(1, 3), &taken));
        CHECK(all_fail || (mold_listener_next(&listener) == 42 && taken.delivered == 41));
        done(try_take(&listener, varied(30, 20), &taken));
        CHECK(all_fail || (mold_listener_next(&listener) == 50 && taken.delivered == 8));
        CHECK(try_take(&listener, packet_of(90, 0, 0), &taken) == MOLD_DONE);
        CHECK(mold_listener_clear(&listener) == MOLD_DONE);
        done(try_take(&listener, varied(mold_listener_next(&listener), 3), &taken));
        CHECK(all_fail || mold_listener_count(&listener) == 3);
    }
    mold_free(&listener);
}

/* The first message is given up, and the stored messages after it are delivered. */
static void run_giving_up(void) {
    mold_listener listener = MOLD_EMPTY;
    mold_taken taken = {0, 0, 0, 0, 0};
    if (done(try_listener(&listener))) {
        for (uint64_t number = 40; number > 1; number -= 3)
            done(try_take(&listener, varied(number, 2), &taken));
        if (mold_listener_known(&listener) == 42 && done(try_skip(&listener, 4)))
            CHECK(all_fail || (mold_listener_next(&listener) == 6 && mold_listener_count(&listener) == 2));
    }
    mold_free(&listener);
}

/* The same datagrams, which are not copied. Those without a gap take no memory. */
static void run_without_copies(void) {
    mold_listener listener = MOLD_EMPTY;
    mold_delivery delivery = {0, 0, 0, 0, 0, 0};
    if (done(try_listener(&listener))) {
        for (uint64_t number = 40; number > 3; number -= 2)
            done(try_hear(&listener, varied(number, 2), &delivery));
        done(try_hear(&listener, varied(2, 1), &delivery));
        done(try_hear(&listener, varied(1, 3), &delivery));
        CHECK(all_fail || (mold_listener_next(&listener) == 42 && delivery.own == 3 && delivery.stored == 38));
        done(try_hear(&listener, varied(30, 20), &delivery));
        CHECK(all_fail || (mold_listener_next(&listener) == 50 && delivery.own == 8 && delivery.stored == 0));
        uint64_t next = mold_listener_next(&listener);
        if (mold_listener_known(&listener) == next) {
            unsigned long before = refused;
            CHECK(try_hear(&listener, varied(next, 3), &delivery) == MOLD_DONE);
            CHECK(delivery.own == 3 && refused == before);
        }
        CHECK(try_hear(&listener, packet_of(90, 0, 0), &delivery) == MOLD_DONE);
    }
    mold_free(&listener);
}

/* The first message is missing. It is given up after a request without a response. */
static void run_repairer(void) {
    mold_repairer repairer = MOLD_EMPTY;
    mold_repair_options options;
    mold_taken taken = {0, 0, 0, 0, 0};
    mold_range lost = {0, 0};
    uint8_t request[20];
    uint32_t server = 9;
    mold_repair_options_default(&options);
    options.window = 64;
    options.give_up = 1;
    options.audit = 16;
    if (done(try_repairer(&repairer, &options))) {
        for (uint64_t number = 40; number > 1; number -= 3)
            done(try_repair(&repairer, 40 - number, varied(number, 2), &taken));
        if (mold_listener_known(mold_listener_of(&repairer)) == 42) {
            for (uint64_t now = 0; now < 4000000; now += 500000)
                mold_repairer_poll(&repairer, now, request, &server);
            CHECK(all_fail || server == 0);
            if (done(try_lost(&repairer, 2000000000, &lost)))
                CHECK(all_fail || (lost.last == 3 && mold_listener_count(mold_listener_of(&repairer)) == 2));
        }
    }
    mold_free(&repairer);
}

static void run_publisher(void) {
    mold_publisher publisher = MOLD_EMPTY;
    unsigned long before = refused;
    uint32_t code = mold_publisher_new(&publisher, session, 64);
    CHECK(publisher.live == (code == MOLD_DONE));
    if (again(code, before))
        code = mold_publisher_new(&publisher, session, 64);
    if (done(code)) {
        for (int i = 0; i < 40; i++)
            done(try_publish(&publisher, i, (size_t)i));
        before = refused;
        code = mold_server_from_publisher(&publisher, 1);
        if (again(code, before))
            code = mold_server_from_publisher(&publisher, 1);
        done(code);
        done(try_publish(&publisher, 1, 42));
    }
    mold_free(&publisher);
}

static void run_server(void) {
    mold_server server = MOLD_EMPTY;
    datagram room = of_length(64);
    uint64_t number = 0;
    if (done(try_server(&server))) {
        CHECK(answer(&server, SESSION_HEX "00000000000000050001", room, &number) == MOLD_DONE);
        CHECK(number == 42 && room.at[22] == 5);
    }
    mold_free(&server);
    free(room.at);
}

static void run_resumed(void) {
    mold_publisher publisher = MOLD_EMPTY;
    datagram room = of_length(64);
    uint64_t number = 0;
    size_t size = 0;
    if (done(try_resume(&publisher, of_hex("4d4f4c444a4e4c33" SESSION_HEX "010000024142" "0100000143" "00"), &number))) {
        CHECK(number == 29);
        done(try_publish(&publisher, 1, 42));
        CHECK(mold_journal_records(&publisher, 2, room.at, 64, &size) == MOLD_DONE && room.at[4] == 'C');
    }
    mold_free(&publisher);
    free(room.at);
}

static void run_checker(void) {
    mold_checker checker = MOLD_EMPTY;
    mold_verdict verdict = {0, 0, 0, 0, 0};
    mold_range ranges[16];
    size_t count = 0;
    memset(ranges, 0, sizeof ranges);
    unsigned long before = refused;
    uint32_t code = mold_checker_new(&checker);
    if (again(code, before))
        code = mold_checker_new(&checker);
    if (done(code)) {
        for (uint64_t number = 30; number > 0; number -= 3)
            done(try_check(&checker, packet_of(number, 2, 9)));
        before = refused;
        code = mold_checker_verdict(&checker, &verdict);
        if (again(code, before))
            code = mold_checker_verdict(&checker, &verdict);
        if (done(code))
            CHECK(all_fail || (verdict.whole == 0 && verdict.ranges == 10));
        before = refused;
        code = mold_checker_ranges(&checker, ranges, 16, &count);
        if (again(code, before))
            code = mold_checker_ranges(&checker, ranges, 16, &count);
        if (done(code))
            CHECK(all_fail || (count == 10 && ranges[0].first == 1 && ranges[9].last == 29));
    }
    mold_free(&checker);
}

/* Files with a fault. Their code is the same if all allocations fail, and no server or publisher is made. */
static void run_faulty_journals(void) {
    static const uint32_t codes[] = {MOLD_E_FILE_SHORT, MOLD_E_BAD_MAGIC, MOLD_E_FILE_CUT,      MOLD_E_TOO_LONG,
                                     MOLD_E_FILE_CUT,   MOLD_E_BAD_FLAG,  MOLD_E_COUNT_DIFFERS, MOLD_E_DAMAGED};
    static const uint64_t numbers[] = {17, 0, 5, 43, 1, 2, 2, 2};
    for (size_t i = 0; i < sizeof codes / sizeof *codes; i++) {
        datagram files[] = {cut(five_messages(), 17), of_length(200), cut(five_messages(), 18 + 5 * 22 - 1),
                            five_messages(), cut(five_messages(), 19),
                            of_hex("4d4f4c444a4e4c32" SESSION_HEX "020000000000000000"),
                            of_hex("4d4f4c444a4e4c32" SESSION_HEX "000000000000000003" "00024142" "0000"),
                            of_hex("4d4f4c444a4e4c33" SESSION_HEX "0100" "00024142")};
        mold_server server = MOLD_EMPTY;
        uint64_t number = 99;
        files[3].at[18 + 4 * 22 + 1] = 43;
        CHECK(mold_server_new(&server, 64, 1, files[i].at, files[i].length, &number) == codes[i]);
        CHECK(number == numbers[i] && !server.live);
        if (codes[i] == MOLD_E_FILE_SHORT || codes[i] == MOLD_E_DAMAGED) {
            mold_publisher publisher = MOLD_EMPTY;
            CHECK(mold_publisher_resume(&publisher, 64, files[i].at, files[i].length, &number) == codes[i]);
            CHECK(number == numbers[i] && !publisher.live);
        }
        for (size_t k = 0; k < sizeof files / sizeof *files; k++)
            free(files[k].at);
    }
}

/* Runs with a failing allocation after `place` successful ones, and returns whether there was such an allocation. */
static bool fails_at(void (*run)(void), unsigned long place, bool and_all_after) {
    left = place;
    all_fail = and_all_after;
    refused = 0;
    run();
    CHECK(live == 0);
    return refused > 0;
}

/* Runs with each allocation failing, alone and with all later ones, and finally with none failing. */
static void each_in_turn(const char *name, void (*run)(void)) {
    unsigned long places = 0;
    while (fails_at(run, places, false) && places < 100000)
        places++;
    while (places > 0 && fails_at(run, --places, true))
        ;
    left = 100000;
    allocations = refused = 0;
    run();
    printf("%s: each of %lu allocations failed once alone and once with all later ones\n", name, allocations);
    CHECK(allocations > 0 && refused == 0 && live == 0);
}

int main(void) {
    each_in_turn("listener", run_listener);
    each_in_turn("listener without copies", run_without_copies);
    each_in_turn("giving up", run_giving_up);
    each_in_turn("repairer", run_repairer);
    each_in_turn("publisher", run_publisher);
    each_in_turn("resumed publisher", run_resumed);
    each_in_turn("server", run_server);
    each_in_turn("checker", run_checker);
    each_in_turn("faulty journals", run_faulty_journals);
    return report_checks();
}
