/* Passes handles in memory that cannot be written to every call that takes a const handle. A call that writes its
 * handle ends the test with a signal.
 *
 *     cd library/tests && cc -std=c99 constant.c ../out/libmold.a -o constant && ./constant */
#define _DEFAULT_SOURCE
#define CHECK_MAIN
#include "check.h"

#include <sys/mman.h>

typedef struct handles {
    mold_listener listener;
    mold_repairer repairer;
    mold_publisher publisher;
    mold_server server;
    mold_checker checker;
} handles;

/* Makes a handle of each kind. */
static void fill(handles *all) {
    mold_taken taken;
    mold_repair_options options;
    uint8_t buffer[64];
    uint64_t number;
    size_t size;
    datagram given = packet_of(2, 1, 1);
    all->listener = listener_at(1, 4);
    CODE(mold_listener_take(&all->listener, MOLD_LINE_A, given.at, given.length, &taken), MOLD_DONE);
    CODE(take(&all->listener, MOLD_LINE_A, packet_of(4, 1, 1), &taken), MOLD_DONE);
    CODE(take(&all->listener, MOLD_LINE_B, packet_of(1, 1, 1), &taken), MOLD_DONE);
    mold_repair_options_default(&options);
    CODE(mold_repairer_new(&all->repairer, session, &options), MOLD_DONE);
    for (uint64_t i = 0; i < 3; i++) {
        datagram one = packet_of(i == 1 ? 4 : 1 + i / 2, 1, 1);
        CODE(mold_repairer_take(&all->repairer, i, MOLD_LINE_B, one.at, one.length, &taken), MOLD_DONE);
        free(one.at);
    }
    all->publisher = publisher_of(64);
    CODE(publish(&all->publisher, 1, 3, &number), MOLD_DONE);
    CODE(mold_publisher_datagram(&all->publisher, buffer, 64, &size), MOLD_DONE);
    CODE(mold_server_from_publisher(&all->publisher, 2), MOLD_DONE);
    all->server = server_of_five(2);
    CODE(mold_checker_new(&all->checker), MOLD_DONE);
    CODE(mold_checker_take(&all->checker, given.at, given.length, &number), MOLD_DONE);
    free(given.at);
}

static void read_listener(const mold_listener *listener) {
    mold_bytes message, messages[2];
    mold_report report;
    mold_range range;
    uint8_t request[20], copy[4];
    size_t size;
    CHECK(mold_listener_count(listener) == 2 && mold_listener_first(listener) == 1);
    CHECK(mold_listener_next(listener) == 3 && mold_listener_known(listener) == 5 && !mold_listener_finished(listener));
    CODE(mold_listener_message(listener, 1, &message), MOLD_DONE);
    CODE(mold_listener_message(listener, 2, &message), MOLD_E_ABSENT);
    CHECK(message.at[0] == 2 && mold_listener_messages(listener, messages, 2) == 2);
    CODE(mold_listener_copy(listener, 0, copy, 4, &size), MOLD_DONE);
    CHECK(mold_listener_wanted(listener, request));
    CHECK(mold_listener_ranges(listener, 0, &range, 1) == 1 && range.first == 3 && range.last == 3);
    CODE(mold_listener_report(listener, MOLD_LINE_B, &report), MOLD_DONE);
}

static void read_repairer(const mold_repairer *repairer) {
    mold_repair_stats stats;
    CODE(mold_repairer_stats(repairer, &stats), MOLD_DONE);
    CHECK(stats.next == 3 && stats.known == 5 && stats.missing == 1 && stats.stored == 1);
}

static void read_publisher(const mold_publisher *publisher) {
    uint8_t buffer[64];
    size_t size;
    CHECK(!mold_publisher_is_full(publisher));
    CODE(mold_publisher_heartbeat(publisher, buffer, 64, &size), MOLD_DONE);
    CODE(mold_publisher_end(publisher, buffer, 64, &size), MOLD_E_ABSENT);
    CODE(mold_publisher_save(publisher, buffer, 64, &size), MOLD_DONE);
    CODE(mold_journal_head(publisher, buffer, 64, &size), MOLD_DONE);
    CODE(mold_journal_records(publisher, 1, buffer, 64, &size), MOLD_DONE);
}

static void read_server(const mold_server *server, uint64_t length) {
    datagram room = of_length(64), request = of_hex(SESSION_HEX "00000000000000010001");
    mold_plan made;
    uint64_t number;
    size_t size;
    CODE(mold_server_answer(server, request.at, 20, room.at, 64, &number), MOLD_DONE);
    CHECK(number == length);
    CODE(mold_server_plan(server, request.at, 20, &made, &number), MOLD_DONE);
    CODE(mold_server_datagram(server, &made, room.at, 64, &size), MOLD_DONE);
    CHECK(size == length);
    free(room.at);
    free(request.at);
}

static void read_checker(const mold_checker *checker) {
    mold_verdict verdict;
    mold_range ranges[2];
    size_t count;
    CODE(mold_checker_verdict(checker, &verdict), MOLD_DONE);
    CODE(mold_checker_ranges(checker, ranges, 2, &count), MOLD_DONE);
    CHECK(verdict.ranges == 1 && count == 1);
}

int main(void) {
    handles *all = mmap(NULL, sizeof *all, PROT_READ | PROT_WRITE, MAP_PRIVATE | MAP_ANONYMOUS, -1, 0);
    if (all == MAP_FAILED)
        abort();
    fill(all);
    CHECK(mprotect(all, sizeof *all, PROT_READ) == 0);
    read_listener(&all->listener);
    read_listener(mold_listener_of(&all->repairer));
    read_repairer(&all->repairer);
    read_publisher(&all->publisher);
    read_server(mold_server_of(&all->publisher), 25);
    read_server(&all->server, 42);
    read_checker(&all->checker);
    CHECK(mprotect(all, sizeof *all, PROT_READ | PROT_WRITE) == 0);
    mold_free(&all->listener);
    mold_free(&all->repairer);
    mold_free(&all->publisher);
    mold_free(&all->server);
    mold_free(&all->checker);
    return report_checks();
}
