// Tests of the classes of mold.hpp: each call, and moving and freeing of handles.
//
//     cd library/tests && c++ -std=c++17 wrapper.cpp ../out/libmold.a -o wrapper && ./wrapper
#include "../mold.hpp"

#include <algorithm>
#include <array>
#include <cstdio>
#include <set>
#include <string>
#include <type_traits>
#include <unordered_map>
#include <vector>

namespace {

using mold::Code;
using mold::Line;

unsigned long checks, faults;

void check(bool holds, const char *what, int line) {
    checks++;
    if (!holds) {
        faults++;
        std::printf("FAILED  wrapper.cpp:%d: %s\n", line, what);
    }
}

#define CHECK(...) check((__VA_ARGS__), #__VA_ARGS__, __LINE__)

using Datagram = std::vector<std::uint8_t>;

static_assert(!std::is_copy_constructible_v<mold::Listener> && !std::is_copy_assignable_v<mold::Listener>);
static_assert(!std::is_copy_constructible_v<mold::Publisher> && !std::is_copy_constructible_v<mold::Server>);
static_assert(std::is_nothrow_move_constructible_v<mold::Listener> && std::is_nothrow_move_assignable_v<mold::Checker>);
static_assert(sizeof(mold::Listener) == sizeof(mold_listener));
static_assert(noexcept(mold::text(Code::Done)));
static_assert(!std::is_convertible_v<Code, std::uint32_t> && !std::is_convertible_v<std::uint32_t, Line>);
static_assert(!mold::Session::of("ELEVEN CHAR") && mold::Session::of("TEN CHARS ") && mold::Session::of(""));

constexpr mold::Session name = *mold::Session::of("DEMO");

bool is_bytes(mold::Bytes bytes, const std::string &wanted) {
    return std::string(bytes.begin(), bytes.end()) == wanted;
}

/// Opens a session with limit 64, publishes the messages and closes it. Returns the data packets and the end packet.
std::vector<Datagram> session_of(mold::Publisher &publisher, const std::vector<std::string> &messages) {
    std::vector<Datagram> sent;
    std::uint64_t number = 0;
    std::size_t size = 0;
    CHECK(publisher.open(name, 64) == Code::Done);
    for (const std::string &message : messages)
        CHECK(publisher.publish(message, number) == Code::Done && number > 0);
    Datagram room(64);
    while (publisher.datagram(room, size) == Code::Done)
        sent.emplace_back(room.begin(), room.begin() + static_cast<std::ptrdiff_t>(size));
    CHECK(publisher.heartbeat(room, size) == Code::Done && size == 20);
    CHECK(publisher.close_session(number) == Code::Done && !publisher.is_full());
    CHECK(publisher.end(room, size) == Code::Done && size == 20);
    sent.emplace_back(room.begin(), room.begin() + 20);
    return sent;
}

void a_listener_listens() {
    mold::Publisher publisher;
    const std::vector<Datagram> sent = session_of(publisher, {"first", "", "third and longest of them all", "fourth"});
    mold::Listener listener;
    mold_taken taken{};
    mold_report report{};
    std::array<std::uint8_t, 20> request{};
    CHECK(!listener && listener.take(Line::A, sent[0], taken) == Code::Broken);
    CHECK(listener.open(name) == Code::Done && listener && listener.open(name) == Code::Broken);
    CHECK(sent.size() == 3 && listener.take(Line::A, sent[2], taken) == Code::Done);
    CHECK(listener.known() == 5 && listener.wanted(request) && request[17] == 1 && request[19] == 4);
    CHECK(listener.take(Line::B, sent[1], taken) == Code::Done && taken.kept == 1);
    CHECK(listener.take(Line::Answer, sent[0], taken) == Code::Done && taken.delivered == 4);
    CHECK(listener.report(Line::A, report) == Code::Done && report.datagrams == 1 && report.front == 5);
    CHECK(listener.count() == 4 && listener.first() == 1 && listener.next() == 5 && listener.finished());
    mold::Bytes message;
    CHECK(listener.message(2, message) == Code::Done && is_bytes(message, "third and longest of them all"));
    CHECK(listener.message(4, message) == Code::Absent && message.size() == 29 && message[0] == 't');
    std::array<mold_bytes, 8> all{};
    CHECK(listener.messages(all.data(), all.size()) == 4 && mold::Bytes(all[1]).empty() && is_bytes(all[3], "fourth"));
    std::vector<std::size_t> lengths;
    for (mold::Bytes each : listener.batch())
        lengths.push_back(each.size());
    CHECK(lengths == std::vector<std::size_t>{5, 0, 29, 6} && listener.batch().size() == 4 && !listener.batch().empty());
    const mold::Batch batch = listener.batch();
    CHECK(std::count_if(batch.begin(), batch.end(), [](mold::Bytes each) { return each.empty(); }) == 1);
    std::array<std::uint8_t, 8> room{};
    std::size_t size = 0;
    CHECK(listener.copy(0, room, size) == Code::Done && size == 5 && room[4] == 't');
    CHECK(listener.copy(2, room, size) == Code::Room && size == 29);
    CHECK(listener.clear() == Code::Done && listener.count() == 0 && listener.batch().empty());
    listener.reset();
    CHECK(!listener && listener.next() == 0 && listener.open(name, 7, 1) == Code::Done && listener.next() == 7);
}

void a_listener_gives_up() {
    mold::Publisher publisher;
    const std::vector<Datagram> sent = session_of(publisher, {"first", "", "third and longest of them all", "fourth"});
    mold::Listener listener;
    mold_taken taken{};
    std::array<mold_range, 2> ranges{};
    CHECK(listener.skip(2) == Code::Broken && listener.ranges(0, ranges.data(), 2) == 0);
    CHECK(listener.open(name) == Code::Done && listener.take(Line::A, sent[1], taken) == Code::Done);
    const std::uint64_t first = listener.known() - taken.kept;
    CHECK(listener.ranges(0, ranges.data(), ranges.size()) == 1 && ranges[0].first == 1 && ranges[0].last == first - 1);
    CHECK(listener.skip(first + 1) == Code::NotMissing && listener.skip(first) == Code::Done);
    CHECK(listener.count() == taken.kept && listener.first() == first && listener.skip(first) == Code::Batch);
}

void a_listener_has_a_bounded_store() {
    mold::Listener listener;
    CHECK(listener.open(name, 1, 64, 65506) == Code::Options && !listener);
    CHECK(listener.open(name, 1, 64, 65507) == Code::Done && listener);
}

void a_listener_copies_nothing() {
    mold::Publisher publisher;
    const std::vector<Datagram> sent = session_of(publisher, {"first", "", "third and longest of them all", "fourth"});
    mold::Listener listener;
    mold_delivery delivery{};
    std::vector<std::string> delivered;
    const auto deliver = [&delivered](mold::Bytes message) { delivered.emplace_back(message.begin(), message.end()); };
    CHECK(listener.hear(Line::A, sent[0], delivery, deliver) == Code::Broken && delivered.empty());
    CHECK(listener.open(name) == Code::Done && listener.hear(Line::A, sent[1], delivery, deliver) == Code::Done);
    CHECK(delivered.empty() && delivery.kept > 0 && listener.hear(Line(9), sent[0], delivery, deliver) == Code::Line);
    CHECK(listener.hear(Line::Answer, sent[0], delivery, deliver) == Code::Done && delivery.own + delivery.stored == 4);
    CHECK(delivered.size() == 4 && delivered[0] == "first" && delivered[1].empty() && delivered[3] == "fourth");
    CHECK(listener.hear(Line::B, sent[2], delivery, deliver) == Code::Done && listener.finished());
    CHECK(delivered.size() == 4 && listener.count() == 0);
}

void the_batch_is_cleared_before() {
    mold::Publisher publisher;
    const std::vector<Datagram> sent = session_of(publisher, {"first", "", "third and longest of them all", "fourth"});
    mold::Listener listener;
    mold_taken taken{};
    mold_delivery delivery{};
    std::size_t delivered = 0;
    const auto deliver = [&delivered](mold::Bytes) { delivered++; };
    CHECK(listener.open(name) == Code::Done && listener.take(Line::A, sent[0], taken) == Code::Done);
    CHECK(listener.hear(Line::A, sent[1], delivery, deliver) == Code::Batch && delivered == 0);
    CHECK(listener.count() == taken.delivered && listener.first() == 1 && listener.clear() == Code::Done);
    CHECK(listener.hear(Line::A, sent[1], delivery, deliver) == Code::Done && taken.delivered + delivered == 4);
}

void a_repairer_repairs() {
    mold::Publisher publisher;
    const std::vector<Datagram> sent = session_of(publisher, {"first", "", "third and longest of them all", "fourth"});
    mold::Repairer repairer;
    mold::RepairOptions options;
    mold_taken taken{};
    mold_range lost{};
    mold_repair_stats stats{};
    std::array<std::uint8_t, 20> request{};
    std::array<mold_range, 2> ranges{};
    std::uint32_t server = 9;
    std::uint64_t deadline = 0;
    CHECK(!repairer && repairer.take(0, Line::A, sent[1], taken) == Code::Broken);
    options.servers = 9;
    CHECK(repairer.open(name, options) == Code::Options);
    options.servers = 2;
    CHECK(repairer.open(name, options) == Code::Done && repairer.take(0, Line::A, sent[1], taken) == Code::Done);
    CHECK(repairer.take(0, mold::server(2), sent[1], taken) == Code::Line && repairer.count() == 0);
    CHECK(repairer.deadline(0, deadline) == Code::Done && deadline > 0);
    CHECK(repairer.poll(0, request, server) == Code::Absent && repairer.poll(1ull << 62, request, server) == Code::Time);
    for (std::uint64_t now = 0; now < 10 && server == 9; now++)
        (void)repairer.poll(now * 1000000, request, server);
    CHECK(server == 0 && request[17] == 1 && repairer.ranges(0, ranges.data(), 2) == 1 && ranges[0].first == 1);
    CHECK(repairer.take(9000000, mold::server(0), sent[0], taken) == Code::Done && repairer.count() == 4);
    CHECK(repairer.first() == 1 && repairer.batch().size() == 4 && is_bytes(*repairer.batch().begin(), "first"));
    CHECK(repairer.lost(9000000, lost) == Code::Batch && repairer.clear() == Code::Done && repairer.batch().empty());
    CHECK(repairer.lost(9000000, lost) == Code::Absent && repairer.deadline(9000000, deadline) == Code::Absent);
    CHECK(repairer.stats(stats) == Code::Done && stats.next == 5 && stats.requests == 1 && stats.answers == 1);
    CHECK(repairer.take(9000000, Line::B, sent[2], taken) == Code::Done && repairer.finished());
}

void servers_serve() {
    mold::Publisher publisher;
    session_of(publisher, {"first", "second"});
    mold_plan plan{};
    std::uint64_t number = 0;
    std::size_t size = 0;
    Datagram room(64), journal(100);
    mold_request asked{1, 9, {}};
    std::copy_n(name.data(), 10, asked.session);
    std::uint8_t request[20];
    mold_request_encode(&asked, request);
    const mold::Bytes bytes(request, sizeof request);
    CHECK(publisher.serve(4) == Code::Done && publisher.server().answer(bytes, room, number) == Code::Done);
    CHECK(number == 35);
    CHECK(publisher.server().plan(bytes, plan, number) == Code::Done && plan.to == 3 && plan.left == 4);
    CHECK(publisher.server().datagram(plan, room, size) == Code::Done && size == 35);
    CHECK(publisher.save(journal, size) == Code::Done && size == 27 + 2 + 5 + 2 + 6);
    mold::Server server;
    CHECK(server.open(64, 1, mold::Bytes(journal.data(), size), number) == Code::Done);
    CHECK(server.answer(bytes, room, number) == Code::Done && number == 35 && room[22] == 'f');
    CHECK(server.plan(bytes, plan, number) == Code::Done && server.datagram(plan, room, size) == Code::Done);
    CHECK(server.datagram(plan, room, size) == Code::Absent);
}

void a_journal_is_kept() {
    mold::Publisher publisher;
    std::uint64_t number = 0;
    std::size_t size = 0;
    Datagram file(100);
    CHECK(publisher.open(name, 64) == Code::Done && publisher.journal_head(file, size) == Code::Done && size == 19);
    CHECK(publisher.publish(mold::Bytes(reinterpret_cast<const std::uint8_t *>("AB"), 2), number) == Code::Done);
    CHECK(publisher.journal_records(1, mold::Room(file.data() + 18, 82), size) == Code::Done && size == 7);
    CHECK(publisher.journal_records(3, file, size) == Code::Absent);
    mold::Publisher resumed;
    CHECK(resumed.resume(64, mold::Bytes(file.data(), 25), number) == Code::Done && number == 24);
    CHECK(resumed.resume(64, mold::Bytes(file.data(), 25), number) == Code::Broken);
}

void a_checker_checks() {
    mold::Publisher publisher;
    const std::vector<Datagram> sent = session_of(publisher, {std::string(40, 'a'), std::string(40, 'b'), "c"});
    mold::Checker checker;
    mold_verdict verdict{};
    std::array<mold_range, 2> ranges{};
    std::uint64_t number = 0;
    std::size_t count = 0;
    CHECK(checker.open() == Code::Done && sent.size() == 4);
    CHECK(checker.take(sent[0], number) == Code::Done && checker.take(sent[3], number) == Code::Done);
    CHECK(checker.verdict(verdict) == Code::Done && verdict.whole == 0 && verdict.end == 4 && verdict.ranges == 1);
    CHECK(checker.ranges(ranges.data(), ranges.size(), count) == Code::Done && count == 1 && ranges[0].last == 3);
    CHECK(checker.take(sent[1], number) == Code::Done && checker.take(sent[2], number) == Code::Done);
    CHECK(checker.verdict(verdict) == Code::Done && verdict.whole == 1 && verdict.messages == 3);
}

void what_is_moved() {
    mold::Listener first;
    CHECK(first.open(name, 5) == Code::Done);
    mold::Listener second(std::move(first));
    CHECK(!first && second && second.next() == 5);
    CHECK(first.open(name, 6) == Code::Done);
    second = std::move(first);
    CHECK(!first && second.next() == 6);
    mold::Listener &same = second;
    second = std::move(same);
    CHECK(second && second.next() == 6);
    std::vector<mold::Listener> many;
    for (std::uint64_t next = 1; next <= 10; next++) {
        many.emplace_back();
        CHECK(many.back().open(name, next) == Code::Done);
    }
    for (std::uint64_t next = 1; next <= 10; next++)
        CHECK(many[next - 1].next() == next);
}

void packets_and_texts() {
    mold_packet packet{};
    const std::string heartbeat = std::string("DEMO      ") + std::string("\0\0\0\0\0\0\0\7\0\0", 10);
    CHECK(mold::decode(heartbeat, packet) == Code::Done && packet.sequence == 7);
    CHECK(mold::kind(packet) == mold::Kind::Heartbeat);
    CHECK(mold::decode({}, packet) == Code::Short && packet.detail == 0);
    CHECK(mold::text(Code::Done) == std::string("done") && mold::text(Code(1000)) == std::string("unknown code"));
    CHECK(mold_library_version() == MOLD_LIBRARY_VERSION);
}

void sessions_are_named() {
    const mold::Session padded = *mold::Session::of("DEMO      "), other = *mold::Session::of("DEMO 2");
    CHECK(is_bytes(mold::Bytes(name.data(), mold::Session::size()), "DEMO      ") && is_bytes(padded, "DEMO      "));
    CHECK(is_bytes(*mold::Session::of("0123456789"), "0123456789") && is_bytes(*mold::Session::of(""), "          "));
    CHECK(!mold::Session::of("0123456789A") && !mold::Session::of(std::string(1000, ' ')));
    CHECK(mold::Session({'D', 'E', 'M', 'O', ' ', ' ', ' ', ' ', ' ', ' '}) == name);
    CHECK(name == padded && name != other && name < other && !(other < name) && !(name < padded));
    std::unordered_map<mold::Session, int> counts;
    counts[name]++, counts[padded]++, counts[other]++;
    CHECK(counts.size() == 2 && counts[name] == 2);
    const std::set<mold::Session> ordered{other, name, padded};
    CHECK(ordered.size() == 2 && *ordered.begin() == name);
}

#if defined(__cpp_lib_span)
static_assert(name <=> *mold::Session::of("DEMO") == 0 && name < *mold::Session::of("DEMO 2"));

/// Views convert from and to spans.
void spans_are_passed() {
    std::array<std::byte, 64> buffer{};
    const std::span<std::byte> room(buffer);
    const std::array<std::byte, 3> message{std::byte{'o'}, std::byte{'n'}, std::byte{'e'}};
    mold::Publisher publisher;
    std::uint64_t number = 0;
    std::size_t size = 0;
    CHECK(publisher.open(name, 64) == Code::Done);
    CHECK(publisher.publish(std::span<const std::byte>(message), number) == Code::Done && number == 1);
    CHECK(publisher.datagram(std::span<std::byte>(buffer), size) == Code::Done && size == 25);
    CHECK(publisher.datagram(room, size) == Code::Absent);
    mold::Listener listener;
    mold_taken taken{};
    CHECK(listener.open(name) == Code::Done && listener.take(Line::A, room.first(25), taken) == Code::Done);
    mold::Bytes bytes;
    CHECK(listener.message(0, bytes) == Code::Done);
    const std::span<const std::byte> delivered = bytes;
    CHECK(delivered.size() == 3 && delivered[2] == std::byte{'e'});
    CHECK(listener.copy(0, std::span<std::byte>(buffer).subspan(60), size) == Code::Done && buffer[60] == std::byte{'o'});
}
#endif

/// `%s` prints the text of each code as mold_terminated_text returns it, without the zero byte.
void texts_are_printed() {
    for (std::uint32_t code = 0; code < 1000; code++) {
        mold_bytes wanted = MOLD_NO_BYTES;
        char printed[100];
        mold_terminated_text(code, &wanted);
        wanted.length--;
        const int length = std::snprintf(printed, sizeof printed, "%s", mold::text(Code(code)));
        CHECK(is_bytes(wanted, std::string(printed, static_cast<std::size_t>(length))));
        CHECK(mold::text(Code(code)) == mold_code_text(code));
    }
}

} // namespace

int main() {
    a_listener_listens();
    a_listener_gives_up();
    a_listener_has_a_bounded_store();
    a_listener_copies_nothing();
    the_batch_is_cleared_before();
    a_repairer_repairs();
    servers_serve();
    a_journal_is_kept();
    a_checker_checks();
    what_is_moved();
    packets_and_texts();
    sessions_are_named();
#if defined(__cpp_lib_span)
    spans_are_passed();
#endif
    texts_are_printed();
    std::printf("%lu checks, %lu failed\n", checks, faults);
    return faults == 0 ? 0 : 1;
}
