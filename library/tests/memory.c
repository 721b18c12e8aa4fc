/* Counts the bytes that the library holds: a listener's batch, a publisher, a server of a journal and a checker, with
 * messages of 8, 40 and 1,400 bytes, a listener's store, and a new repairer. tests/library compares the output with
 * docs/LIBRARY.md.
 *
 *     cd library/tests && cc -std=c99 memory.c ../out/libmold.a -o memory && ./memory 10 8 8 4 55 16 1536
 *
 * The arguments are the figures of LIBRARY: the bytes for each message besides its own, of a batch, a publisher, a
 * server and a checker; the bytes for each run of a checker, and for each missing range; and the bytes for everything
 * small.
 *
 * A handle may hold N times the bytes of its messages, of which each has the bytes of these figures, and besides the
 * bytes that are named with each test below. A line `NAME LENGTH N MOMENT` has the greatest N that was seen after any
 * call, and the greatest during a call. An allocation that grows counts as a new one, next to the old one. */
#define CHECK_MAIN
#include "check.h"

typedef struct memory {
    uint64_t had;
    void *at;
} memory;

/* The header of each allocation. It has 32 bytes, so that the memory after it is aligned to 16. */
typedef union front {
    size_t size;
    uint8_t room[32];
} front;

/* The bytes that are allocated now, and the most since the last measurement. */
static size_t held, most;

/* The figures of LIBRARY. */
static size_t batch_message, publisher_message, server_message, checker_message, checker_run, missing_range, small;

memory rattle_alloc(size_t size, size_t align);
memory rattle_realloc(void *old, size_t used, size_t size, size_t align);
void rattle_dealloc(void *old);

memory rattle_alloc(size_t size, size_t align) {
    memory made = {1, NULL};
    front *at = malloc(sizeof *at + size);
    if (at == NULL || align > 16)
        abort();
    at->size = size;
    held += size;
    most = held > most ? held : most;
    made.at = at + 1;
    return made;
}

void rattle_dealloc(void *old) {
    front *at = (front *)old - 1;
    held -= at->size;
    free(at);
}

memory rattle_realloc(void *old, size_t used, size_t size, size_t align) {
    memory made = rattle_alloc(size, align);
    memcpy(made.at, old, used);
    rattle_dealloc(old);
    return made;
}

/* ---- What was seen ---- */

/* The greatest numbers of times that the bytes of messages were held, after a call and during one. */
typedef struct seen {
    double times, moment;
} seen;

static double times_of(size_t bytes, size_t messages, size_t besides) {
    return bytes > besides + small ? (double)(bytes - besides - small) / (double)messages : 0;
}

/* Measures what is held after a call, and what was held during it. */
static void measure(seen *most_seen, size_t messages, size_t besides) {
    double times = times_of(held, messages, besides), moment = times_of(most, messages, besides);
    most_seen->times = times > most_seen->times ? times : most_seen->times;
    most_seen->moment = moment > most_seen->moment ? moment : most_seen->moment;
    CHECK(held >= messages);
    most = held;
}

static void print(const char *name, size_t length, seen found) {
    printf("%s %zu %.3f %.3f\n", name, length, found.times, found.moment);
}

/* The number of messages of a test: some 4 MB of them. */
static size_t count_of(size_t length) {
    return 4000000 / (length + 8);
}

static void take_all(mold_checker *checker, datagram given) {
    uint64_t number = 0;
    CODE(mold_checker_take(checker, given.at, given.length, &number), MOLD_DONE);
    free(given.at);
}

/* ---- The tests ---- */

/* The bytes of a listener besides: 8.2 for each message of its window. */
static size_t ring_bytes(size_t window) {
    return 8 * window + window / 5;
}

/* The bytes of a repairer besides: 48 for each request in flight, 8 for each digest, and 1.1 MB. */
static void count_repairer(void) {
    mold_repairer repairer = MOLD_EMPTY;
    mold_repair_options options;
    mold_repair_options_default(&options);
    options.audit = 10000;
    CODE(mold_repairer_new(&repairer, session, &options), MOLD_DONE);
    size_t besides = ring_bytes(options.window) + 48 * options.places + 8 * options.audit + 1100000;
    CHECK(held <= besides + small && held + 100000 > besides);
    mold_free(&repairer);
    CHECK(held == 0);
}

static void count_batch(size_t length, uint16_t at_once) {
    mold_listener listener = listener_at(1, 64);
    mold_taken taken = {0, 0, 0, 0, 0};
    seen found = {0, 0};
    size_t count = 0, last = 0;
    CHECK(held <= ring_bytes(64) + small);
    for (most = held; count < count_of(length); count += at_once) {
        CODE(take(&listener, MOLD_LINE_A, packet_of(count + 1, at_once, length), &taken), MOLD_DONE);
        measure(&found, (count + at_once) * (length + batch_message), ring_bytes(64));
    }
    last = held;
    CODE(mold_listener_clear(&listener), MOLD_DONE);
    CHECK(held == last);
    mold_free(&listener);
    CHECK(held == 0);
    print("batch", length, found);
}

/* Besides: the limit, twice with a server. */
static void count_publisher(size_t length, bool serves) {
    static uint8_t message[1400];
    mold_publisher publisher = publisher_of(1500);
    seen found = {0, 0};
    uint64_t number = 0;
    if (serves)
        CODE(mold_server_from_publisher(&publisher, 4), MOLD_DONE);
    most = held;
    for (size_t count = 1; count <= count_of(length); count++) {
        CODE(mold_publisher_publish(&publisher, message, length, &number), MOLD_DONE);
        measure(&found, count * (length + publisher_message), serves ? 3000 : 1500);
    }
    mold_free(&publisher);
    CHECK(held == 0);
    print("publisher", length, found);
}

/* The file of a journal of version 1. */
static datagram journal_of(size_t count, size_t length) {
    datagram made = of_length(18 + count * (2 + length));
    memcpy(made.at, "MOLDJNL1" SESSION, 18);
    for (size_t i = 0; i < count; i++)
        put_number(made.at + 18 + i * (2 + length), length, 2);
    return made;
}

/* Besides: the limit. */
static void count_server(size_t length) {
    seen found = {0, 0};
    for (size_t count = 1; count <= count_of(length); count += count / 16 + 1) {
        mold_server server = MOLD_EMPTY;
        uint64_t number = 0;
        most = 0;
        CODE(server_new(&server, 1500, 4, journal_of(count, length), &number), MOLD_DONE);
        measure(&found, count * (length + server_message), 1500);
        mold_free(&server);
        CHECK(held == 0);
    }
    print("server", length, found);
}

/* The file of a journal of version 3. */
static datagram records_of(size_t count, size_t length) {
    datagram made = of_length(18 + count * (4 + length) + 1);
    memcpy(made.at, "MOLDJNL3" SESSION, 18);
    for (size_t i = 0; i < count; i++) {
        uint8_t *record = made.at + 18 + i * (4 + length);
        record[0] = 1;
        put_number(record + 2, length, 2);
    }
    return made;
}

/* A publisher that continues the session of a file. Besides: the limit. */
static void count_resumed(size_t length) {
    seen found = {0, 0};
    for (size_t count = 1; count <= count_of(length); count += count / 16 + 1) {
        mold_publisher publisher = MOLD_EMPTY;
        datagram file = records_of(count, length);
        uint64_t number = 0;
        most = 0;
        CODE(mold_publisher_resume(&publisher, 1500, file.at, file.length, &number), MOLD_DONE);
        measure(&found, count * (length + publisher_message), 1500);
        mold_free(&publisher);
        free(file.at);
        CHECK(number == file.length - 1 && held == 0);
    }
    print("publisher", length, found);
}

/* Besides: the bytes for each run. Datagrams that descend are one run each, and others extend the only run. Message 1 has
 * another length, so each message after it takes bytes for its end. */
static void count_checker(size_t length, uint16_t at_once, bool descends) {
    mold_checker checker = MOLD_EMPTY;
    seen found = {0, 0};
    size_t runs = count_of(length) / at_once;
    CODE(mold_checker_new(&checker), MOLD_DONE);
    take_all(&checker, packet_of(1, 1, length + 1));
    most = held;
    for (size_t run = 0; run < runs; run++) {
        size_t at = descends ? runs - 1 - run : run;
        take_all(&checker, packet_of(at * at_once + 2, at_once, length));
        measure(&found, length + 1 + (run + 1) * at_once * (length + checker_message),
                (descends ? run + 2 : 1) * checker_run);
    }
    mold_free(&checker);
    CHECK(held == 0);
    print("checker", length, found);
}

/* What a verdict and the list of missing ranges take until they return. Every second message is missing. */
static void count_ranges(void) {
    mold_checker checker = MOLD_EMPTY;
    mold_verdict verdict = {0, 0, 0, 0, 0};
    seen found = {0, 0};
    CODE(mold_checker_new(&checker), MOLD_DONE);
    for (size_t ranges = 1, next = 1; ranges <= 100000; ranges++) {
        size_t before, there = 0;
        take_all(&checker, packet_of(2 * ranges, 1, 0));
        if (ranges < next)
            continue;
        before = held;
        most = 0;
        CODE(mold_checker_verdict(&checker, &verdict), MOLD_DONE);
        CODE(mold_checker_ranges(&checker, NULL, 0, &there), MOLD_DONE);
        CHECK(held == before && verdict.ranges == ranges && there == ranges);
        double moment = times_of(most, ranges * missing_range, before);
        found.moment = moment > found.moment ? moment : found.moment;
        next += next / 16 + 1;
    }
    mold_free(&checker);
    CHECK(held == 0);
    print("ranges", 0, found);
}

/* Passes a datagram with one message to a listener, and clears the batch. */
static void store_one(mold_listener *listener, size_t number, size_t length) {
    mold_taken taken = {0, 0, 0, 0, 0};
    CODE(take(listener, MOLD_LINE_A, packet_of(number, 1, length), &taken), MOLD_DONE);
    CODE(mold_listener_clear(listener), MOLD_DONE);
}

static void print_store(const char *name, size_t length, size_t stored, size_t taken, size_t moment) {
    printf("%s %zu %.3f %.3f %.3f\n", name, length, (double)stored / 1e6, (double)taken / 1e6, (double)moment / 1e6);
}

/* A store that is filled from the top of the window down. Its ring was allocated before. */
static void count_filled(uint32_t window, size_t length) {
    mold_listener listener = listener_at(1, window);
    size_t before = held;
    CHECK(before <= ring_bytes(window) + small);
    most = held;
    for (uint32_t number = window; number > 1; number--)
        store_one(&listener, number, length);
    print_store("filled", length, (window - 1) * length, held - before, most - before);
    mold_free(&listener);
    CHECK(held == 0);
}

/* A store that advances while every second message is missing. It always has half of the window. */
static void count_advancing(uint32_t window, size_t length) {
    mold_listener listener = listener_at(1, window);
    size_t before = held, taken = 0;
    most = held;
    for (size_t number = 2; number <= window; number += 2)
        store_one(&listener, number, length);
    for (size_t number = 1; number < 8 * (size_t)window; number += 2) {
        store_one(&listener, number, length);
        store_one(&listener, number + 1 + window, length);
        taken = held > taken ? held : taken;
    }
    print_store("advancing", length, window / 2 * length, taken - before, most - before);
    mold_free(&listener);
    CHECK(held == 0);
}

/* A store with room for a megabyte, which many more messages above a gap would fill: it takes at most twice as much, and
 * 262,144 bytes. */
static void count_bounded(void) {
    mold_listener listener = MOLD_EMPTY;
    CODE(mold_listener_bounded(&listener, session, 1, 1024, 1000000), MOLD_DONE);
    size_t before = held;
    most = held;
    for (uint64_t number = 2; number < 1000; number++)
        store_one(&listener, number, 60000);
    CHECK(held - before > 900000 && most - before <= 2000000 + 262144 + small);
    mold_free(&listener);
    CHECK(held == 0);
}

int main(int count, char **words) {
    static const size_t lengths[] = {8, 40, 1400};
    size_t *const figures[] = {&batch_message, &publisher_message, &server_message, &checker_message,
                               &checker_run,   &missing_range,     &small};
    if (count != 8)
        return 3;
    for (int i = 0; i < 7; i++)
        *figures[i] = strtoul(words[i + 1], NULL, 10);
    for (size_t i = 0; i < 3; i++) {
        size_t length = lengths[i];
        uint16_t at_once[] = {1, (uint16_t)(length < 1400 ? 1380 / (length + 2) : 10)};
        for (size_t k = 0; k < 2; k++) {
            count_batch(length, at_once[k]);
            count_publisher(length, k == 1);
            count_checker(length, at_once[k], false);
            count_checker(length, at_once[k], true);
        }
        count_server(length);
        count_resumed(length);
    }
    count_repairer();
    count_ranges();
    count_filled(1024, 1400);
    count_advancing(1024, 1400);
    count_filled(65536, 100);
    count_advancing(65536, 100);
    count_bounded();
    return report_checks();
}
