/* An exchange: the publisher of a live session and its re-request server, in one process.
 *
 *     cc -O2 -I library library/examples/exchange.c library/out/libmold.a -o exchange
 *     ./exchange --session DEMO --a 239.192.1.1:26477 --b 239.192.1.2:26477 --bind 0.0.0.0:26400 --journal day.journal
 *
 * It reads messages as lines of hexadecimal digits from standard input, as `mold publish` does, and sends them at once
 * on both lines. Messages that were read together share datagrams, as far as they fit. After each second without a
 * datagram it sends a heartbeat. It responds to requests at any time. At the end of the input it closes the session.
 * Then it sends four end packets a second, until no request has arrived for the time of --linger. `./exchange --help`
 * lists the options and their defaults.
 *
 * With --journal, messages are durable in a journal file before they are sent. If the file exists, the program
 * continues its session: the input has the messages that follow. So the program may be killed at any moment, and
 * started again with the rest of the input. `mold dump --journal FILE` prints the messages that the file has.
 *
 * The last line is `published MESSAGES datagrams D requests R failed F`. D counts data packets, R the requests that got
 * a response, and F the sends and receives that failed. A refused input line is reported on standard error, and the
 * session goes on. The status is 0, or 2 if an input line was refused, or 3 after any other error. */
#include "journal.h"
#include "udp.h"

static const char usage[] =
    "usage: exchange --session SESSION --a ADDRESS --b ADDRESS --bind ADDRESS [OPTION VALUE]..\n"
    "\n"
    "Publishes lines of hexadecimal digits as messages, and responds to requests.\n"
    "\n"
    "  --session SESSION    the session, 1 to 10 characters\n"
    "  --a ADDRESS          the address of line A, such as 239.192.1.1:26477\n"
    "  --b ADDRESS          the address of line B\n"
    "  --bind ADDRESS       the address at which requests arrive\n"
    "  --journal FILE       the file that keeps the messages, and is continued if it exists (none)\n"
    "  --limit L            the limit of a datagram, in bytes (1400)\n"
    "  --burst B            the greatest number of responses to a request (4)\n"
    "  --linger MS          after the end of the input, the time without a request after which it ends (2000)\n"
    "  --interface ADDRESS  the interface on which it sends to multicast groups (chosen by the system)\n"
    "  --help               print this text\n";

enum { INPUT = 1 << 16, LONGEST = 1 << 18 };

struct options {
    uint8_t session[10];
    struct sockaddr_in lines[2], bind;
    const char *interface, *journal;
    size_t limit;
    uint16_t burst;
    uint64_t linger;
};

struct exchange {
    struct options options;
    mold_publisher publisher;
    /* Without --journal it has no name. */
    struct journal journal;
    /* The sockets that send datagrams and receive requests. */
    int out, requests;
    uint64_t messages, datagrams, responded, failed, line;
    bool ended, refused;
    uint64_t last_sent, last_asked;
};

/* The datagram to send, and the part of an input line that was read so far. */
static uint8_t datagram[GREATEST];
static char line[LONGEST];
static size_t line_length;

static void read_option(struct options *read, const char *name, const char *value) {
    if (strcmp(name, "--session") == 0)
        session_of(value, read->session);
    else if (strcmp(name, "--a") == 0)
        read->lines[0] = address_of(value);
    else if (strcmp(name, "--b") == 0)
        read->lines[1] = address_of(value);
    else if (strcmp(name, "--bind") == 0)
        read->bind = address_of(value);
    else if (strcmp(name, "--interface") == 0)
        read->interface = value;
    else if (strcmp(name, "--journal") == 0)
        read->journal = value;
    else if (strcmp(name, "--limit") == 0)
        read->limit = (size_t)number_of(value, 64, GREATEST);
    else if (strcmp(name, "--burst") == 0)
        read->burst = (uint16_t)number_of(value, 1, 64);
    else if (strcmp(name, "--linger") == 0)
        read->linger = number_of(value, 0, 86400000) * MILLISECONDS;
    else
        fail_usage(usage, name, "no such option");
}

static struct options options_of(int count, char **words) {
    struct options read;
    memset(&read, 0, sizeof read);
    read.limit = 1400;
    read.burst = 4;
    read.linger = 2000 * MILLISECONDS;
    for (int i = 1; i < count; i++) {
        const char *name = words[i];
        read_option(&read, name, value_of(usage, count, words, &i));
    }
    if (read.session[0] == 0 || read.lines[0].sin_family == 0 || read.lines[1].sin_family == 0 ||
        read.bind.sin_family == 0)
        fail_usage(usage, "exchange", "a required option is missing");
    return read;
}

/* Makes the publisher: of a new session, or of the journal file if it exists. */
static void open_publisher(struct exchange *exchange) {
    const struct options *options = &exchange->options;
    struct journal *journal = &exchange->journal;
    if (options->journal != NULL && open_journal(journal, options->journal)) {
        exchange->ended = resume_journal(journal, &exchange->publisher, options->session, options->limit);
        exchange->messages = journal->messages;
        return;
    }
    need("publisher", mold_publisher_new(&exchange->publisher, options->session, options->limit));
    if (options->journal != NULL)
        create_journal(journal, options->journal, &exchange->publisher);
}

/* ---- Sending ---- */

static void send_to(struct exchange *exchange, int from, size_t size, const struct sockaddr_in *to) {
    if (sendto(from, datagram, size, 0, (const struct sockaddr *)to, sizeof *to) != (ssize_t)size)
        exchange->failed++;
}

/* Sends a datagram on both lines. */
static void send_on_lines(struct exchange *exchange, size_t size) {
    send_to(exchange, exchange->out, size, &exchange->options.lines[0]);
    send_to(exchange, exchange->out, size, &exchange->options.lines[1]);
    exchange->last_sent = now();
}

/* Sends all unsent messages, which are durable. */
static void send_messages(struct exchange *exchange) {
    size_t size = 0;
    while (mold_publisher_datagram(&exchange->publisher, datagram, sizeof datagram, &size) == MOLD_DONE) {
        send_on_lines(exchange, size);
        exchange->datagrams++;
    }
}

/* Sends a heartbeat, or an end packet if the session is closed. */
static void send_heartbeat(struct exchange *exchange) {
    size_t size = 0;
    if (exchange->ended)
        need("end", mold_publisher_end(&exchange->publisher, datagram, sizeof datagram, &size));
    else
        need("heartbeat", mold_publisher_heartbeat(&exchange->publisher, datagram, sizeof datagram, &size));
    send_on_lines(exchange, size);
}

/* ---- Input ---- */

static int digit_of(char text) {
    if (text >= '0' && text <= '9')
        return text - '0';
    text |= 0x20;
    return text >= 'a' && text <= 'f' ? text - 'a' + 10 : -1;
}

/* Decodes the digits of a line. Returns false if the line is not an even number of hexadecimal digits. */
static bool unhex(uint8_t *bytes) {
    for (size_t i = 0; i + 1 < line_length; i += 2) {
        int high = digit_of(line[i]), low = digit_of(line[i + 1]);
        if (high < 0 || low < 0)
            return false;
        bytes[i / 2] = (uint8_t)(high << 4 | low);
    }
    return line_length % 2 == 0;
}

/* Publishes a complete line. */
static void publish_line(struct exchange *exchange) {
    static uint8_t message[LONGEST / 2];
    uint64_t number = 0;
    exchange->line++;
    bool is_hex = line_length < LONGEST && unhex(message);
    size_t length = line_length / 2;
    line_length = 0;
    if (!is_hex) {
        exchange->refused = true;
        fprintf(stderr, "refused line %llu NotHex\n", (unsigned long long)exchange->line);
        return;
    }
    uint32_t code = mold_publisher_publish(&exchange->publisher, message, length, &number);
    if (code == MOLD_E_MEMORY)
        need("publish", code);
    if (code != MOLD_DONE) {
        exchange->refused = true;
        fprintf(stderr, "refused line %llu", (unsigned long long)exchange->line);
        print_refusal(stderr, code, number);
        return;
    }
    exchange->messages = number;
}

/* Publishes what was read from standard input. At the end of the input it closes the session. */
static void read_input(struct exchange *exchange) {
    static char input[INPUT];
    uint64_t unsent = 0;
    ssize_t came = read(STDIN_FILENO, input, sizeof input);
    if (came < 0 && (errno == EINTR || errno == EAGAIN))
        return;
    if (came < 0)
        fail("standard input", strerror(errno));
    for (ssize_t i = 0; i < came; i++) {
        if (input[i] == '\n')
            publish_line(exchange);
        else if (line_length < LONGEST)
            line[line_length++] = input[i];
    }
    if (came == 0 && line_length > 0)
        publish_line(exchange);
    if (exchange->messages > exchange->journal.messages)
        commit(&exchange->journal, &exchange->publisher, exchange->messages);
    send_messages(exchange);
    if (came == 0) {
        need("close", mold_publisher_close(&exchange->publisher, &unsent));
        commit(&exchange->journal, &exchange->publisher, exchange->messages);
        exchange->ended = true;
        exchange->last_asked = now();
        send_heartbeat(exchange);
    }
}

/* ---- Requests ---- */

/* Responds to the requests that have arrived. A refused request gets no response. */
static void respond(struct exchange *exchange) {
    mold_server *server = mold_server_of(&exchange->publisher);
    struct sockaddr_in from;
    socklen_t length = sizeof from;
    uint8_t request[64];
    mold_plan plan;
    uint64_t number = 0;
    size_t size = 0;
    ssize_t came;
    while ((came = recvfrom(exchange->requests, request, sizeof request, MSG_TRUNC, (struct sockaddr *)&from,
                            &length)) >= 0) {
        exchange->last_asked = now();
        size_t had = (size_t)came > sizeof request ? sizeof request : (size_t)came;
        if (mold_server_plan(server, request, had, &plan, &number) == MOLD_DONE) {
            exchange->responded++;
            while (mold_server_datagram(server, &plan, datagram, sizeof datagram, &size) == MOLD_DONE)
                send_to(exchange, exchange->requests, size, &from);
        }
        length = sizeof from;
    }
    if (errno != EAGAIN && errno != EINTR)
        exchange->failed++;
}

/* ---- The loop ---- */

/* When the next heartbeat or end packet is due. */
static uint64_t due(const struct exchange *exchange) {
    return exchange->last_sent + (exchange->ended ? 250 : 1000) * MILLISECONDS;
}

static bool goes_on(const struct exchange *exchange) {
    return !exchange->ended || now() < exchange->last_asked + exchange->options.linger;
}

static void turn(struct exchange *exchange) {
    struct pollfd ready[2] = {{exchange->requests, POLLIN, 0}, {exchange->ended ? -1 : STDIN_FILENO, POLLIN, 0}};
    wait_until(due(exchange), ready, 2);
    if (ready[0].revents != 0)
        respond(exchange);
    if (ready[1].revents != 0)
        read_input(exchange);
    if (now() >= due(exchange))
        send_heartbeat(exchange);
}

static void open_exchange(struct exchange *exchange) {
    struct in_addr interface;
    open_publisher(exchange);
    need("server", mold_server_from_publisher(&exchange->publisher, exchange->options.burst));
    exchange->out = open_socket();
    exchange->requests = open_line(&exchange->options.bind, "0.0.0.0");
    if (exchange->options.interface != NULL) {
        if (inet_pton(AF_INET, exchange->options.interface, &interface) != 1)
            fail(exchange->options.interface, "not an address of an interface");
        if (setsockopt(exchange->out, IPPROTO_IP, IP_MULTICAST_IF, &interface, sizeof interface) != 0)
            fail("IP_MULTICAST_IF", strerror(errno));
    }
    exchange->last_sent = exchange->last_asked = now();
}

int main(int count, char **words) {
    static struct exchange exchange;
    exchange.options = options_of(count, words);
    open_exchange(&exchange);
    while (goes_on(&exchange))
        turn(&exchange);
    printf("published %llu datagrams %llu requests %llu failed %llu\n", (unsigned long long)exchange.messages,
           (unsigned long long)exchange.datagrams, (unsigned long long)exchange.responded,
           (unsigned long long)exchange.failed);
    close_journal(&exchange.journal);
    close(exchange.out);
    close(exchange.requests);
    mold_free(&exchange.publisher);
    return fflush(stdout) != 0 ? 3 : exchange.refused ? 2 : 0;
}
