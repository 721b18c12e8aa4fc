/* A feed handler. It receives the two lines of a feed, and requests from re-request servers the messages that both
 * lost. It prints the messages in order, one on each line of text, as `mold receive` does.
 *
 *     cc -O2 -I library library/examples/handler.c library/out/libmold.a -o handler
 *     ./handler --session DEMO --a 239.192.1.1:26477 --b 239.192.1.2:26477 --interface 10.0.0.7 --server 10.0.0.9:26400
 *
 * If the address of a line is a multicast group, the handler joins it on the interface. Without --server it requests
 * nothing. `./handler --help` lists the options and their defaults.
 *
 * A line `lost FIRST LAST` is printed for messages that are given up. At the end the handler prints what each line
 * brought, and its requests. It reports refused datagrams on standard error. The status is 0 if it delivered the whole
 * session, 1 if messages are missing, and 3 after an error. */
#include "udp.h"

static const char usage[] =
    "usage: handler --session SESSION --a ADDRESS --b ADDRESS [OPTION VALUE]..\n"
    "\n"
    "Prints the messages of a feed that arrives on two lines.\n"
    "\n"
    "  --session SESSION    the session, 1 to 10 characters\n"
    "  --a ADDRESS          the address of line A, such as 239.192.1.1:26477\n"
    "  --b ADDRESS          the address of line B\n"
    "  --server ADDRESS     the address of a re-request server; up to 8 may be given (the handler requests nothing)\n"
    "  --interface ADDRESS  the interface on which the handler joins multicast groups (chosen by the system)\n"
    "  --next N             the sequence number of the first message (1)\n"
    "  --window W           the window of the handler, in messages (65536)\n"
    "  --patience MS        the wait before a missing message is requested (adapts to the delays between the lines)\n"
    "  --timeout MS         the wait before it is requested again, which doubles each time (50)\n"
    "  --ceiling MS         the longest of these waits (1000)\n"
    "  --give-up N          a message is given up after N requests without a response (never)\n"
    "  --quiet MS           the handler ends after this time without a datagram (10000)\n"
    "  --help               print this text\n";

/* The greatest number of servers, and of datagrams of one system call. */
enum { SERVERS = 8, AT_ONCE = 32 };

struct handler {
    uint8_t session[10];
    struct sockaddr_in lines[2], servers[SERVERS];
    const char *interface;
    mold_repair_options options;
    mold_repairer repairer;
    /* The sockets, by origin: line A, line B, and one for the responses of each server. */
    struct pollfd from[MOLD_SERVER(SERVERS)];
    uint64_t quiet, last_came, failed;
};

static void read_option(struct handler *handler, const char *name, const char *value) {
    if (strcmp(name, "--session") == 0)
        session_of(value, handler->session);
    else if (strcmp(name, "--a") == 0)
        handler->lines[MOLD_LINE_A] = address_of(value);
    else if (strcmp(name, "--b") == 0)
        handler->lines[MOLD_LINE_B] = address_of(value);
    else if (strcmp(name, "--server") == 0 && handler->options.servers < SERVERS)
        handler->servers[handler->options.servers++] = address_of(value);
    else if (strcmp(name, "--interface") == 0)
        handler->interface = value;
    else if (strcmp(name, "--next") == 0)
        handler->options.next = number_of(value, 1, UINT64_MAX);
    else if (strcmp(name, "--window") == 0)
        handler->options.window = (uint32_t)number_of(value, 1, 1048576);
    else if (strcmp(name, "--patience") == 0)
        handler->options.patience = number_of(value, 0, 1000) * MILLISECONDS;
    else if (strcmp(name, "--timeout") == 0)
        handler->options.timeout = number_of(value, 1, 60000) * MILLISECONDS;
    else if (strcmp(name, "--ceiling") == 0)
        handler->options.ceiling = number_of(value, 1, 60000) * MILLISECONDS;
    else if (strcmp(name, "--give-up") == 0)
        handler->options.give_up = (uint32_t)number_of(value, 0, 1000);
    else if (strcmp(name, "--quiet") == 0)
        handler->quiet = number_of(value, 1, 86400000) * MILLISECONDS;
    else
        fail_usage(usage, name, "the option may not be given so often");
}

static void open_handler(struct handler *handler, int count, char **words) {
    mold_repair_options_default(&handler->options);
    handler->options.servers = 0;
    handler->interface = "0.0.0.0";
    handler->quiet = 10000 * MILLISECONDS;
    for (int i = 1; i < count; i++) {
        const char *name = words[i];
        read_option(handler, name, value_of(usage, count, words, &i));
    }
    if (handler->session[0] == 0 || handler->lines[0].sin_family == 0 || handler->lines[1].sin_family == 0)
        fail_usage(usage, "handler", "a required option is missing");
    need("repairer", mold_repairer_new(&handler->repairer, handler->session, &handler->options));
    for (uint32_t origin = 0; origin < MOLD_SERVER(handler->options.servers); origin++) {
        handler->from[origin].fd =
            origin < MOLD_ANSWER ? open_line(&handler->lines[origin], handler->interface) : open_socket();
        handler->from[origin].events = POLLIN;
    }
    handler->last_came = now();
}

/* Prints the messages of the batch, and clears it. */
static void print_batch(struct handler *handler) {
    mold_listener *listener = mold_listener_of(&handler->repairer);
    uint64_t first = mold_listener_first(listener);
    mold_bytes message;
    for (size_t i = 0; mold_listener_message(listener, i, &message) == MOLD_DONE; i++)
        print_message(first + i, message);
    need("clear", mold_listener_clear(listener));
}

/* Takes datagrams of a line or of a server with one system call, and prints what they deliver. If an allocation fails,
 * the datagram is lost, like one that never came. */
static void take(struct handler *handler, uint32_t origin) {
    static uint8_t room[AT_ONCE][GREATEST];
    struct mmsghdr heads[AT_ONCE];
    struct iovec buffers[AT_ONCE];
    mold_taken taken;
    memset(heads, 0, sizeof heads);
    for (int i = 0; i < AT_ONCE; i++) {
        buffers[i] = (struct iovec){room[i], GREATEST};
        heads[i].msg_hdr.msg_iov = &buffers[i];
        heads[i].msg_hdr.msg_iovlen = 1;
    }
    int came = recvmmsg(handler->from[origin].fd, heads, AT_ONCE, 0, NULL);
    uint64_t time = now();
    if (came > 0)
        handler->last_came = time;
    else if (errno != EAGAIN && errno != EINTR)
        handler->failed++;
    for (int i = 0; i < came; i++) {
        uint32_t code = mold_repairer_take(&handler->repairer, time, origin, room[i], heads[i].msg_len, &taken);
        if (code != MOLD_DONE) {
            fprintf(stderr, origin < MOLD_ANSWER ? "refused %c" : "refused server", "ab"[origin & 1]);
            print_refusal(stderr, code, taken.detail);
        }
    }
    print_batch(handler);
}

/* Gives up messages and sends requests, as far as that is due. */
static void repair(struct handler *handler) {
    uint64_t time = now();
    uint8_t request[20];
    uint32_t server;
    mold_range lost;
    while (mold_repairer_lost(&handler->repairer, time, &lost) == MOLD_DONE) {
        printf("lost %llu %llu\n", (unsigned long long)lost.first, (unsigned long long)lost.last);
        print_batch(handler);
    }
    while (mold_repairer_poll(&handler->repairer, time, request, &server) == MOLD_DONE)
        if (sendto(handler->from[MOLD_SERVER(server)].fd, request, sizeof request, 0,
                   (const struct sockaddr *)&handler->servers[server], sizeof handler->servers[server]) < 0)
            handler->failed++;
}

/* Waits for datagrams, until something is due or the handler has to end, and takes them. */
static void turn(struct handler *handler) {
    uint64_t until = handler->last_came + handler->quiet, deadline;
    uint32_t count = MOLD_SERVER(handler->options.servers);
    if (mold_repairer_deadline(&handler->repairer, now(), &deadline) == MOLD_DONE && deadline < until)
        until = deadline;
    wait_until(until, handler->from, count);
    for (uint32_t origin = 0; origin < count; origin++)
        if (handler->from[origin].revents != 0)
            take(handler, origin);
    repair(handler);
    fflush(stdout);
}

static void print_line(char name, const mold_line_stats *line) {
    printf("line %c datagrams %llu first %llu refused %llu late %llu us\n", name, (unsigned long long)line->datagrams,
           (unsigned long long)line->first, (unsigned long long)line->refused, (unsigned long long)line->late / 1000);
}

/* Prints the statistics and how the run ended, and returns the status. */
static int print_end(struct handler *handler) {
    mold_repair_stats stats;
    need("stats", mold_repairer_stats(&handler->repairer, &stats));
    bool finished = mold_listener_finished(mold_listener_of(&handler->repairer));
    print_line('a', &stats.a);
    print_line('b', &stats.b);
    printf("requests %llu responses %llu useless %llu\n", (unsigned long long)stats.requests,
           (unsigned long long)stats.answers, (unsigned long long)stats.useless);
    printf("%s next %llu", finished ? "finished" : "open", (unsigned long long)stats.next);
    if (!finished)
        printf(" known %llu", (unsigned long long)stats.known);
    printf(" lost %llu failed %llu\n", (unsigned long long)stats.lost, (unsigned long long)handler->failed);
    return finished && stats.lost == 0 ? 0 : 1;
}

int main(int count, char **words) {
    static struct handler handler;
    open_handler(&handler, count, words);
    while (!mold_listener_finished(mold_listener_of(&handler.repairer)) && now() < handler.last_came + handler.quiet)
        turn(&handler);
    int status = print_end(&handler);
    mold_free(&handler.repairer);
    return fflush(stdout) == 0 ? status : 3;
}
