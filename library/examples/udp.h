/* Functions that the examples share: options, refusals, addresses, UDP sockets, time, and bytes as hexadecimal digits.
 */
#ifndef UDP_H
#define UDP_H

#ifndef _GNU_SOURCE
#define _GNU_SOURCE
#endif

#include <mold.h>

#include <arpa/inet.h>
#include <errno.h>
#include <fcntl.h>
#include <netinet/in.h>
#include <poll.h>
#include <stdio.h>
#include <stdlib.h>
#include <string.h>
#include <sys/socket.h>
#include <time.h>
#include <unistd.h>

/* The greatest length of a datagram over IPv4. */
#define GREATEST 65507

/* Ends the program after an error. The system closes what is open. */
static inline void fail(const char *what, const char *why) {
    fprintf(stderr, "%s: %s\n", what, why);
    exit(3);
}

/* Ends the program if a call of the library did not succeed. */
static inline void need(const char *what, uint32_t code) {
    if (code != MOLD_DONE) {
        fprintf(stderr, "%s: %s\n", what, mold_code_text(code));
        exit(3);
    }
}

/* Ends the program if an argument is wrong. Prints the reason and the usage. */
static inline void fail_usage(const char *usage, const char *what, const char *why) {
    fprintf(stderr, "%s: %s\n%s", what, why, usage);
    exit(3);
}

/* Whether the usage has a line for an option: two spaces, the option, and a space. */
static inline bool is_listed(const char *usage, const char *name) {
    char line[32];
    int length = snprintf(line, sizeof line, "\n  %s ", name);
    return length > 0 && (size_t)length < sizeof line && strstr(usage, line) != NULL;
}

/* The value of the option at words[*at], which is the next argument. If the option is --help, prints the usage and ends
 * the program. */
static inline const char *value_of(const char *usage, int count, char **words, int *at) {
    const char *name = words[*at];
    if (strcmp(name, "--help") == 0) {
        fputs(usage, stdout);
        exit(fflush(stdout) == 0 ? 0 : 3);
    }
    if (!is_listed(usage, name))
        fail_usage(usage, name, "no such option");
    if (*at + 1 >= count)
        fail_usage(usage, name, "the option has no value");
    return words[++*at];
}

/* Prints the text of a code, and the number that goes with it, if there is one, at the end of a line. */
static inline void print_refusal(FILE *to, uint32_t code, uint64_t number) {
    bool has_number = code == MOLD_E_SHORT || code == MOLD_E_BLOCK_CUT || code == MOLD_E_TRAILING ||
                      code == MOLD_E_END_CONFLICT || code == MOLD_E_END_BELOW || code == MOLD_E_PAST_END ||
                      code == MOLD_E_CONFLICT || code == MOLD_E_TOO_LONG;
    fprintf(to, " %s", mold_code_text(code));
    if (has_number)
        fprintf(to, " %llu", (unsigned long long)number);
    fputc('\n', to);
}

/* A decimal number from least to most. */
static inline uint64_t number_of(const char *text, uint64_t least, uint64_t most) {
    char *end = NULL;
    errno = 0;
    unsigned long long number = strtoull(text, &end, 10);
    if (*text < '0' || *text > '9' || *end != 0 || errno != 0 || number < least || number > most)
        fail(text, "not a valid number");
    return number;
}

/* A session of 1 to 10 characters, padded with spaces. */
static inline void session_of(const char *text, uint8_t session[10]) {
    size_t length = strlen(text);
    if (length < 1 || length > 10)
        fail(text, "a session has 1 to 10 characters");
    memset(session, ' ', 10);
    memcpy(session, text, length);
}

/* An IPv4 address and a port, such as 127.0.0.1:9000. */
static inline struct sockaddr_in address_of(const char *text) {
    struct sockaddr_in address;
    char host[INET_ADDRSTRLEN] = {0};
    const char *colon = strchr(text, ':');
    memset(&address, 0, sizeof address);
    address.sin_family = AF_INET;
    if (colon == NULL || (size_t)(colon - text) >= sizeof host)
        fail(text, "no address such as 127.0.0.1:9000");
    memcpy(host, text, (size_t)(colon - text));
    if (inet_pton(AF_INET, host, &address.sin_addr) != 1)
        fail(text, "no address such as 127.0.0.1:9000");
    address.sin_port = htons((uint16_t)number_of(colon + 1, 0, 65535));
    return address;
}

static inline bool is_group(const struct sockaddr_in *address) {
    return IN_MULTICAST(ntohl(address->sin_addr.s_addr));
}

/* Opens a nonblocking socket with a large receive buffer. */
static inline int open_socket(void) {
    int made = socket(AF_INET, SOCK_DGRAM | SOCK_NONBLOCK | SOCK_CLOEXEC, 0);
    int room = 4 << 20;
    if (made < 0)
        fail("socket", strerror(errno));
    /* The system may grant less. */
    (void)setsockopt(made, SOL_SOCKET, SO_RCVBUF, &room, sizeof room);
    return made;
}

/* Opens a socket that receives at an address. If the address is a multicast group, joins it on the interface. */
static inline int open_line(const struct sockaddr_in *address, const char *interface) {
    int made = open_socket(), yes = 1;
    struct ip_mreq member;
    memset(&member, 0, sizeof member);
    member.imr_multiaddr = address->sin_addr;
    if (inet_pton(AF_INET, interface, &member.imr_interface) != 1)
        fail(interface, "not an address of an interface");
    if (is_group(address) && setsockopt(made, SOL_SOCKET, SO_REUSEADDR, &yes, sizeof yes) != 0)
        fail("SO_REUSEADDR", strerror(errno));
    if (bind(made, (const struct sockaddr *)address, sizeof *address) != 0)
        fail("bind", strerror(errno));
    if (is_group(address) && setsockopt(made, IPPROTO_IP, IP_ADD_MEMBERSHIP, &member, sizeof member) != 0)
        fail("IP_ADD_MEMBERSHIP", strerror(errno));
    return made;
}

#define MILLISECONDS UINT64_C(1000000)

/* The time in nanoseconds, by a clock that is never set. */
static inline uint64_t now(void) {
    struct timespec time;
    if (clock_gettime(CLOCK_MONOTONIC, &time) != 0)
        fail("clock_gettime", strerror(errno));
    return (uint64_t)time.tv_sec * 1000000000 + (uint64_t)time.tv_nsec;
}

/* Waits until something can be read, or until this time. */
static inline void wait_until(uint64_t time, struct pollfd *from, nfds_t count) {
    uint64_t present = now(), left = time > present ? time - present : 0;
    struct timespec span = {(time_t)(left / 1000000000), (long)(left % 1000000000)};
    if (ppoll(from, count, &span, NULL) < 0 && errno != EINTR)
        fail("poll", strerror(errno));
}

/* Prints a line with the number of a message and its bytes as hexadecimal digits. An empty message is a hyphen. */
static inline void print_message(uint64_t number, mold_bytes message) {
    static const char digits[] = "0123456789abcdef";
    static char line[2 * GREATEST];
    for (size_t i = 0; i < message.length; i++) {
        line[2 * i] = digits[message.at[i] >> 4];
        line[2 * i + 1] = digits[message.at[i] & 15];
    }
    printf("%llu ", (unsigned long long)number);
    if (message.length == 0)
        putchar('-');
    else
        fwrite(line, 1, 2 * message.length, stdout);
    putchar('\n');
}

#endif
