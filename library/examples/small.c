/* A minimal feed handler. The two lines and the server are at ports of this machine. For each message it prints the
 * sequence number and the length.
 *
 *     cc -O2 -I library library/examples/small.c library/out/libmold.a -o small
 *     ./small "DEMO      " 26477 26478 26400
 *
 * The status is 0 if it printed the whole session, and 3 after an error. */
#define _POSIX_C_SOURCE 200809L

#include <arpa/inet.h>
#include <mold.h>
#include <poll.h>
#include <stdio.h>
#include <stdlib.h>
#include <string.h>
#include <time.h>

/* Prints how to run the program, and returns its status. */
static int usage(FILE *to, int status) {
    fprintf(to, "usage: small SESSION PORT_A PORT_B SERVER_PORT\n"
                "\n"
                "Prints the number and the length of each message. SESSION has 10 characters.\n");
    return status;
}

/* Opens a socket, and sets *address to a port of this machine. */
static int socket_at(const char *port, struct sockaddr_in *address) {
    int made = socket(AF_INET, SOCK_DGRAM, 0);
    memset(address, 0, sizeof *address);
    address->sin_family = AF_INET;
    address->sin_addr.s_addr = htonl(INADDR_LOOPBACK);
    address->sin_port = htons((uint16_t)atoi(port));
    return made;
}

/* Opens a socket that receives at a port of this machine. */
static int listening_at(const char *port) {
    struct sockaddr_in address;
    int made = socket_at(port, &address);
    return bind(made, (struct sockaddr *)&address, sizeof address) == 0 ? made : -1;
}

/* The time in nanoseconds, by a clock that is never set. */
static uint64_t now(void) {
    struct timespec time;
    clock_gettime(CLOCK_MONOTONIC, &time);
    return (uint64_t)time.tv_sec * 1000000000 + (uint64_t)time.tv_nsec;
}

/* The milliseconds until the repairer's deadline, at most a second. */
static int until_deadline(mold_repairer *repairer) {
    uint64_t time = now(), deadline;
    if (mold_repairer_deadline(repairer, time, &deadline) != MOLD_DONE || deadline > time + 1000000000)
        return 1000;
    return deadline > time ? (int)((deadline - time) / 1000000) + 1 : 0;
}

int main(int count, char **words) {
    static uint8_t room[65507], request[20];
    mold_repairer repairer = MOLD_EMPTY;
    mold_listener *listener = mold_listener_of(&repairer);
    mold_repair_options options;
    mold_taken taken;
    struct sockaddr_in server;
    if (count != 5 || strlen(words[1]) != 10)
        return count == 2 && strcmp(words[1], "--help") == 0 ? usage(stdout, 0) : usage(stderr, 3);
    struct pollfd from[3] = {{listening_at(words[2]), POLLIN, 0}, {listening_at(words[3]), POLLIN, 0},
                             {socket_at(words[4], &server), POLLIN, 0}};
    mold_repair_options_default(&options);
    if (mold_repairer_new(&repairer, (const uint8_t *)words[1], &options) != MOLD_DONE)
        return 3;
    while (!mold_listener_finished(listener)) {
        poll(from, 3, until_deadline(&repairer));
        for (uint32_t origin = MOLD_LINE_A; origin <= MOLD_SERVER(0); origin++) {
            ssize_t length = (from[origin].revents & POLLIN) ? recv(from[origin].fd, room, sizeof room, 0) : -1;
            if (length >= 0 && mold_repairer_take(&repairer, now(), origin, room, (size_t)length, &taken) != MOLD_DONE)
                fprintf(stderr, "a datagram is refused\n");
        }
        for (size_t i = 0; i < mold_listener_count(listener); i++) {
            mold_bytes message;
            if (mold_listener_message(listener, i, &message) == MOLD_DONE)
                printf("%llu %zu\n", (unsigned long long)mold_listener_first(listener) + i, message.length);
        }
        mold_listener_clear(listener);
        for (uint32_t k; mold_repairer_poll(&repairer, now(), request, &k) == MOLD_DONE;)
            sendto(from[MOLD_SERVER(k)].fd, request, sizeof request, 0, (struct sockaddr *)&server, sizeof server);
    }
    mold_free(&repairer);
    return 0;
}
