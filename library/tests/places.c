/* Lets a repairer send a request for each of many single messages, and then take responses that bring nothing, so that
 * tests/library can count the instructions of a call. The argument is the number of requests in flight. */
#include "../mold.h"

#include <stdlib.h>
#include <string.h>

/* A time at which all numbers are ripe. */
#define LATE ((uint64_t)1 << 40)

static void set_number(uint8_t *datagram, uint64_t number) {
    for (int i = 0; i < 8; i++)
        datagram[17 - i] = (uint8_t)(number >> 8 * i);
}

/* Takes the messages with the even numbers up to twice `count`. */
static int take_each(mold_repairer *repairer, uint64_t now, uint32_t origin, uint64_t count) {
    uint8_t datagram[22] = "SESSION001";
    mold_taken taken;
    memset(datagram + 10, 0, sizeof datagram - 10);
    datagram[19] = 1; /* the number of messages */
    for (uint64_t i = 1; i <= count; i++) {
        set_number(datagram, 2 * i);
        if (mold_repairer_take(repairer, now, origin, datagram, sizeof datagram, &taken) != MOLD_DONE)
            return 1;
    }
    return 0;
}

/* Sends a request for each of the missing messages. */
__attribute__((noinline)) int send_each(mold_repairer *repairer, uint64_t count) {
    uint8_t request[20];
    uint32_t server;
    for (uint64_t i = 0; i < count; i++)
        if (mold_repairer_poll(repairer, LATE, request, &server) != MOLD_DONE)
            return 1;
    return 0;
}

/* Takes responses with messages that came before. */
__attribute__((noinline)) int respond_each(mold_repairer *repairer, uint64_t count) {
    return take_each(repairer, LATE, MOLD_SERVER(0), count);
}

/* Polls when no request may be sent. */
__attribute__((noinline)) int poll_each(mold_repairer *repairer, uint64_t count) {
    uint8_t request[20];
    uint32_t server;
    for (uint64_t i = 0; i < count; i++)
        if (mold_repairer_poll(repairer, LATE, request, &server) != MOLD_E_ABSENT)
            return 1;
    return 0;
}

int main(int count, char **words) {
    uint64_t places = count == 2 ? strtoull(words[1], NULL, 10) : 0;
    uint64_t deadline;
    mold_repair_options options;
    mold_repairer repairer = MOLD_EMPTY;
    mold_repair_options_default(&options);
    options.timeout = options.ceiling = LATE;
    options.interval = 0;
    options.places = (uint32_t)places;
    if (mold_repairer_new(&repairer, (const uint8_t *)"SESSION001", &options) != MOLD_DONE)
        return 1;
    if (take_each(&repairer, 0, MOLD_LINE_A, places + 1))
        return 1;
    /* Two calls that are a patience apart make the missing numbers ripe. */
    (void)mold_repairer_deadline(&repairer, LATE - 1000000000, &deadline);
    (void)mold_repairer_deadline(&repairer, LATE, &deadline);
    if (send_each(&repairer, places) || respond_each(&repairer, places) || poll_each(&repairer, places))
        return 1;
    mold_free(&repairer);
    return 0;
}
