/* Passes datagrams in order, each with one message of 40 bytes, to mold_listener_hear, so that tests/library can count the
 * instructions of a call. The argument is the number of datagrams. */
#include "../mold.h"

#include <stdlib.h>
#include <string.h>

int main(int count, char **words) {
    uint64_t last = count == 2 ? strtoull(words[1], NULL, 10) : 0;
    uint8_t datagram[62] = "SESSION001";
    mold_listener listener = MOLD_EMPTY;
    mold_delivery delivery;
    memset(datagram + 10, 0, sizeof datagram - 10);
    datagram[19] = 1;  /* the number of messages */
    datagram[21] = 40; /* the length of the message */
    if (mold_listener_new(&listener, datagram, 1, 1024) != MOLD_DONE)
        return 1;
    for (uint64_t number = 1; number <= last; number++) {
        for (int i = 0; i < 8; i++)
            datagram[17 - i] = (uint8_t)(number >> 8 * i);
        if (mold_listener_hear(&listener, MOLD_LINE_A, datagram, sizeof datagram, &delivery) != MOLD_DONE)
            return 1;
        if (delivery.own != 1)
            return 1;
    }
    mold_free(&listener);
    return last > 0 ? 0 : 1;
}
