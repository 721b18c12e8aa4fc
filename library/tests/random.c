/* Decodes random datagrams with the library and with an independent decoder, and compares the results. Some datagrams
 * are valid. Others are truncated, extended or changed, or are random bytes.
 *
 *     cd library/tests && cc -std=c99 -O2 random.c ../out/libmold.a -o random && ./random 1000000 1
 *
 * The arguments are the number of datagrams and the seed. */
#define CHECK_MAIN
#include "check.h"

enum { ROOM = 4096, PLACES = 512 };

static uint64_t state;

/* A random number below a bound. */
static uint64_t below(uint64_t bound) {
    state ^= state << 13;
    state ^= state >> 7;
    state ^= state << 17;
    return (state >> 11) % bound;
}

/* What the decoder in this file returns. */
typedef struct reading {
    uint32_t code;
    uint64_t detail;
    size_t count;
    size_t offsets[PLACES], lengths[PLACES];
} reading;

static uint64_t big_endian(const uint8_t *at, size_t bytes) {
    uint64_t number = 0;
    for (size_t i = 0; i < bytes; i++)
        number = number * 256 + at[i];
    return number;
}

static void refuse(reading *said, uint32_t code, uint64_t detail) {
    said->code = code;
    said->detail = detail;
}

/* Decodes a datagram by the rules of docs/PROTOCOL.md, without the library. */
static void read_apart(const uint8_t *bytes, size_t length, reading *said) {
    refuse(said, MOLD_DONE, 0);
    said->count = 0;
    if (length < 20) {
        refuse(said, MOLD_E_SHORT, length);
        return;
    }
    size_t stated = (size_t)big_endian(bytes + 18, 2), at = 20;
    if (stated == 65535)
        stated = 0;
    while (said->count < stated) {
        if (at + 2 > length || at + 2 + big_endian(bytes + at, 2) > length) {
            refuse(said, MOLD_E_BLOCK_CUT, said->count);
            return;
        }
        said->offsets[said->count] = at + 2;
        said->lengths[said->count] = (size_t)big_endian(bytes + at, 2);
        at += 2 + said->lengths[said->count++];
    }
    if (at < length)
        refuse(said, MOLD_E_TRAILING, at);
}

/* Writes a random datagram that encodes a packet, and returns its length. */
static size_t draw_packet(uint8_t *bytes) {
    size_t at = 20, count = below(3) == 0 ? 0 : (size_t)below(40);
    for (size_t i = 0; i < 20; i++)
        bytes[i] = (uint8_t)below(256);
    for (size_t i = 0; i < count; i++) {
        size_t length = below(4) == 0 ? 0 : (size_t)below(60);
        put_number(bytes + at, length, 2);
        for (size_t k = 0; k < length; k++)
            bytes[at + 2 + k] = (uint8_t)below(256);
        at += 2 + length;
    }
    put_number(bytes + 18, count == 0 && below(2) == 0 ? 65535 : count, 2);
    return at;
}

/* Writes a random datagram, and returns its length. One in six is valid. The others are truncated, extended, changed or
 * random, so most of them do not encode a packet. */
static size_t draw(uint8_t *bytes) {
    size_t length = draw_packet(bytes);
    switch (below(6)) {
    case 0:
        return length;
    case 1:
        return (size_t)below(length + 1);
    case 2:
        for (size_t more = (size_t)below(9); more > 0; more--)
            bytes[length++] = (uint8_t)below(256);
        return length;
    case 3:
        bytes[18 + below(2)] = (uint8_t)below(48);
        return length;
    case 4:
        for (size_t times = (size_t)below(4); times > 0; times--)
            bytes[below(length)] = (uint8_t)below(below(2) == 0 ? 4 : 256);
        return length;
    default:
        for (size_t i = 0; i < 48; i++)
            bytes[i] = (uint8_t)below(below(2) == 0 ? 4 : 256);
        return (size_t)below(48);
    }
}

static bool is_same_header(const mold_packet *packet, const uint8_t *bytes, size_t count) {
    uint64_t stated = big_endian(bytes + 18, 2);
    uint32_t kind = stated == 0 ? MOLD_HEARTBEAT : stated == 65535 ? MOLD_END : MOLD_DATA;
    return packet->sequence == big_endian(bytes + 10, 8) && packet->kind == kind && packet->count == count &&
           memcmp(packet->session, bytes, 10) == 0;
}

/* Decodes a datagram with both decoders, and compares their results. The datagram is in an allocation of exactly its
 * length. */
static void compare(const uint8_t *bytes, size_t length, mold_place *places, reading *apart) {
    mold_packet packet = {0, 0, 0, 0, {0}}, alone = {0, 0, 0, 0, {0}};
    read_apart(bytes, length, apart);
    answered[apart->code] = true;
    uint32_t code = mold_read(bytes, length, &packet, places, PLACES);
    bool same = code == apart->code && packet.detail == apart->detail &&
                mold_decode(bytes, length, &alone) == code && alone.detail == packet.detail;
    if (same && code == MOLD_DONE) {
        same = is_same_header(&packet, bytes, apart->count) && is_same_header(&alone, bytes, apart->count);
        for (size_t i = 0; i < apart->count; i++)
            same = same && places[i].offset == apart->offsets[i] && places[i].length == apart->lengths[i];
    }
    CHECK(same);
}

int main(int words, char **word) {
    unsigned long count = words > 1 ? strtoul(word[1], NULL, 10) : 1000000;
    state = 0x9e3779b97f4a7c15u ^ (words > 2 ? strtoul(word[2], NULL, 10) : 1);
    static uint8_t bytes[ROOM];
    static mold_place places[PLACES];
    static reading apart;
    for (unsigned long i = 0; i < count; i++) {
        size_t length = draw(bytes);
        uint8_t *exact = malloc(length + (length == 0));
        if (exact == NULL)
            abort();
        memcpy(exact, bytes, length);
        compare(exact, length, places, &apart);
        free(exact);
    }
    CHECK(answered[MOLD_DONE] && answered[MOLD_E_SHORT] && answered[MOLD_E_BLOCK_CUT] && answered[MOLD_E_TRAILING]);
    return report_checks();
}
