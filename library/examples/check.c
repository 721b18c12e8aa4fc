/* Reports whether captures have one whole session, as `mold check` does. It reads classic pcap files, and passes each
 * datagram (the payload of UDP) to the checker.
 *
 *     cc -O2 -I library library/examples/check.c library/out/libmold.a -o check
 *     ./check [--port PORT].. [--to ADDRESS].. FILE..
 *
 * --port and --to select the datagrams to these ports and to these addresses. Without --port, datagrams to all ports
 * are taken; without --to, those to all addresses. `./check --help` prints the usage.
 *
 * A file may have either byte order, and times in microseconds or nanoseconds. Its link may be Ethernet with or without
 * VLAN tags, raw IP, or Linux cooked capture of either version. A datagram that was captured only in part, or that IP
 * fragmented, is skipped. The number of skipped datagrams is reported on standard error.
 *
 * It prints `datagrams N` and then the verdict. If the session is whole, the verdict is `whole MESSAGES`. Otherwise it
 * is `incomplete end END`, with `none` if no end is known, and a line `missing FIRST LAST` for each missing range. If a
 * datagram is refused, the program prints only `refused datagram K WHY`, and the number that goes with the refusal, if
 * there is one.
 *
 * The status is 0 if the session is whole, and 1 if something is missing. It is 2 if a datagram was refused, and 3
 * after any other error. */
#include "udp.h"

static const char usage[] = "usage: check [--port PORT].. [--to ADDRESS].. FILE..\n"
                            "\n"
                            "Reports whether pcap files contain one whole session.\n"
                            "\n"
                            "  --port PORT   check the datagrams to this port\n"
                            "  --to ADDRESS  check the datagrams to this IPv4 address\n"
                            "  --help        print this text\n"
                            "\n"
                            "An option may be given several times. Then a datagram to any of the values is checked.\n";

/* The ports and the addresses that select datagrams. If there are no ports, all ports are selected; likewise addresses.
 */
struct options {
    uint16_t *ports;
    struct in_addr *addresses;
    size_t port_count, address_count;
};

/* A pcap file. */
struct capture {
    FILE *file;
    const char *name;
    bool is_swapped;
    uint32_t link;
};

struct check {
    struct options options;
    mold_checker checker;
    uint64_t datagrams, skipped;
    bool refused;
};

/* The rest of a frame, from the start of a header on. */
struct part {
    const uint8_t *at;
    size_t length;
};

enum { FRAME = 1 << 18, ETHERNET = 1, RAW = 101, RAW_OLD = 12, RAW_BSD = 14, COOKED = 113, IPV4 = 228, COOKED_2 = 276 };

static uint16_t two(const uint8_t *at) {
    return (uint16_t)(at[0] << 8 | at[1]);
}

/* ---- Files ---- */

static uint32_t four(const struct capture *capture, const uint8_t *at) {
    uint32_t big = (uint32_t)at[0] << 24 | (uint32_t)at[1] << 16 | (uint32_t)at[2] << 8 | at[3];
    uint32_t little = (uint32_t)at[3] << 24 | (uint32_t)at[2] << 16 | (uint32_t)at[1] << 8 | at[0];
    return capture->is_swapped ? little : big;
}

/* Opens a file and reads its header. The magic number shows the byte order. The last field is the kind of link. */
static struct capture open_capture(const char *name) {
    struct capture capture = {fopen(name, "rb"), name, false, 0};
    uint8_t head[24];
    if (capture.file == NULL)
        fail(name, strerror(errno));
    if (fread(head, 1, sizeof head, capture.file) != sizeof head)
        fail(name, "too short for a pcap file");
    uint32_t magic = four(&capture, head);
    capture.is_swapped = magic == 0xd4c3b2a1 || magic == 0x4d3cb2a1;
    magic = four(&capture, head);
    if (magic != 0xa1b2c3d4 && magic != 0xa1b23c4d)
        fail(name, "not a classic pcap file; editcap -F pcap converts a newer one");
    capture.link = four(&capture, head + 20) & 0xffff;
    return capture;
}

/* Reads the next frame. Returns false at the end of the file. *whole is whether all of the frame was captured. */
static bool next_frame(struct capture *capture, uint8_t *frame, size_t *length, bool *whole) {
    uint8_t head[16];
    size_t came = fread(head, 1, sizeof head, capture->file);
    if (came == 0 && !ferror(capture->file))
        return false;
    if (came != sizeof head)
        fail(capture->name, "the file is cut");
    *length = four(capture, head + 8);
    *whole = *length >= four(capture, head + 12);
    if (*length > FRAME)
        fail(capture->name, "a frame is too long");
    if (fread(frame, 1, *length, capture->file) != *length)
        fail(capture->name, "the file is cut");
    return true;
}

/* ---- Frames ---- */

/* Skips a header of `bytes` bytes. Returns false if fewer bytes remain. */
static bool skip(struct part *part, size_t bytes) {
    if (part->length < bytes)
        return false;
    part->at += bytes;
    part->length -= bytes;
    return true;
}

/* Skips the header of the link. Returns false if IPv4 does not follow it. */
static bool skip_link(uint32_t link, struct part *part) {
    uint16_t type = 0x0800;
    if (link == RAW || link == RAW_OLD || link == RAW_BSD || link == IPV4)
        return true;
    size_t header = link == ETHERNET ? 14 : link == COOKED ? 16 : 20;
    size_t place = link == ETHERNET ? 12 : link == COOKED ? 14 : 0;
    if (part->length < header)
        return false;
    type = two(part->at + place);
    skip(part, header);
    while (type == 0x8100 || type == 0x88a8) {
        if (part->length < 4)
            return false;
        type = two(part->at + 2);
        skip(part, 4);
    }
    return type == 0x0800;
}

static bool has_port(const struct options *options, uint16_t port) {
    for (size_t i = 0; i < options->port_count; i++)
        if (options->ports[i] == port)
            return true;
    return options->port_count == 0;
}

static bool has_address(const struct options *options, const uint8_t *address) {
    for (size_t i = 0; i < options->address_count; i++)
        if (memcmp(&options->addresses[i], address, 4) == 0)
            return true;
    return options->address_count == 0;
}

/* Skips the headers of IPv4 and UDP, so that the payload remains. Returns false if the frame is not UDP over IPv4, or
 * if the options do not select it. *whole becomes false if IP fragmented the datagram, or if only a part of it was
 * captured. The port of such a datagram may stay unchecked. */
static bool skip_headers(const struct options *options, struct part *part, bool *whole) {
    if (part->length < 20 || part->at[0] >> 4 != 4 || part->at[9] != 17)
        return false;
    size_t header = (size_t)(part->at[0] & 15) * 4, total = two(part->at + 2);
    if ((two(part->at + 6) & 0x3fff) != 0)
        *whole = false;
    if (header < 20 || total < header || !has_address(options, part->at + 16))
        return false;
    if (part->length > total)
        part->length = total;
    if (!*whole)
        return true;
    if (!skip(part, header) || part->length < 8 || two(part->at + 4) < 8)
        return false;
    size_t length = (size_t)two(part->at + 4) - 8;
    if (!has_port(options, two(part->at + 2)))
        return false;
    skip(part, 8);
    *whole = part->length >= length;
    part->length = length;
    return true;
}

/* Passes the datagram of a frame, if it has one, to the checker. Reports a datagram that is refused. */
static void check_frame(struct check *check, uint32_t link, struct part part, bool whole) {
    uint64_t number = 0;
    if (!skip_link(link, &part) || !skip_headers(&check->options, &part, &whole))
        return;
    if (!whole) {
        check->skipped++;
        return;
    }
    check->datagrams++;
    uint32_t code = mold_checker_take(&check->checker, part.at, part.length, &number);
    if (code == MOLD_E_MEMORY)
        need("datagram", code);
    check->refused = code != MOLD_DONE;
    if (check->refused) {
        printf("refused datagram %llu", (unsigned long long)check->datagrams);
        print_refusal(stdout, code, number);
    }
}

static void check_file(struct check *check, const char *name) {
    static uint8_t frame[FRAME];
    struct capture capture = open_capture(name);
    struct part part = {frame, 0};
    bool whole = true, known = capture.link == ETHERNET || capture.link == COOKED || capture.link == COOKED_2 ||
                               capture.link == RAW || capture.link == RAW_OLD || capture.link == RAW_BSD ||
                               capture.link == IPV4;
    if (!known)
        fail(name, "the kind of link is not Ethernet, raw IP or Linux cooked capture");
    while (!check->refused && next_frame(&capture, frame, &part.length, &whole))
        check_frame(check, capture.link, part, whole);
    fclose(capture.file);
}

/* ---- The verdict ---- */

static void print_missing(mold_checker *checker, uint64_t count) {
    mold_range *ranges = calloc((size_t)count + 1, sizeof *ranges);
    size_t there = 0;
    if (ranges == NULL)
        fail("ranges", "out of memory");
    need("ranges", mold_checker_ranges(checker, ranges, (size_t)count, &there));
    for (size_t i = 0; i < there; i++)
        printf("missing %llu %llu\n", (unsigned long long)ranges[i].first, (unsigned long long)ranges[i].last);
    free(ranges);
}

/* Prints the verdict, and returns the status. */
static int print_verdict(struct check *check) {
    mold_verdict verdict;
    need("verdict", mold_checker_verdict(&check->checker, &verdict));
    printf("datagrams %llu\n", (unsigned long long)check->datagrams);
    if (verdict.whole == 1) {
        printf("whole %llu\n", (unsigned long long)verdict.messages);
        return 0;
    }
    if (verdict.end == 0)
        printf("incomplete end none\n");
    else
        printf("incomplete end %llu\n", (unsigned long long)verdict.end);
    print_missing(&check->checker, verdict.ranges);
    return 1;
}

static void read_option(struct options *options, const char *name, const char *value) {
    if (strcmp(name, "--port") == 0)
        options->ports[options->port_count++] = (uint16_t)number_of(value, 0, 65535);
    else if (strcmp(name, "--to") != 0)
        fail_usage(usage, name, "no such option");
    else if (inet_pton(AF_INET, value, &options->addresses[options->address_count++]) != 1)
        fail(value, "not an IPv4 address");
}

/* Reads the options, and returns the index of the first file. */
static int read_options(struct options *options, int count, char **words) {
    int at = 1;
    options->ports = calloc((size_t)count, sizeof *options->ports);
    options->addresses = calloc((size_t)count, sizeof *options->addresses);
    if (options->ports == NULL || options->addresses == NULL)
        fail("options", "out of memory");
    for (; at < count && strncmp(words[at], "--", 2) == 0; at++) {
        const char *name = words[at];
        read_option(options, name, value_of(usage, count, words, &at));
    }
    if (at >= count)
        fail_usage(usage, "check", "no file is given");
    return at;
}

int main(int count, char **words) {
    static struct check check;
    int first = read_options(&check.options, count, words);
    need("checker", mold_checker_new(&check.checker));
    for (int i = first; i < count && !check.refused; i++)
        check_file(&check, words[i]);
    int status = check.refused ? 2 : print_verdict(&check);
    if (check.skipped > 0)
        fprintf(stderr, "skipped %llu datagrams that are not whole\n", (unsigned long long)check.skipped);
    mold_free(&check.checker);
    free(check.options.ports);
    free(check.options.addresses);
    return fflush(stdout) == 0 ? status : 3;
}
