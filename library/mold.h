/* libmold: MoldUDP64 packets, a listener to two lines, a repairer that also requests what is missing, a publisher, a
 * re-request server, and a checker of captures.
 *
 * For programs in C (C99 and later) and C++ (C++11 and later), on Linux on x86-64. The library is libmold.a.
 * docs/LIBRARY.md states what is proved of it and what is only tested. The library opens no socket, reads no clock,
 * starts no thread, prints nothing, and never ends the process. The effect of a call depends only on its arguments, on
 * what its handle holds, and on whether its allocations succeed.
 *
 * THE CALLER'S DUTIES. Nothing checks them. Everything stated below holds only if they are kept.
 *
 *   1. A pointer is valid for the length that goes with it: all of these bytes or elements may be read, and also
 *      written if the call writes them. A pointer without a length is valid for one value of its type. The parameters
 *      session[10], request[20] and bytes[20] are valid for their declared sizes. NULL is allowed only if the length
 *      is 0.
 *   2. A pointer has the alignment of its type.
 *   3. A length is below 2^63.
 *   4. What a call writes does not overlap anything else that is passed to it.
 *   5. During a call nobody else changes what was passed to it.
 *   6. Only one call at a time runs on a handle, in any thread, even if all of them take a const handle.
 *   7. A handle begins as MOLD_EMPTY, and only these functions write it. It is not copied. It may be moved: its bytes
 *      are copied to a new place, and MOLD_EMPTY is written to the old one.
 *   8. Only these functions write the fields of a packer, which begin as MOLD_PACKER, and those of a plan, which
 *      mold_server_plan writes first.
 *   9. A bool is 0 or 1.
 *
 * OUTPUTS. What a call writes needs no value before, except for handles and packers. The proofs assume that it has some
 * value of its type, as each variable in Rattle has. No call reads an output before it writes it: tests/library passes
 * uninitialized outputs to all calls under valgrind. An output that a call does not write stays uninitialized, so check
 * the code before you read it.
 *
 * HANDLES. A listener, a repairer, a publisher, a server or a checker is a handle: 16 bytes of the caller, and memory
 * that the library allocates. A handle begins as MOLD_EMPTY and is then empty. mold_.._new fills it. mold_free frees
 * its memory and makes it empty again. A filled handle must be freed before it is filled again, and before it goes out
 * of scope. If a handle does not hold what a call needs, the call returns MOLD_E_BROKEN and does nothing. A call that
 * returns no code then returns 0 or false. A call that takes a const handle changes neither the handle nor anything
 * that a call returns: mold_server_answer and mold_server_plan only count requests, and no call returns that count.
 *
 * SLICES. A mold_bytes that a listener or a repairer returns is a slice of its memory. It is valid until the next call
 * on that handle, except for calls that take a const handle. The caller never frees it. If its length is 0, its address
 * may no longer be valid: do not read it or compute with it. All other results are written to memory of the caller. The
 * library keeps copies, so whatever is passed to a call may be freed when the call returns. There are two exceptions: a
 * packer keeps its buffer, and the messages that mold_listener_hear does not copy are in the datagram.
 *
 * CODES. A call that can be refused returns a code. The code is MOLD_DONE, 0, if the call succeeded. Otherwise it is
 * that of the first reason that applies, in the order in which the call lists them, and its name begins with MOLD_E_.
 * After such a code the handle holds what it held before, except that a line's report counts a refused datagram, that
 * mold_listener_hear empties the batch, and that a repairer learns the time. After MOLD_E_BROKEN, MOLD_E_LINE,
 * MOLD_E_TIME and MOLD_E_BATCH it holds exactly what it held before.
 *
 * If a call has an output for a number, it then writes the number that goes with the refusal, or 0 if there is none. It
 * writes 0 to the counts of a mold_taken and to the other fields of a mold_delivery. All other outputs keep their
 * values. A call that returns MOLD_E_BROKEN, MOLD_E_LINE or MOLD_E_TIME writes nothing at all. Other codes of which
 * this is true are listed with "writes nothing". The meaning of a code never changes.
 *
 * MOLD_E_MEMORY means that an allocation failed. The same call may succeed later.
 *
 * NUMBERS. The messages of a session have the sequence numbers 1, 2, 3 and so on. Lengths and sizes are in bytes.
 * Numbers in structs are in the byte order of the machine. A session is any ten bytes. */
#ifndef MOLD_H
#define MOLD_H

#include <stdbool.h>
#include <stddef.h>
#include <stdint.h>

#ifdef __cplusplus
extern "C" {
#endif

/* ---- The version ---- */

/* The version of this header: the major number times 1,000,000, plus the minor number times 1,000, plus the patch
 * number. */
#define MOLD_LIBRARY_VERSION 3000
#define MOLD_LIBRARY_VERSION_TEXT "0.3.0"

/* Returns the version of the linked library. It equals MOLD_LIBRARY_VERSION if the header belongs to the library. */
uint32_t mold_library_version(void);

/* ---- Codes, each with its text from mold_code_text ---- */

enum mold_code {
    MOLD_DONE = 0,              /* done */
    MOLD_E_SHORT = 1,           /* a packet has at least 20 bytes */
    MOLD_E_BLOCK_CUT = 2,       /* a message block is cut short */
    MOLD_E_TRAILING = 3,        /* bytes follow the end of the packet */
    MOLD_E_LIMIT = 4,           /* a datagram limit is 64 to 65,507 bytes */
    MOLD_E_FULL = 5,            /* the packet has no room for the message */
    MOLD_E_BROKEN = 6,          /* the call cannot use this handle or these fields */
    MOLD_E_MEMORY = 7,          /* out of memory */
    MOLD_E_WRONG_SESSION = 8,   /* another session */
    MOLD_E_SEQUENCE_ZERO = 9,   /* the sequence number is 0 */
    MOLD_E_PAST_LAST = 10,      /* a message has a number above 18446744073709551614 */
    MOLD_E_END_CONFLICT = 11,   /* the packet states another end of the session */
    MOLD_E_END_BELOW = 12,      /* the packet ends the session below what is known */
    MOLD_E_PAST_END = 13,       /* the packet goes past the end of the session */
    MOLD_E_CONFLICT = 14,       /* a message differs from the one received before */
    MOLD_E_LINE = 15,           /* there is no such line */
    MOLD_E_NEXT_ZERO = 16,      /* a listener cannot begin at sequence number 0 */
    MOLD_E_WINDOW = 17,         /* a window is 1 to 1,048,576 messages */
    MOLD_E_ABSENT = 18,         /* there is nothing to return */
    MOLD_E_CLOSED = 19,         /* the session is closed */
    MOLD_E_TOO_LONG = 20,       /* the message is too long */
    MOLD_E_NUMBERS = 21,        /* no sequence number is left for a message */
    MOLD_E_UNSENT = 22,         /* some messages are not yet in a datagram */
    MOLD_E_ROOM = 23,           /* the buffer is too small */
    MOLD_E_REQUEST_LENGTH = 24, /* a request has 20 bytes */
    MOLD_E_EMPTY_REQUEST = 25,  /* the request is for no message */
    MOLD_E_AHEAD = 26,          /* the request begins above the last message */
    MOLD_E_BURST = 27,          /* a burst is 1 to 64 datagrams */
    MOLD_E_FILE_SHORT = 28,     /* too few bytes for a journal */
    MOLD_E_BAD_MAGIC = 29,      /* not a journal of version 1, 2 or 3 */
    MOLD_E_BAD_FLAG = 30,       /* the journal's flag is neither open nor closed */
    MOLD_E_FILE_CUT = 31,       /* the journal ends within a message */
    MOLD_E_COUNT_DIFFERS = 32,  /* the journal does not have as many messages as it states */
    MOLD_E_DAMAGED = 33,        /* a record of the journal is damaged */
    MOLD_E_NOT_MISSING = 34,    /* not all messages below the number are missing */
    MOLD_E_BATCH = 35,          /* the batch is not empty */
    MOLD_E_OPTIONS = 36,        /* an option is outside its range */
    MOLD_E_TIME = 37            /* a time is at most 4611686018427387903 nanoseconds */
};

/* A slice: `length` bytes at `at`. */
typedef struct mold_bytes {
    const uint8_t *at;
    size_t length;
} mold_bytes;

#define MOLD_NO_BYTES { NULL, 0 }

/* Writes the meaning of a code as an English text; `unknown code` for any other number. The text is valid forever. Its
 * last byte is zero and counts in text->length. It has no other zero byte. */
void mold_terminated_text(uint32_t code, mold_bytes *text);

/* Returns the text of mold_terminated_text as a string. */
static inline const char *mold_code_text(uint32_t code) {
    mold_bytes text = MOLD_NO_BYTES;
    mold_terminated_text(code, &text);
#ifdef __cplusplus
    return reinterpret_cast<const char *>(text.at);
#else
    return (const char *)text.at;
#endif
}

/* ---- Packets: no handle, no allocation ---- */

/* The kinds of packets. */
enum mold_kind {
    MOLD_DATA = 0,      /* 1 to 65,534 messages */
    MOLD_HEARTBEAT = 1, /* no messages; its number is that of the next message */
    MOLD_END = 2        /* no messages; it ends the session */
};

typedef struct mold_packet {
    uint64_t sequence;   /* the number of the first message. A heartbeat has that of the next message. An end packet
                            has one more than the number of messages of the session */
    uint64_t detail;     /* the number that goes with a refusal; otherwise 0 */
    uint32_t kind;       /* MOLD_DATA, MOLD_HEARTBEAT or MOLD_END */
    uint16_t count;      /* the number of messages; 0 for a heartbeat and for an end packet */
    uint8_t session[10];
} mold_packet;

/* Where a message is in a datagram. */
typedef struct mold_place {
    size_t offset; /* the offset of its first byte */
    size_t length; /* its length */
} mold_place;

typedef struct mold_request {
    uint64_t sequence;   /* the number of the first requested message */
    uint16_t count;      /* the number of requested messages */
    uint8_t session[10];
} mold_request;

/* Decodes a datagram, and writes its header to *packet.
 *
 *   MOLD_DONE         the bytes are the encoding of this packet and of no other.
 *   MOLD_E_SHORT      `packet->detail` is the length of the datagram.
 *   MOLD_E_BLOCK_CUT  `packet->detail` is the number of whole message blocks before the one that is cut short.
 *   MOLD_E_TRAILING   `packet->detail` is the offset of the first byte after the packet.
 *
 * A refusal keeps the other fields of *packet. */
uint32_t mold_decode(const uint8_t *bytes, size_t length, mold_packet *packet);

/* Decodes a datagram as mold_decode does, and writes to places[i] where message i of the packet is, i from 0. If the
 * packet has more messages than the array has elements, only the first ones are written. The other elements of the
 * array keep their values; after a refusal all of them do. `room` is the number of elements. */
uint32_t mold_read(const uint8_t *bytes, size_t length, mold_packet *packet, mold_place *places, size_t room);

/* Decodes a request packet. Any 20 bytes are a request packet, even with sequence number 0 or count 0.
 *
 *   MOLD_E_REQUEST_LENGTH  the length is not 20; writes nothing. */
uint32_t mold_request_decode(const uint8_t *bytes, size_t length, mold_request *request);

/* Writes the 20 bytes of a request packet. */
void mold_request_encode(const mold_request *request, uint8_t bytes[20]);

/* Writes a packet into a buffer of the caller. The packet is the first `used` bytes of `buffer`, which has `limit`
 * bytes. A packer is a plain struct. It begins as MOLD_PACKER and is never freed. Only these functions write its
 * fields. The caller may read `buffer`, its bytes and `used` between calls. */
typedef struct mold_packer {
    uint8_t *buffer; /* valid as long as the packer is used */
    size_t limit;    /* the size of the buffer, and the greatest length of a packet */
    size_t used;     /* the length of the packet so far */
    uint16_t count;  /* the number of its messages */
    bool open;       /* whether messages may be added */
} mold_packer;

#define MOLD_PACKER(buffer, limit) { (buffer), (limit), 0, 0, false }

/* Begins a packet without messages, in place of the previous packet. Until a message is added, it is a heartbeat.
 *
 *   MOLD_E_LIMIT  the limit is not 64 to 65,507 bytes. */
uint32_t mold_packer_start(mold_packer *packer, const uint8_t session[10], uint64_t sequence);

/* Whether mold_packer_add would add a message of `length` bytes. */
bool mold_packer_fits(const mold_packer *packer, size_t length);

/* Adds a message to the packet.
 *
 *   MOLD_E_BROKEN  the fields are invalid. The call does not read the packet in the buffer, so it accepts some invalid
 *                  fields.
 *   MOLD_E_FULL    no packet was begun, or the packet is an end packet, or the message does not fit: with its two bytes
 *                  of length the packet would be longer than the limit. */
uint32_t mold_packer_add(mold_packer *packer, const uint8_t *message, size_t length);

/* Writes an end packet in place of the previous packet. No message can be added to it.
 *
 *   MOLD_E_LIMIT  the limit is not 64 to 65,507 bytes. */
uint32_t mold_packer_end(mold_packer *packer, const uint8_t session[10], uint64_t sequence);

/* ---- Handles ---- */

typedef struct mold_listener {
    void *at;
    bool live;
} mold_listener;

typedef struct mold_repairer {
    void *at;
    bool live;
} mold_repairer;

typedef struct mold_publisher {
    void *at;
    bool live;
} mold_publisher;

typedef struct mold_server {
    void *at;
    bool live;
} mold_server;

typedef struct mold_checker {
    void *at;
    bool live;
} mold_checker;

/* An empty handle. */
#define MOLD_EMPTY { NULL, false }

/* Frees what a handle of any kind holds. The handle is then empty, and may be filled again. Freeing an empty handle
 * does nothing. The pointer is that of a mold_listener, mold_repairer, mold_publisher, mold_server or mold_checker. */
void mold_free(void *handle);

/* ---- Listener: two lines and a server's responses, delivered in order ---- */

/* The sequence numbers from `first` to `last`, inclusive. */
typedef struct mold_range {
    uint64_t first;
    uint64_t last;
} mold_range;

/* What a datagram brought. */
typedef struct mold_taken {
    uint64_t detail;    /* the number that goes with a refusal; otherwise 0. After a refusal the counts are 0 */
    uint32_t delivered; /* the number of messages that it added to the end of the batch: its own and stored ones */
    uint32_t kept;      /* the number of its messages that were stored above a gap */
    uint32_t dropped;   /* the number of its messages that were dropped and must be received again: those above the
                           window, or all new ones if the store had no room for the datagram */
    uint32_t unused;    /* padding, which is never written */
} mold_taken;

/* What a datagram delivers without a copy. After a refusal all fields except `detail` are 0. */
typedef struct mold_delivery {
    uint64_t detail;  /* the number that goes with a refusal; otherwise 0 */
    size_t offset;    /* the offset in the datagram at which the blocks of its delivered messages begin. They are its
                         last bytes. A block is the message's length in two bytes, high byte first, and the message */
    uint32_t own;     /* the number of these messages */
    uint32_t stored;  /* the number of stored messages that are delivered after them: all messages of the batch */
    uint32_t kept;    /* the number of its messages that were stored above a gap */
    uint32_t dropped; /* the number of its messages that were dropped and must be received again, as in mold_taken */
} mold_delivery;

/* What was received on a line. Both counts stop at 18446744073709551615. */
typedef struct mold_report {
    uint64_t datagrams; /* the number of datagrams that were taken */
    uint64_t refused;   /* the number of datagrams that were refused, except with MOLD_E_MEMORY or MOLD_E_BATCH */
    uint64_t front;     /* the greatest top of a packet that was taken, or the first number of the listener if that is
                           greater. A packet's top is its sequence number plus its number of messages */
} mold_report;

/* Where a datagram came from. */
enum mold_line {
    MOLD_LINE_A = 0,
    MOLD_LINE_B = 1,
    MOLD_ANSWER = 2 /* a server's response, which no line's report counts */
};

/* Makes a listener for a session. It delivers the messages from number `next` on. A message above a gap is stored if
 * its number is less than N + `window`, where N is the number of the next message to deliver.
 *
 *   MOLD_E_BROKEN     the handle is not empty.
 *   MOLD_E_NEXT_ZERO  next is 0.
 *   MOLD_E_WINDOW     window is not 1 to 1,048,576.
 *   MOLD_E_MEMORY     an allocation failed; the handle is empty. */
uint32_t mold_listener_new(mold_listener *listener, const uint8_t session[10], uint64_t next, uint32_t window);

/* Makes a listener as mold_listener_new does, whose store has room for `store` bytes: those of the stored messages and of
 * their length fields, 2 for each message. If the messages of a datagram that begins above a gap have no room, none of
 * them is stored. A datagram that has the message N needs no room. So the memory of the listener has a bound, and the
 * first gap can always be filled. If `store` is 0, the store is not limited, as with mold_listener_new.
 *
 *   MOLD_E_BROKEN     the handle is not empty.
 *   MOLD_E_NEXT_ZERO  next is 0.
 *   MOLD_E_WINDOW     window is not 1 to 1,048,576.
 *   MOLD_E_OPTIONS    store is 1 to 65,506: there would be no room for a datagram.
 *   MOLD_E_MEMORY     an allocation failed; the handle is empty. */
uint32_t mold_listener_bounded(mold_listener *listener, const uint8_t session[10], uint64_t next, uint32_t window,
                               uint64_t store);

/* Takes a datagram of a line, or a server's response. Messages that are next in order join the batch: those of the
 * datagram, and then stored ones. Messages above a gap are stored. Messages that were delivered or stored before are
 * ignored.
 *
 *   MOLD_DONE             `*taken` states what it brought.
 *   MOLD_E_BROKEN         the handle does not hold a listener.
 *   MOLD_E_LINE           line is not MOLD_LINE_A, MOLD_LINE_B or MOLD_ANSWER.
 *   MOLD_E_SHORT, MOLD_E_BLOCK_CUT, MOLD_E_TRAILING
 *                         the bytes do not encode a packet; `taken->detail` is as `packet->detail` of mold_decode.
 *   MOLD_E_WRONG_SESSION  the packet belongs to another session.
 *   MOLD_E_SEQUENCE_ZERO  its sequence number is 0.
 *   MOLD_E_PAST_LAST      it has a message with a number above 18446744073709551614.
 *   MOLD_E_END_CONFLICT   it states an end of the session other than the known end, `taken->detail`.
 *   MOLD_E_END_BELOW      it ends the session below `taken->detail`, the greatest known top.
 *   MOLD_E_PAST_END       its top is above `taken->detail`, the known end.
 *   MOLD_E_CONFLICT       its message with number `taken->detail` differs from the stored one. If several messages
 *                         differ, this is the least number.
 *   MOLD_E_MEMORY         an allocation failed.
 *
 * After a refusal the listener is as before, except that the line's report counts the datagram as refused.
 * MOLD_E_MEMORY is not counted. */
uint32_t mold_listener_take(mold_listener *listener, uint32_t line, const uint8_t *bytes, size_t length,
                            mold_taken *taken);

/* Takes a datagram as mold_listener_take does, but does not copy the messages that the datagram itself delivers. They
 * are in the datagram, from `delivery->offset` on. First the batch is emptied, so slices of it are no longer valid.
 * Then it gets the stored messages that are delivered after those of the datagram. The number of the first delivered
 * message is what mold_listener_next returned before the call.
 *
 * Only messages that an earlier mold_listener_hear left in the batch are discarded. The codes are those of
 * mold_listener_take, with `delivery->detail` as the number, and these come first:
 *
 *   MOLD_E_BROKEN  the handle does not hold a listener.
 *   MOLD_E_LINE    line is not MOLD_LINE_A, MOLD_LINE_B or MOLD_ANSWER.
 *   MOLD_E_BATCH   the batch has messages of mold_listener_take or mold_listener_skip: read them, and call
 *                  mold_listener_clear.
 *
 * After these three nothing has changed: the datagram is not counted, and the batch has its messages. After any other
 * refusal the batch is empty, and otherwise the listener is as after a refusal of mold_listener_take. MOLD_E_MEMORY is
 * only possible if messages have to be stored, or stored ones delivered. */
uint32_t mold_listener_hear(mold_listener *listener, uint32_t line, const uint8_t *bytes, size_t length,
                            mold_delivery *delivery);

/* The batch: the messages that were delivered since the last mold_listener_clear, in order. Read it after each datagram
 * or after many. It is in the listener's memory, and grows until it is cleared. mold_listener_hear discards the
 * messages that it left there before. */

/* Returns the number of messages of the batch. */
size_t mold_listener_count(const mold_listener *listener);

/* Returns the number of the first message of the batch; 0 if the batch is empty. Add i to it for the number
 * of the message at index i. */
uint64_t mold_listener_first(const mold_listener *listener);

/* Returns a slice of the message at index i of the batch, i from 0.
 *
 *   MOLD_E_BROKEN  the handle does not hold a listener.
 *   MOLD_E_ABSENT  the batch has no message at this index; writes nothing. */
uint32_t mold_listener_message(const mold_listener *listener, size_t i, mold_bytes *message);

/* Writes slices of the first messages of the batch, as many as the array has room for, and returns how many. The other
 * elements of the array keep their values. `room` is the number of elements. */
size_t mold_listener_messages(const mold_listener *listener, mold_bytes *messages, size_t room);

/* Copies the message at index i of the batch to the start of a buffer, and writes its length to *size. The other bytes
 * of the buffer keep their values.
 *
 *   MOLD_E_BROKEN  the handle does not hold a listener.
 *   MOLD_E_ABSENT  the batch has no message at this index; writes nothing.
 *   MOLD_E_ROOM    the message is longer than the buffer: *size is its length, and the buffer keeps its bytes. */
uint32_t mold_listener_copy(const mold_listener *listener, size_t i, uint8_t *buffer, size_t room, size_t *size);

/* Whether messages are missing. If so, `request` is the request packet to send to the re-request server. It asks for
 * the messages of the first gap, at most 65,534. Otherwise `request` keeps its bytes. */
bool mold_listener_wanted(const mold_listener *listener, uint8_t request[20]);

/* Writes the ranges of missing messages with numbers from `from` on, ascending, as many as the array has room for, and
 * returns how many. A message is missing if its number is below mold_listener_known and it was neither delivered nor
 * stored. If `from` is within a gap, the first range begins at `from`. No two ranges adjoin. The other elements of the
 * array keep their values. `room` is the number of elements. If the array is full, there may be more ranges: call again
 * with `from` one more than the last number. */
size_t mold_listener_ranges(const mold_listener *listener, uint64_t from, mold_range *ranges, size_t room);

/* Gives up all messages below number `to`. They have to be missing, from mold_listener_next on, and there has to be at
 * least one: so `to` is at most one more than the last number of the first range of mold_listener_ranges. The listener
 * goes on at `to`, and delivers the stored messages from there up to the next gap. They join the batch, which has to be
 * empty. It keeps its other stored messages and the reports of the lines.
 *
 *   MOLD_E_BROKEN       the handle does not hold a listener.
 *   MOLD_E_BATCH        the batch is not empty.
 *   MOLD_E_NOT_MISSING  not all of these messages are missing, or there is none.
 *   MOLD_E_MEMORY       an allocation failed. */
uint32_t mold_listener_skip(mold_listener *listener, uint64_t to);

/* Returns the number of the next message to deliver. */
uint64_t mold_listener_next(const mold_listener *listener);

/* Returns the greatest known top: the greatest top of a packet that was taken, or the number at which the
 * listener began if that is greater. All messages that are known to exist have numbers below it. */
uint64_t mold_listener_known(const mold_listener *listener);

/* Whether the end of the session is known and all messages below it were delivered. */
bool mold_listener_finished(const mold_listener *listener);

/* Writes the report of line MOLD_LINE_A or MOLD_LINE_B. The lag of a line is mold_listener_known minus its `front`.
 *
 *   MOLD_E_BROKEN  the handle does not hold a listener.
 *   MOLD_E_LINE    line is neither of them. */
uint32_t mold_listener_report(const mold_listener *listener, uint32_t line, mold_report *report);

/* Empties the batch, and keeps its memory for later messages. Slices of the batch are no longer valid.
 *
 *   MOLD_E_BROKEN  the handle does not hold a listener. */
uint32_t mold_listener_clear(mold_listener *listener);

/* ---- Repairer: a listener that also decides when to request what, and from which server ---- */

/* A repairer takes datagrams as a listener does, and the time. It has no clock and no socket: the caller sends the
 * requests that it writes. A loop waits for datagrams until mold_repairer_deadline, takes those that are there, reads
 * and clears the batch, and then calls mold_repairer_lost and mold_repairer_poll, each until it returns MOLD_E_ABSENT.
 *
 * A time is a number of nanoseconds since any moment, as CLOCK_MONOTONIC has it. It is at most 4611686018427387903. A
 * time below that of an earlier call counts as that of the earlier call. */

/* What a repairer keeps to. mold_repair_options_default writes the defaults. Spans of time are in nanoseconds. Those
 * without another bound are 1 to 4611686018427387903. */
typedef struct mold_repair_options {
    uint64_t size;     /* sizeof(mold_repair_options). A later version may have more fields */
    uint64_t next;     /* the number of the first message to deliver, at least 1; default 1 */
    uint64_t patience; /* how long a message has to be missing before it is requested, at most 1,000,000,000. If it is
                          0, it adapts to the delays between the lines; default 0 */
    uint64_t timeout;  /* how long a request waits for a response before it is sent again; default 50 ms. Each further
                          request for a message waits twice as long */
    uint64_t ceiling;  /* the longest wait, at least `timeout`; default 1 s */
    uint64_t settle;   /* how long a request still waits after a response without all of its messages; default 2 ms */
    uint64_t interval; /* the time after which another request may be sent, also 0; default 1 ms */
    uint32_t window;   /* as that of mold_listener_new, 1 to 1,048,576; default 65,536 */
    uint32_t bucket;   /* the number of requests that may be sent at once, 1 to 65,535; default 32 */
    uint32_t places;   /* the greatest number of requests in flight, 1 to 4,096; default 256 */
    uint32_t servers;  /* the number of re-request servers, 0 to 8; default 1 */
    uint32_t give_up;  /* after how many requests in a row without a response missing messages are given up, 1 to 1,000.
                          Without a server, each timeout counts as a request. If it is 0, never; default 0 */
    uint32_t audit;    /* the number of delivered messages of which digests are kept, at most 1,048,576; default 0. A
                          datagram that has one of them with other bytes is counted as a contradiction */
    uint64_t store;    /* as that of mold_listener_bounded, 0 or at least 65,507; default 0 */
} mold_repair_options;

/* Writes the default of each option, and the size. */
void mold_repair_options_default(mold_repair_options *options);

/* Makes a repairer for a session. Later, only messages need memory.
 *
 *   MOLD_E_BROKEN     the handle is not empty.
 *   MOLD_E_OPTIONS    the size is not that of this version, or an option other than `next`, `window` and `store` is
 *                     outside its range.
 *   MOLD_E_NEXT_ZERO  `next` is 0.
 *   MOLD_E_WINDOW     `window` is not 1 to 1,048,576.
 *   MOLD_E_OPTIONS    `store` is 1 to 65,506.
 *   MOLD_E_MEMORY     an allocation failed; the handle is empty. */
uint32_t mold_repairer_new(mold_repairer *repairer, const uint8_t session[10], const mold_repair_options *options);

/* Returns a repairer's handle as that of a listener. The calls of a listener that take a const handle accept it, and
 * mold_listener_clear does too. All others return MOLD_E_BROKEN. */
static inline mold_listener *mold_listener_of(mold_repairer *repairer) {
    void *handle = repairer;
#ifdef __cplusplus
    return static_cast<mold_listener *>(handle);
#else
    return (mold_listener *)handle;
#endif
}

/* The origin of a response of server k, k from 0. */
#define MOLD_SERVER(k) (MOLD_ANSWER + (k))

/* Takes a datagram that arrived at the time `now`, as mold_listener_take does. `origin` is MOLD_LINE_A, MOLD_LINE_B or
 * MOLD_SERVER(k). What arrived is no longer requested. The codes are those of mold_listener_take, and these come
 * first:
 *
 *   MOLD_E_BROKEN  the handle does not hold a repairer.
 *   MOLD_E_LINE    there is no such line, or k is not below `servers`.
 *   MOLD_E_TIME    now is above 4611686018427387903. */
uint32_t mold_repairer_take(mold_repairer *repairer, uint64_t now, uint32_t origin, const uint8_t *bytes, size_t length,
                            mold_taken *taken);

/* Writes the next request that may be sent at the time `now`, and the index of the server to send it to. It counts as
 * sent. While messages are to be given up, no request may be sent: call mold_repairer_lost before. The call allocates
 * nothing.
 *
 *   MOLD_E_BROKEN  the handle does not hold a repairer.
 *   MOLD_E_TIME    now is above 4611686018427387903.
 *   MOLD_E_ABSENT  no request may be sent now; writes nothing. */
uint32_t mold_repairer_poll(mold_repairer *repairer, uint64_t now, uint8_t request[20], uint32_t *server);

/* Writes the time at which to call mold_repairer_lost and mold_repairer_poll next, if no datagram arrives before. Until
 * then both return MOLD_E_ABSENT. If both returned MOLD_E_ABSENT at the time `now`, it is later than now. It may be
 * early: then both return MOLD_E_ABSENT again. If only a datagram can change anything, it may be above
 * 4611686018427387903.
 *
 *   MOLD_E_BROKEN  the handle does not hold a repairer.
 *   MOLD_E_TIME    now is above 4611686018427387903.
 *   MOLD_E_ABSENT  no message is missing; writes nothing. */
uint32_t mold_repairer_deadline(mold_repairer *repairer, uint64_t now, uint64_t *deadline);

/* Gives up the first missing messages at the time `now`, if `give_up` requests for them in a row had no response, and
 * writes their numbers. The repairer goes on after them, and delivers the stored messages from there up to the next
 * gap. They join the batch, which has to be empty.
 *
 *   MOLD_E_BROKEN  the handle does not hold a repairer.
 *   MOLD_E_TIME    now is above 4611686018427387903.
 *   MOLD_E_BATCH   the batch is not empty; writes nothing.
 *   MOLD_E_ABSENT  nothing is to be given up now; writes nothing.
 *   MOLD_E_MEMORY  an allocation failed; writes nothing. */
uint32_t mold_repairer_lost(mold_repairer *repairer, uint64_t now, mold_range *lost);

/* What a line brought to a repairer. The counts stop at 18446744073709551615. */
typedef struct mold_line_stats {
    uint64_t datagrams; /* the number of datagrams that were taken */
    uint64_t first;     /* those of which a message was delivered or stored */
    uint64_t again;     /* the others */
    uint64_t refused;   /* the number of datagrams that were refused, except with MOLD_E_MEMORY */
    uint64_t late;      /* the greatest delay after the other line, in nanoseconds, of the last 1,024 datagrams that
                           both lines brought; 0 if `patience` is not 0 */
} mold_line_stats;

/* The statistics of a repairer. The counts stop at 18446744073709551615. */
typedef struct mold_repair_stats {
    uint64_t next;           /* the number of the next message to deliver */
    uint64_t known;          /* the greatest known top */
    uint64_t gap_first;      /* the first number of the first gap; 0 if no message is missing */
    uint64_t gap_last;       /* the last number of the first gap; 0 if no message is missing */
    uint64_t missing;        /* the number of missing messages */
    uint64_t stored;         /* the number of stored messages */
    uint64_t patience;       /* how long a message now has to be missing before it is requested, in nanoseconds */
    uint64_t requests;       /* the number of requests that mold_repairer_poll wrote */
    uint64_t answers;        /* the number of responses that were taken */
    uint64_t useless;        /* those of which no message was delivered or stored */
    uint64_t lost;           /* the number of messages that mold_repairer_lost gave up */
    uint64_t contradictions; /* the number of datagrams that had a delivered message with other bytes, as far as `audit`
                                finds them */
    uint64_t contradiction;  /* the least number of such a message in the last of them; 0 if there was none */
    mold_line_stats a;       /* what line A brought */
    mold_line_stats b;       /* what line B brought */
} mold_repair_stats;

/* Writes the statistics.
 *
 *   MOLD_E_BROKEN  the handle does not hold a repairer. */
uint32_t mold_repairer_stats(const mold_repairer *repairer, mold_repair_stats *stats);

/* ---- Publisher: messages in datagrams, and their journal ---- */

/* Makes a publisher of a session without messages. A datagram has at most `limit` bytes, and a message at most
 * `limit` - 22 bytes.
 *
 *   MOLD_E_BROKEN  the handle is not empty.
 *   MOLD_E_LIMIT   limit is not 64 to 65,507.
 *   MOLD_E_MEMORY  an allocation failed; the handle is empty. */
uint32_t mold_publisher_new(mold_publisher *publisher, const uint8_t session[10], size_t limit);

/* Publishes a message: it gets the next sequence number, *number, and the journal keeps its bytes.
 *
 *   MOLD_E_BROKEN    the handle does not hold a publisher.
 *   MOLD_E_CLOSED    the session is closed.
 *   MOLD_E_TOO_LONG  the message is longer than the limit allows; *number is its length.
 *   MOLD_E_NUMBERS   18446744073709551614 messages were published.
 *   MOLD_E_MEMORY    an allocation failed. */
uint32_t mold_publisher_publish(mold_publisher *publisher, const uint8_t *message, size_t length, uint64_t *number);

/* Whether the unsent messages do not all fit in one datagram. A message is unsent until mold_publisher_datagram has
 * written it. To fill datagrams, call mold_publisher_datagram after each message as long
 * as this function returns true. To send without delay, call it once after each message. */
bool mold_publisher_is_full(const mold_publisher *publisher);

/* Writes a datagram of the unsent messages, in order and as many as fit, to the start of a buffer. *size is its length.
 * The buffer must have at least as many bytes as the limit.
 *
 *   MOLD_E_BROKEN  the handle does not hold a publisher.
 *   MOLD_E_ROOM    the buffer is shorter than the limit; *size is the limit.
 *   MOLD_E_ABSENT  no message is unsent; *size is 0. */
uint32_t mold_publisher_datagram(mold_publisher *publisher, uint8_t *buffer, size_t room, size_t *size);

/* Writes a heartbeat, which has 20 bytes. Its number is that of the first unsent message.
 *
 *   MOLD_E_BROKEN  the handle does not hold a publisher.
 *   MOLD_E_ROOM    the buffer is shorter than the limit; *size is the limit.
 *   MOLD_E_ABSENT  the session is closed; *size is 0. */
uint32_t mold_publisher_heartbeat(const mold_publisher *publisher, uint8_t *buffer, size_t room, size_t *size);

/* Closes the session: no more messages can be published. Closing it again succeeds and changes nothing. *number is 0
 * on success.
 *
 *   MOLD_E_BROKEN  the handle does not hold a publisher.
 *   MOLD_E_UNSENT  *number messages are unsent. */
uint32_t mold_publisher_close(mold_publisher *publisher, uint64_t *number);

/* Writes an end packet, which has 20 bytes. Its number is one more than the number of messages.
 *
 *   MOLD_E_BROKEN  the handle does not hold a publisher.
 *   MOLD_E_ROOM    the buffer is shorter than the limit; *size is the limit.
 *   MOLD_E_ABSENT  the session is not closed; *size is 0. */
uint32_t mold_publisher_end(const mold_publisher *publisher, uint8_t *buffer, size_t room, size_t *size);

/* Writes the journal to the start of a buffer, as a journal file of version 2, which `mold serve` and mold_server_new
 * read. *size is its length: 27 bytes, and for each message 2 bytes and the message's bytes.
 *
 *   MOLD_E_BROKEN  the handle does not hold a publisher.
 *   MOLD_E_ROOM    the buffer is too small: *size is the length of the journal, and the buffer keeps its bytes. */
uint32_t mold_publisher_save(const mold_publisher *publisher, uint8_t *buffer, size_t room, size_t *size);

/* ---- A journal file that outlives the process ---- */

/* A program may keep a publisher's journal in a file, so that each message is durable before it is sent. The library
 * only writes to buffers: the program writes the file and syncs it, as with pwrite and fdatasync. The file is of
 * version 3: a head of 18 bytes, the records of the messages, and a shut gate, which is a byte other than 1. No byte
 * after a shut gate counts. `mold dump`, `mold serve` and `mold feed` read such a file too.
 *
 * To create the file, write the bytes of mold_journal_head to a new file, and sync it. Then give it its name, and sync
 * its folder. Its shut gate is at the offset `at`, which is 18.
 *
 * A commit makes messages durable: between mold_publisher_publish and mold_publisher_datagram, or after
 * mold_publisher_close.
 *
 *   1. Call mold_journal_records. `from` is the number of the first message that the file does not have.
 *   2. Write buffer[1] to buffer[size - 1] at the offset at + 1. Sync the file.
 *   3. Write buffer[0] at the offset `at`. Sync the file. Now all messages are durable, and may be sent.
 *   4. Add size - 1 to `at`.
 *
 * A crash at any moment leaves a file that has all messages of the commit or none of them. To continue the session,
 * read all bytes of the file, sync the file and its folder, and then call mold_publisher_resume. Without the sync, the
 * last messages that were read may not be on the disk.
 *
 * If a write or a sync fails, send none of the messages, and do not write to the file again: the system may have lost
 * what it wrote. docs/DURABILITY.md states what to do then. */

/* Writes the file of the publisher's session without messages to the start of a buffer. *size is its length, 19 bytes.
 *
 *   MOLD_E_BROKEN  the handle does not hold a publisher.
 *   MOLD_E_ROOM    the buffer is too small: *size is 19, and the buffer keeps its bytes. */
uint32_t mold_journal_head(const mold_publisher *publisher, uint8_t *buffer, size_t room, size_t *size);

/* Writes the records of the messages from number `from` on to the start of a buffer, and what follows them: a shut
 * gate, or the closing record if the session is closed. *size is the number of bytes: for each message 4 bytes and the
 * message's bytes, and then 1 byte, or 3 if the session is closed. `from` is 1 to the number of the next message, which
 * has no record. The time depends only on the messages from `from` on.
 *
 *   MOLD_E_BROKEN  the handle does not hold a publisher.
 *   MOLD_E_ABSENT  from is 0, or above the number of the next message; *size is 0.
 *   MOLD_E_ROOM    the buffer is too small: *size is the number of bytes, and the buffer keeps its bytes. */
uint32_t mold_journal_records(const mold_publisher *publisher, uint64_t from, uint8_t *buffer, size_t room,
                              size_t *size);

/* Makes a publisher that continues the session of a journal file of version 3, from all bytes of the file. All messages
 * of the file count as sent: receivers request those that they lack. *number is `at`, the offset of the shut gate or of
 * the closing record. If the session is closed, the publisher only writes end packets.
 *
 *   MOLD_E_BROKEN      the handle is not empty.
 *   MOLD_E_LIMIT       limit is not 64 to 65,507.
 *   MOLD_E_FILE_SHORT  the bytes end before the messages begin; *number is the number of bytes.
 *   MOLD_E_BAD_MAGIC   the bytes are not a journal of version 3. Nothing can be appended to one of version 1 or 2.
 *   MOLD_E_NUMBERS     there are more messages than sequence numbers.
 *   MOLD_E_TOO_LONG    a message is longer than the limit allows; *number is its length.
 *   MOLD_E_DAMAGED     there is no whole record where message *number could be.
 *   MOLD_E_MEMORY      an allocation failed; the handle is empty.
 *
 * If the call makes no publisher, it reads the bytes once more. So it reports a fault even if an allocation failed. */
uint32_t mold_publisher_resume(mold_publisher *publisher, size_t limit, const uint8_t *journal, size_t length,
                               uint64_t *number);

/* ---- Server: responses to requests, from a journal ---- */

/* The remaining responses to a request. */
typedef struct mold_plan {
    uint64_t from; /* the number of its next message */
    uint64_t to;   /* one more than the number of its last message */
    uint16_t left; /* the maximum number of datagrams that remain */
    uint8_t session[10];
} mold_plan;

/* Lets the publisher respond to requests too. A request gets at most `burst` responses, each of at most as many bytes as
 * the publisher's limit. The calls below then also accept the publisher's handle, as mold_server_of(&publisher). No
 * response has an unsent message.
 *
 *   MOLD_E_BROKEN  the handle does not hold a publisher, or the publisher responds to requests already.
 *   MOLD_E_BURST   burst is not 1 to 64.
 *   MOLD_E_MEMORY  an allocation failed. */
uint32_t mold_server_from_publisher(mold_publisher *publisher, uint16_t burst);

/* Returns a publisher's handle as that of its server. */
static inline mold_server *mold_server_of(mold_publisher *publisher) {
    void *handle = publisher;
#ifdef __cplusplus
    return static_cast<mold_server *>(handle);
#else
    return (mold_server *)handle;
#endif
}

/* Makes a server from the bytes of a journal file of version 1, 2 or 3. Its datagrams have at most `limit` bytes, and a
 * request gets at most `burst` responses. *number is 0 if the call succeeds.
 *
 *   MOLD_E_BROKEN         the handle is not empty.
 *   MOLD_E_LIMIT          limit is not 64 to 65,507.
 *   MOLD_E_BURST          burst is not 1 to 64.
 *   MOLD_E_FILE_SHORT     the bytes end before the messages begin; *number is the number of bytes.
 *   MOLD_E_BAD_MAGIC      the bytes are not a journal.
 *   MOLD_E_BAD_FLAG       the flag, *number, is neither open nor closed.
 *   MOLD_E_NUMBERS        there are more messages than sequence numbers.
 *   MOLD_E_TOO_LONG       a message is longer than the limit allows; *number is its length.
 *   MOLD_E_FILE_CUT       the bytes end within message *number.
 *   MOLD_E_COUNT_DIFFERS  the journal has *number messages, and states another number.
 *   MOLD_E_DAMAGED        there is no whole record where message *number could be.
 *   MOLD_E_MEMORY         an allocation failed; the handle is empty.
 *
 * If the call makes no server, it reads the bytes once more. So it reports a fault even if an allocation failed. */
uint32_t mold_server_new(mold_server *server, size_t limit, uint16_t burst, const uint8_t *journal, size_t length,
                         uint64_t *number);

/* Writes the first response to a request to the start of a buffer. *number is its length. For several responses use
 * mold_server_plan and mold_server_datagram instead.
 *
 *   MOLD_E_BROKEN          the handle does not hold a server.
 *   MOLD_E_ROOM            the buffer is shorter than the limit; *number is the limit.
 *   MOLD_E_REQUEST_LENGTH  the length of the request, *number, is not 20.
 *   MOLD_E_WRONG_SESSION   the request is for another session.
 *   MOLD_E_SEQUENCE_ZERO   its sequence number is 0.
 *   MOLD_E_EMPTY_REQUEST   its count is 0.
 *   MOLD_E_AHEAD           its sequence number is at least *number, one more than that of the last message. For a
 *                          publisher's handle, the last message is the last sent one. */
uint32_t mold_server_answer(const mold_server *server, const uint8_t *request, size_t length, uint8_t *buffer,
                            size_t room, uint64_t *number);

/* Plans all responses to a request. The codes are those of mold_server_answer, except MOLD_E_ROOM. A refusal keeps
 * *plan. If the call succeeds, *number is 0. A plan is a plain struct. It may be kept as long as the session is served,
 * and discarded at any time. */
uint32_t mold_server_plan(const mold_server *server, const uint8_t *request, size_t length, mold_plan *plan,
                          uint64_t *number);

/* Writes the next datagram of a plan to the start of a buffer, and moves the plan past its messages. *size is its
 * length.
 *
 *   MOLD_E_BROKEN  the handle does not hold a server, or the plan does not fit this server: it has another session,
 *                  messages that the journal does not have or that are unsent, or more datagrams than the burst.
 *   MOLD_E_ROOM    the buffer is shorter than the limit; *size is the limit.
 *   MOLD_E_ABSENT  the plan has no remaining datagram; *size is 0. */
uint32_t mold_server_datagram(const mold_server *server, mold_plan *plan, uint8_t *buffer, size_t room, size_t *size);

/* ---- Checker: whether captured datagrams are one whole session ---- */

typedef struct mold_verdict {
    uint64_t messages; /* if the session is whole, its number of messages; otherwise 0 */
    uint64_t end;      /* if it is not whole and an end packet was taken, the number of that packet; otherwise 0 */
    uint64_t ranges;   /* if it is not whole, the number of missing ranges; otherwise 0 */
    uint32_t whole;    /* 1 if the session is whole, otherwise 0 */
    uint32_t unused;   /* padding, which is never written */
} mold_verdict;

/* Makes a checker that has taken no datagram.
 *
 *   MOLD_E_BROKEN  the handle is not empty.
 *   MOLD_E_MEMORY  an allocation failed; the handle is empty. */
uint32_t mold_checker_new(mold_checker *checker);

/* Takes a datagram. Datagrams may come in any order. The session is that of the first datagram taken. Except for
 * MOLD_E_BROKEN and MOLD_E_MEMORY, a datagram is refused exactly when no single session agrees with it and with all
 * those taken before. A refusal changes nothing. If the datagram is taken, *number is 0.
 *
 *   MOLD_E_BROKEN         the handle does not hold a checker.
 *   MOLD_E_SHORT, MOLD_E_BLOCK_CUT, MOLD_E_TRAILING
 *                         the bytes do not encode a packet; *number is as `packet->detail` of mold_decode.
 *   MOLD_E_WRONG_SESSION  the packet belongs to another session.
 *   MOLD_E_SEQUENCE_ZERO  its sequence number is 0.
 *   MOLD_E_PAST_LAST      it has a message with a number above 18446744073709551614.
 *   MOLD_E_END_CONFLICT   it states an end of the session other than the known end, *number.
 *   MOLD_E_END_BELOW      it ends the session below *number, the greatest known top.
 *   MOLD_E_PAST_END       its top is above *number, the known end.
 *   MOLD_E_CONFLICT       its message with number *number differs from that of an earlier datagram. If several messages
 *                         differ, this is the least number.
 *   MOLD_E_MEMORY         an allocation failed. */
uint32_t mold_checker_take(mold_checker *checker, const uint8_t *bytes, size_t length, uint64_t *number);

/* Writes whether the datagrams are one whole session: its end is known, and each message below the end was taken.
 *
 *   MOLD_E_BROKEN  the handle does not hold a checker.
 *   MOLD_E_MEMORY  an allocation failed; writes nothing. */
uint32_t mold_checker_verdict(const mold_checker *checker, mold_verdict *verdict);

/* Writes the missing ranges below the greatest known top, ascending, as many as the array has room for. No two of them
 * adjoin. *count is the number of all missing ranges, as in the verdict. The other elements of the array keep their
 * values. `room` is the number of elements.
 *
 *   MOLD_E_BROKEN  the handle does not hold a checker.
 *   MOLD_E_MEMORY  an allocation failed; writes nothing. */
uint32_t mold_checker_ranges(const mold_checker *checker, mold_range *ranges, size_t room, size_t *count);

#ifdef __cplusplus
}
#endif

/* ---- The names of version 0.1, which a later version removes. MOLD_NO_OLD_NAMES removes them now ---- */

#ifndef MOLD_NO_OLD_NAMES

#define MOLD_SHORT          MOLD_E_SHORT
#define MOLD_BLOCK_CUT      MOLD_E_BLOCK_CUT
#define MOLD_TRAILING       MOLD_E_TRAILING
#define MOLD_LIMIT          MOLD_E_LIMIT
#define MOLD_FULL           MOLD_E_FULL
#define MOLD_BROKEN         MOLD_E_BROKEN
#define MOLD_MEMORY         MOLD_E_MEMORY
#define MOLD_WRONG_SESSION  MOLD_E_WRONG_SESSION
#define MOLD_SEQUENCE_ZERO  MOLD_E_SEQUENCE_ZERO
#define MOLD_PAST_LAST      MOLD_E_PAST_LAST
#define MOLD_END_CONFLICT   MOLD_E_END_CONFLICT
#define MOLD_END_BELOW      MOLD_E_END_BELOW
#define MOLD_PAST_END       MOLD_E_PAST_END
#define MOLD_CONFLICT       MOLD_E_CONFLICT
#define MOLD_LINE           MOLD_E_LINE
#define MOLD_NEXT_ZERO      MOLD_E_NEXT_ZERO
#define MOLD_WINDOW         MOLD_E_WINDOW
#define MOLD_ABSENT         MOLD_E_ABSENT
#define MOLD_CLOSED         MOLD_E_CLOSED
#define MOLD_TOO_LONG       MOLD_E_TOO_LONG
#define MOLD_NUMBERS        MOLD_E_NUMBERS
#define MOLD_UNSENT         MOLD_E_UNSENT
#define MOLD_ROOM           MOLD_E_ROOM
#define MOLD_REQUEST_LENGTH MOLD_E_REQUEST_LENGTH
#define MOLD_EMPTY_REQUEST  MOLD_E_EMPTY_REQUEST
#define MOLD_AHEAD          MOLD_E_AHEAD
#define MOLD_BURST          MOLD_E_BURST
#define MOLD_FILE_SHORT     MOLD_E_FILE_SHORT
#define MOLD_BAD_MAGIC      MOLD_E_BAD_MAGIC
#define MOLD_BAD_FLAG       MOLD_E_BAD_FLAG
#define MOLD_FILE_CUT       MOLD_E_FILE_CUT
#define MOLD_COUNT_DIFFERS  MOLD_E_COUNT_DIFFERS
#define MOLD_DAMAGED        MOLD_E_DAMAGED

#ifdef __cplusplus
extern "C" {
#endif

/* Writes the text of mold_terminated_text without its zero byte. Use mold_code_text. */
void mold_text(uint32_t code, mold_bytes *text);

#ifdef __cplusplus
}
#endif

/* A mold_taken and a mold_delivery with other names of the fields. mold_listener_take and mold_listener_hear accept
 * them too. */
typedef struct mold_told {
    uint64_t detail;
    uint32_t handed;
    uint32_t kept;
    uint32_t beyond;
    uint32_t unused;
} mold_told;

typedef struct mold_heard {
    uint64_t detail;
    size_t offset;
    uint32_t own;
    uint32_t stored;
    uint32_t kept;
    uint32_t beyond;
} mold_heard;

#ifdef __cplusplus

static inline uint32_t mold_listener_take(mold_listener *listener, uint32_t line, const uint8_t *bytes, size_t length,
                                          mold_told *told) {
    void *taken = told;
    return mold_listener_take(listener, line, bytes, length, static_cast<mold_taken *>(taken));
}

static inline uint32_t mold_listener_hear(mold_listener *listener, uint32_t line, const uint8_t *bytes, size_t length,
                                          mold_heard *heard) {
    void *delivery = heard;
    return mold_listener_hear(listener, line, bytes, length, static_cast<mold_delivery *>(delivery));
}

#else

/* A parameter of such a type takes a pointer to either struct. Without __extension__, -Wpedantic would warn of it. */
typedef union mold_taken_or_told {
    mold_taken *taken;
    mold_told *told;
} mold_taken_or_told __attribute__((__transparent_union__));

typedef union mold_delivery_or_heard {
    mold_delivery *delivery;
    mold_heard *heard;
} mold_delivery_or_heard __attribute__((__transparent_union__));

static inline uint32_t mold_listener_take_either(mold_listener *listener, uint32_t line, const uint8_t *bytes,
                                                 size_t length, mold_taken_or_told output) {
    return mold_listener_take(listener, line, bytes, length, output.taken);
}

static inline uint32_t mold_listener_hear_either(mold_listener *listener, uint32_t line, const uint8_t *bytes,
                                                 size_t length, mold_delivery_or_heard output) {
    return mold_listener_hear(listener, line, bytes, length, output.delivery);
}

#define mold_listener_take(...) (__extension__ mold_listener_take_either(__VA_ARGS__))
#define mold_listener_hear(...) (__extension__ mold_listener_hear_either(__VA_ARGS__))

#endif
#endif

/* ---- The layout that the library was compiled for ---- */

#if defined(__cplusplus)
#define MOLD_HOLDS_(name, condition) static_assert(condition, #condition)
#elif defined(__STDC_VERSION__) && __STDC_VERSION__ >= 201112L
#define MOLD_HOLDS_(name, condition) _Static_assert(condition, #condition)
#else
#define MOLD_HOLDS_(name, condition) typedef char mold_holds_##name[(condition) ? 1 : -1]
#endif
#define MOLD_SIZE_(type, size) MOLD_HOLDS_(size_of_##type, sizeof(type) == (size))
#define MOLD_FIELD_(type, field, place) MOLD_HOLDS_(place_of_##type##_##field, offsetof(type, field) == (place))

MOLD_HOLDS_(size_of_pointer, sizeof(void *) == 8 && sizeof(size_t) == 8 && sizeof(bool) == 1);

MOLD_SIZE_(mold_bytes, 16);
MOLD_FIELD_(mold_bytes, at, 0);
MOLD_FIELD_(mold_bytes, length, 8);

MOLD_SIZE_(mold_packet, 32);
MOLD_FIELD_(mold_packet, sequence, 0);
MOLD_FIELD_(mold_packet, detail, 8);
MOLD_FIELD_(mold_packet, kind, 16);
MOLD_FIELD_(mold_packet, count, 20);
MOLD_FIELD_(mold_packet, session, 22);

MOLD_SIZE_(mold_place, 16);
MOLD_FIELD_(mold_place, offset, 0);
MOLD_FIELD_(mold_place, length, 8);

MOLD_SIZE_(mold_request, 24);
MOLD_FIELD_(mold_request, sequence, 0);
MOLD_FIELD_(mold_request, count, 8);
MOLD_FIELD_(mold_request, session, 10);

MOLD_SIZE_(mold_packer, 32);
MOLD_FIELD_(mold_packer, buffer, 0);
MOLD_FIELD_(mold_packer, limit, 8);
MOLD_FIELD_(mold_packer, used, 16);
MOLD_FIELD_(mold_packer, count, 24);
MOLD_FIELD_(mold_packer, open, 26);

MOLD_SIZE_(mold_listener, 16);
MOLD_FIELD_(mold_listener, at, 0);
MOLD_FIELD_(mold_listener, live, 8);
MOLD_SIZE_(mold_repairer, 16);
MOLD_FIELD_(mold_repairer, at, 0);
MOLD_FIELD_(mold_repairer, live, 8);
MOLD_SIZE_(mold_publisher, 16);
MOLD_FIELD_(mold_publisher, at, 0);
MOLD_FIELD_(mold_publisher, live, 8);
MOLD_SIZE_(mold_server, 16);
MOLD_FIELD_(mold_server, at, 0);
MOLD_FIELD_(mold_server, live, 8);
MOLD_SIZE_(mold_checker, 16);
MOLD_FIELD_(mold_checker, at, 0);
MOLD_FIELD_(mold_checker, live, 8);

MOLD_SIZE_(mold_taken, 24);
MOLD_FIELD_(mold_taken, detail, 0);
MOLD_FIELD_(mold_taken, delivered, 8);
MOLD_FIELD_(mold_taken, kept, 12);
MOLD_FIELD_(mold_taken, dropped, 16);
MOLD_FIELD_(mold_taken, unused, 20);

MOLD_SIZE_(mold_delivery, 32);
MOLD_FIELD_(mold_delivery, detail, 0);
MOLD_FIELD_(mold_delivery, offset, 8);
MOLD_FIELD_(mold_delivery, own, 16);
MOLD_FIELD_(mold_delivery, stored, 20);
MOLD_FIELD_(mold_delivery, kept, 24);
MOLD_FIELD_(mold_delivery, dropped, 28);

MOLD_SIZE_(mold_report, 24);
MOLD_FIELD_(mold_report, datagrams, 0);
MOLD_FIELD_(mold_report, refused, 8);
MOLD_FIELD_(mold_report, front, 16);

MOLD_SIZE_(mold_repair_options, 88);
MOLD_FIELD_(mold_repair_options, size, 0);
MOLD_FIELD_(mold_repair_options, next, 8);
MOLD_FIELD_(mold_repair_options, patience, 16);
MOLD_FIELD_(mold_repair_options, timeout, 24);
MOLD_FIELD_(mold_repair_options, ceiling, 32);
MOLD_FIELD_(mold_repair_options, settle, 40);
MOLD_FIELD_(mold_repair_options, interval, 48);
MOLD_FIELD_(mold_repair_options, window, 56);
MOLD_FIELD_(mold_repair_options, bucket, 60);
MOLD_FIELD_(mold_repair_options, places, 64);
MOLD_FIELD_(mold_repair_options, servers, 68);
MOLD_FIELD_(mold_repair_options, give_up, 72);
MOLD_FIELD_(mold_repair_options, audit, 76);
MOLD_FIELD_(mold_repair_options, store, 80);

MOLD_SIZE_(mold_line_stats, 40);
MOLD_FIELD_(mold_line_stats, datagrams, 0);
MOLD_FIELD_(mold_line_stats, first, 8);
MOLD_FIELD_(mold_line_stats, again, 16);
MOLD_FIELD_(mold_line_stats, refused, 24);
MOLD_FIELD_(mold_line_stats, late, 32);

MOLD_SIZE_(mold_repair_stats, 184);
MOLD_FIELD_(mold_repair_stats, next, 0);
MOLD_FIELD_(mold_repair_stats, known, 8);
MOLD_FIELD_(mold_repair_stats, gap_first, 16);
MOLD_FIELD_(mold_repair_stats, gap_last, 24);
MOLD_FIELD_(mold_repair_stats, missing, 32);
MOLD_FIELD_(mold_repair_stats, stored, 40);
MOLD_FIELD_(mold_repair_stats, patience, 48);
MOLD_FIELD_(mold_repair_stats, requests, 56);
MOLD_FIELD_(mold_repair_stats, answers, 64);
MOLD_FIELD_(mold_repair_stats, useless, 72);
MOLD_FIELD_(mold_repair_stats, lost, 80);
MOLD_FIELD_(mold_repair_stats, contradictions, 88);
MOLD_FIELD_(mold_repair_stats, contradiction, 96);
MOLD_FIELD_(mold_repair_stats, a, 104);
MOLD_FIELD_(mold_repair_stats, b, 144);

MOLD_SIZE_(mold_plan, 32);
MOLD_FIELD_(mold_plan, from, 0);
MOLD_FIELD_(mold_plan, to, 8);
MOLD_FIELD_(mold_plan, left, 16);
MOLD_FIELD_(mold_plan, session, 18);

MOLD_SIZE_(mold_range, 16);
MOLD_FIELD_(mold_range, first, 0);
MOLD_FIELD_(mold_range, last, 8);

MOLD_SIZE_(mold_verdict, 32);
MOLD_FIELD_(mold_verdict, messages, 0);
MOLD_FIELD_(mold_verdict, end, 8);
MOLD_FIELD_(mold_verdict, ranges, 16);
MOLD_FIELD_(mold_verdict, whole, 24);
MOLD_FIELD_(mold_verdict, unused, 28);

#ifndef MOLD_NO_OLD_NAMES
MOLD_SIZE_(mold_told, 24);
MOLD_FIELD_(mold_told, handed, 8);
MOLD_FIELD_(mold_told, kept, 12);
MOLD_FIELD_(mold_told, beyond, 16);

MOLD_SIZE_(mold_heard, 32);
MOLD_FIELD_(mold_heard, offset, 8);
MOLD_FIELD_(mold_heard, own, 16);
MOLD_FIELD_(mold_heard, stored, 20);
MOLD_FIELD_(mold_heard, kept, 24);
MOLD_FIELD_(mold_heard, beyond, 28);
#endif

#undef MOLD_FIELD_
#undef MOLD_SIZE_
#undef MOLD_HOLDS_

#endif
