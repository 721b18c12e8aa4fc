/* Tests of the journal file that a program keeps: its bytes, commits that a crash interrupts, and publishers that
 * continue its session. */
#include "check.h"
#include "test.h"

#define HEAD_3 "4d4f4c444a4e4c33" SESSION_HEX
#define HEAD_2 "4d4f4c444a4e4c32" SESSION_HEX

static void the_head_is_written(void) {
    mold_publisher publisher = publisher_of(64);
    datagram room = of_length(20);
    size_t size = 99;
    CODE(mold_journal_head(&publisher, room.at, 18, &size), MOLD_E_ROOM);
    CHECK(size == 19 && room.at[0] == 0);
    room.at[19] = 7;
    CODE(mold_journal_head(&publisher, room.at, 20, &size), MOLD_DONE);
    HEX(room.at, size, HEAD_3 "00");
    CHECK(room.at[19] == 7);
    free(room.at);
    mold_free(&publisher);
}

/* The bytes from each number on, as docs/FORMATS.md has them for these two messages. */
static void records_are_written(void) {
    mold_publisher publisher = publisher_of(64);
    datagram room = of_length(64);
    uint64_t number = 0;
    size_t size = 99;
    CODE(mold_journal_records(&publisher, 0, room.at, 64, &size), MOLD_E_ABSENT);
    CHECK(size == 0);
    CODE(mold_journal_records(&publisher, 1, NULL, 0, &size), MOLD_E_ROOM);
    CHECK(size == 1);
    CODE(mold_journal_records(&publisher, 1, room.at, 64, &size), MOLD_DONE);
    HEX(room.at, size, "00");
    CODE(mold_publisher_publish(&publisher, (const uint8_t *)"AB", 2, &number), MOLD_DONE);
    CODE(mold_publisher_publish(&publisher, NULL, 0, &number), MOLD_DONE);
    memset(room.at, 7, 64);
    CODE(mold_journal_records(&publisher, 1, room.at, 10, &size), MOLD_E_ROOM);
    CHECK(size == 11 && room.at[0] == 7);
    CODE(mold_journal_records(&publisher, 1, room.at, 11, &size), MOLD_DONE);
    HEX(room.at, size, "010000024142" "01000000" "00");
    CHECK(room.at[11] == 7);
    CODE(mold_journal_records(&publisher, 2, room.at, 64, &size), MOLD_DONE);
    HEX(room.at, size, "01000000" "00");
    CODE(mold_journal_records(&publisher, 3, room.at, 64, &size), MOLD_DONE);
    HEX(room.at, size, "00");
    CODE(mold_journal_records(&publisher, 4, room.at, 64, &size), MOLD_E_ABSENT);
    CODE(mold_journal_records(&publisher, UINT64_MAX, room.at, 64, &size), MOLD_E_ABSENT);
    CODE(mold_publisher_datagram(&publisher, room.at, 64, &size), MOLD_DONE);
    CODE(mold_publisher_close(&publisher, &number), MOLD_DONE);
    CODE(mold_journal_records(&publisher, 1, room.at, 64, &size), MOLD_DONE);
    HEX(room.at, size, "010000024142" "01000000" "010100");
    CODE(mold_journal_records(&publisher, 3, room.at, 2, &size), MOLD_E_ROOM);
    CHECK(size == 3);
    CODE(mold_journal_records(&publisher, 3, room.at, 3, &size), MOLD_DONE);
    HEX(room.at, size, "010100");
    free(room.at);
    mold_free(&publisher);
}

static uint32_t resume(mold_publisher *publisher, size_t limit, datagram journal, uint64_t *number) {
    uint32_t code = mold_publisher_resume(publisher, limit, journal.at, journal.length, number);
    free(journal.at);
    return code;
}

static void files_that_are_not_continued(void) {
    mold_publisher publisher = MOLD_EMPTY;
    uint64_t number = 99;
    CODE(resume(&publisher, 63, of_hex(HEAD_3 "00"), &number), MOLD_E_LIMIT);
    CODE(resume(&publisher, 65508, of_hex(HEAD_3 "00"), &number), MOLD_E_LIMIT);
    CHECK(number == 0);
    CODE(mold_publisher_resume(&publisher, 64, NULL, 0, &number), MOLD_E_FILE_SHORT);
    CHECK(number == 0);
    CODE(resume(&publisher, 64, of_length(17), &number), MOLD_E_FILE_SHORT);
    CHECK(number == 17);
    CODE(resume(&publisher, 64, of_length(18), &number), MOLD_E_BAD_MAGIC);
    CHECK(number == 0);
    CODE(resume(&publisher, 64, five_messages(), &number), MOLD_E_BAD_MAGIC);
    CODE(resume(&publisher, 64, of_hex(HEAD_2 "000000000000000000"), &number), MOLD_E_BAD_MAGIC);
    CODE(resume(&publisher, 64, of_hex(HEAD_2 "020000000000000000"), &number), MOLD_E_BAD_MAGIC);
    CODE(resume(&publisher, 64, of_hex(HEAD_3), &number), MOLD_E_DAMAGED);
    CHECK(number == 1);
    CODE(resume(&publisher, 64, of_hex(HEAD_3 "010000024142" "010000"), &number), MOLD_E_DAMAGED);
    CHECK(number == 2);
    CODE(resume(&publisher, 64, of_hex(HEAD_3 "0100002b"), &number), MOLD_E_TOO_LONG);
    CHECK(number == 43 && publisher.at == NULL && !publisher.live);
    CODE(resume(&publisher, 64, of_hex(HEAD_3 "00"), &number), MOLD_DONE);
    CHECK(number == 18);
    number = 99;
    CODE(resume(&publisher, 63, of_length(0), &number), MOLD_E_BROKEN);
    CHECK(number == 99);
    mold_free(&publisher);
}

/* ---- Commits ---- */

/* A file in memory, and the offset of its shut gate or closing record. The bytes after it have any value, as after a
 * crash. */
typedef struct file {
    uint8_t bytes[128];
    uint64_t at;
} file;

/* Checks that a publisher continues the file: the number of its next message, the offset at which records end, and
 * whether the session is closed. */
static void is_continued(const file *kept, uint64_t next, uint64_t at, bool closed) {
    mold_publisher publisher = MOLD_EMPTY;
    uint8_t packet[64];
    uint64_t number = 99, found = 0;
    size_t size = 0;
    CODE(mold_publisher_resume(&publisher, 64, kept->bytes, sizeof kept->bytes, &number), MOLD_DONE);
    CHECK(number == at);
    CODE(mold_publisher_datagram(&publisher, packet, 64, &size), MOLD_E_ABSENT);
    if (closed)
        CODE(mold_publisher_end(&publisher, packet, 64, &size), MOLD_DONE);
    else
        CODE(mold_publisher_heartbeat(&publisher, packet, 64, &size), MOLD_DONE);
    for (size_t i = 10; i < 18; i++)
        found = found << 8 | packet[i];
    CHECK(found == next && memcmp(packet, SESSION, 10) == 0);
    mold_free(&publisher);
}

/* Commits the messages from number `from` to before `next`, as mold.h states. After each byte, the file is that before
 * or after the commit. */
static void commit(file *kept, const mold_publisher *publisher, uint64_t from, uint64_t next, bool closed) {
    uint8_t buffer[64];
    size_t size = 0;
    CODE(mold_journal_records(publisher, from, buffer, sizeof buffer, &size), MOLD_DONE);
    for (size_t i = 1; i < size; i++) {
        is_continued(kept, from, kept->at, false);
        kept->bytes[kept->at + i] = buffer[i];
    }
    is_continued(kept, from, kept->at, false);
    kept->bytes[kept->at] = buffer[0];
    if (!closed)
        kept->at += size - 1;
    is_continued(kept, next, kept->at, closed);
}

/* A session that is continued after each commit. `rest` is the value of the bytes that nothing has written. */
static void a_session_is_continued(uint8_t rest) {
    mold_publisher publisher = publisher_of(64);
    file kept;
    datagram room = of_length(64);
    uint64_t number = 0, next = 1;
    size_t size = 0;
    memset(kept.bytes, rest, sizeof kept.bytes);
    CODE(mold_journal_head(&publisher, kept.bytes, sizeof kept.bytes, &size), MOLD_DONE);
    kept.at = size - 1;
    is_continued(&kept, 1, 18, false);
    for (int commits = 0; commits < 3; commits++) {
        for (int i = 0; i < commits; i++)
            CODE(publish(&publisher, 1, (size_t)(5 * i), &number), MOLD_DONE);
        commit(&kept, &publisher, next, next + (uint64_t)commits, false);
        next += (uint64_t)commits;
        mold_free(&publisher);
        CODE(mold_publisher_resume(&publisher, 64, kept.bytes, sizeof kept.bytes, &number), MOLD_DONE);
        CHECK(number == kept.at);
    }
    CODE(publish(&publisher, 2, 2, &number), MOLD_DONE);
    CHECK(number == 4);
    commit(&kept, &publisher, 4, 5, false);
    CODE(mold_publisher_datagram(&publisher, room.at, 64, &size), MOLD_DONE);
    HEX(room.at, size, SESSION_HEX "0000000000000004" "0001" "00020202");
    CODE(mold_publisher_close(&publisher, &number), MOLD_DONE);
    commit(&kept, &publisher, 5, 5, true);
    HEX(kept.bytes, (size_t)kept.at + 3, HEAD_3 "01000000" "01000000" "010000050101010101" "010000020202" "010100");
    mold_free(&publisher);
    CODE(mold_publisher_resume(&publisher, 64, kept.bytes, sizeof kept.bytes, &number), MOLD_DONE);
    CODE(publish(&publisher, 1, 1, &number), MOLD_E_CLOSED);
    CODE(mold_server_from_publisher(&publisher, 1), MOLD_DONE);
    CODE(answer(mold_server_of(&publisher), SESSION_HEX "0000000000000003ffff", room, &number), MOLD_DONE);
    HEX(room.at, (size_t)number, SESSION_HEX "0000000000000003" "0002" "00050101010101" "00020202");
    mold_free(&publisher);
    free(room.at);
}

void test_journal(void) {
    the_head_is_written();
    records_are_written();
    files_that_are_not_continued();
    a_session_is_continued(0);
    a_session_is_continued(1);
}
