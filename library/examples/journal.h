/* A durable journal file of a publisher, for exchange.c. The library makes the bytes. These functions write them and
 * sync the file, in the order that mold.h explains. An error ends the program. */
#ifndef JOURNAL_H
#define JOURNAL_H

#include "udp.h"

#include <libgen.h>
#include <limits.h>
#include <sys/file.h>
#include <sys/stat.h>

/* The length of the head of a file, in bytes. */
enum { JOURNAL_HEAD = 19 };

/* An open journal file, which is locked. */
struct journal {
    const char *name;
    int file;
    /* The number of durable messages, and the offset of the shut gate. */
    uint64_t messages, gate;
    /* What a commit appends. */
    uint8_t *records;
    size_t room;
};

/* Writes bytes at an offset of the file, and waits until they are on disk. */
static inline void write_at(const struct journal *journal, const uint8_t *bytes, size_t length, uint64_t offset) {
    while (length > 0) {
        ssize_t written = pwrite(journal->file, bytes, length, (off_t)offset);
        if (written < 0 && errno != EINTR)
            fail(journal->name, strerror(errno));
        if (written > 0) {
            bytes += written;
            length -= (size_t)written;
            offset += (uint64_t)written;
        }
    }
    if (fdatasync(journal->file) != 0)
        fail(journal->name, strerror(errno));
}

/* Makes the publisher's messages durable, of which there are `messages`, and the end of the session if it is closed.
 * Does nothing if the journal has no name. */
static inline void commit(struct journal *journal, const mold_publisher *publisher, uint64_t messages) {
    uint64_t from = journal->messages + 1;
    size_t size = 0;
    if (journal->name == NULL)
        return;
    if (mold_journal_records(publisher, from, journal->records, journal->room, &size) == MOLD_E_ROOM) {
        free(journal->records);
        journal->room = 2 * size;
        journal->records = malloc(journal->room);
        if (journal->records == NULL)
            fail(journal->name, "out of memory");
        need("records", mold_journal_records(publisher, from, journal->records, journal->room, &size));
    }
    write_at(journal, journal->records + 1, size - 1, journal->gate + 1);
    write_at(journal, journal->records, 1, journal->gate);
    journal->gate += size - 1;
    journal->messages = messages;
}

/* Opens a file and locks it. Returns -1 if there is no such file. */
static inline int open_file(const char *name, int flags) {
    int file = open(name, flags | O_RDWR | O_CLOEXEC, 0666);
    if (file < 0 && errno == ENOENT)
        return -1;
    if (file < 0)
        fail(name, strerror(errno));
    if (flock(file, LOCK_EX | LOCK_NB) != 0)
        fail(name, "another process has locked it");
    return file;
}

/* Makes the name of a new file durable. */
static inline void sync_folder(const char *name) {
    char copy[PATH_MAX];
    snprintf(copy, sizeof copy, "%s", name);
    int folder = open(dirname(copy), O_RDONLY | O_DIRECTORY | O_CLOEXEC);
    if (folder < 0 || fsync(folder) != 0)
        fail(name, strerror(errno));
    close(folder);
}

/* Opens the journal file with this name, if there is one. Then resume_journal has to be called. */
static inline bool open_journal(struct journal *journal, const char *name) {
    journal->name = name;
    journal->file = open_file(name, 0);
    return journal->file >= 0;
}

/* Makes the journal file of a new publisher. The file gets its name when it is on disk. */
static inline void create_journal(struct journal *journal, const char *name, const mold_publisher *publisher) {
    uint8_t head[JOURNAL_HEAD];
    char unfinished[PATH_MAX];
    size_t size = 0;
    journal->name = name;
    need("head", mold_journal_head(publisher, head, sizeof head, &size));
    if (snprintf(unfinished, sizeof unfinished, "%s.new", name) >= (int)sizeof unfinished)
        fail(name, "the name is too long");
    journal->file = open_file(unfinished, O_CREAT);
    if (ftruncate(journal->file, 0) != 0)
        fail(unfinished, strerror(errno));
    write_at(journal, head, size, 0);
    journal->gate = size - 1;
    if (rename(unfinished, name) != 0)
        fail(name, strerror(errno));
    sync_folder(name);
}

/* Returns all bytes of the file, which are on disk, and their number. The caller frees them. */
static inline uint8_t *read_journal(const struct journal *journal, size_t *had) {
    struct stat stated;
    if (fstat(journal->file, &stated) != 0)
        fail(journal->name, strerror(errno));
    uint8_t *bytes = malloc((size_t)stated.st_size + 1);
    if (bytes == NULL)
        fail(journal->name, "out of memory");
    *had = 0;
    for (ssize_t came = 1; came > 0; *had += (size_t)came) {
        came = pread(journal->file, bytes + *had, (size_t)stated.st_size - *had, (off_t)*had);
        if (came < 0)
            fail(journal->name, strerror(errno));
    }
    if (fdatasync(journal->file) != 0)
        fail(journal->name, strerror(errno));
    sync_folder(journal->name);
    return bytes;
}

/* Makes a publisher that continues the session of an open journal file. Returns whether the session is closed. */
static inline bool resume_journal(struct journal *journal, mold_publisher *publisher, const uint8_t session[10],
                                  size_t limit) {
    static uint8_t datagram[GREATEST];
    mold_packet packet;
    size_t size = 0;
    uint8_t *bytes = read_journal(journal, &size);
    need(journal->name, mold_publisher_resume(publisher, limit, bytes, size, &journal->gate));
    free(bytes);
    /* A heartbeat or an end packet has the session, and the number that follows the last message's. */
    bool closed = mold_publisher_end(publisher, datagram, sizeof datagram, &size) == MOLD_DONE;
    if (!closed)
        need("heartbeat", mold_publisher_heartbeat(publisher, datagram, sizeof datagram, &size));
    need("packet", mold_decode(datagram, size, &packet));
    if (memcmp(packet.session, session, sizeof packet.session) != 0)
        fail(journal->name, "another session");
    journal->messages = packet.sequence - 1;
    return closed;
}

/* Closes the file, if there is one. */
static inline void close_journal(struct journal *journal) {
    if (journal->name != NULL)
        close(journal->file);
    free(journal->records);
}

#endif
