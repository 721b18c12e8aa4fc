/* A library for LD_PRELOAD that records the calls of a program for files and sockets, and kills it at one of them.
 *
 * WRITES_LOG names a file to which a struct entry is appended for each of the calls below, and then `length` bytes. The
 * call number WRITES_KILL_AT, counted from 1, kills the program with signal 9. Only pwrite, fdatasync, ftruncate, link
 * and unlink have a number. Of a write only the first WRITES_KILL_PART bytes are written before. With WRITES_NO_SYNC no
 * sync reaches the system.
 *
 * WRITES_WRONG simulates a program that is wrong:
 *   no-sync       it never calls fdatasync;
 *   no-folder     it never calls fsync;
 *   other-folder  it opens the root folder in place of the working folder;
 *   not-empty     the file that it creates has bytes already.
 * tests/durable, tests/recorded-calls and library/bench/durable use this library. */
#define _GNU_SOURCE
#include <dlfcn.h>
#include <fcntl.h>
#include <netinet/in.h>
#include <signal.h>
#include <stdarg.h>
#include <stdint.h>
#include <stdlib.h>
#include <string.h>
#include <sys/socket.h>
#include <unistd.h>

/* What is recorded, and its bytes:
 *   WRITE    pwrite: the bytes that are written at `offset`
 *   SYNC     fdatasync
 *   CUT      ftruncate, to the length `offset`
 *   LINK     both paths, each with a final zero byte
 *   UNLINK   the path
 *   OPEN     open and openat, if they succeed: the path. The file has `offset` bytes then.
 *   FOLDER   fsync
 *   SEND     sendto, to the port `offset`: the datagram
 *   PRINT    write: the bytes
 *   READ     pread: the bytes that were read at `offset`
 *   BIND     bind, to the port `offset`: the four bytes of the address
 *   OPTION   setsockopt, of the level and the name in the upper and the lower half of `offset`: the value
 * OPEN and READ are recorded when the call returns, the others before it. */
enum kind { WRITE = 1, SYNC, CUT, LINK, UNLINK, OPEN, FOLDER, SEND, PRINT, READ, BIND, OPTION };
struct entry { uint64_t kind, file, offset, length; };

static int log_file = -1, has_begun, no_sync;
static uint64_t calls, kill_at, kill_part;
static const char *wrong = "";

#define NEXT(name) static typeof(&name) next; if (!next) next = (typeof(&name))dlsym(RTLD_NEXT, #name)

static uint64_t number_of(const char *name) {
    const char *text = getenv(name);
    return text ? strtoull(text, NULL, 10) : 0;
}

static int is_wrong(const char *name) { return !strcmp(wrong, name); }

static void begin(void) {
    if (has_begun) return;
    has_begun = 1;
    const char *path = getenv("WRITES_LOG");
    int found = path ? open(path, O_WRONLY | O_CREAT | O_APPEND | O_CLOEXEC, 0666) : -1;
    kill_at = number_of("WRITES_KILL_AT");
    kill_part = number_of("WRITES_KILL_PART");
    no_sync = getenv("WRITES_NO_SYNC") != NULL;
    if (getenv("WRITES_WRONG")) wrong = getenv("WRITES_WRONG");
    log_file = found;
}

/* Writes bytes by the system's `write`, which is not recorded. */
static void append_to(int file, const void *bytes, size_t length) {
    static ssize_t (*next)(int, const void *, size_t);
    if (!next) next = (ssize_t (*)(int, const void *, size_t))dlsym(RTLD_NEXT, "write");
    if (length && next(file, bytes, length) < 0) abort();
}

static void append(const void *bytes, size_t length) { append_to(log_file, bytes, length); }

static void record(enum kind kind, int file, const void *bytes, uint64_t length, uint64_t offset) {
    begin();
    if (log_file < 0) return;
    struct entry entry = {kind, (uint64_t)file, offset, length};
    append(&entry, sizeof entry);
    append(bytes, length);
}

/* Whether this call is the last one. */
static int is_last(void) {
    begin();
    return ++calls == kill_at;
}

static void end(void) { kill(getpid(), SIGKILL); }

ssize_t pwrite(int file, const void *bytes, size_t length, off_t offset) {
    NEXT(pwrite);
    if (is_last()) {
        if (kill_part) (void)!next(file, bytes, kill_part < length ? kill_part : length, offset);
        end();
    }
    record(WRITE, file, bytes, length, (uint64_t)offset);
    return next(file, bytes, length, offset);
}
ssize_t pwrite64(int file, const void *bytes, size_t length, off_t offset) {
    return pwrite(file, bytes, length, offset);
}
int fdatasync(int file) {
    NEXT(fdatasync);
    if (is_last()) end();
    if (is_wrong("no-sync")) return 0;
    record(SYNC, file, NULL, 0, 0);
    return no_sync ? 0 : next(file);
}
int fsync(int file) {
    NEXT(fsync);
    begin();
    if (is_wrong("no-folder")) return 0;
    record(FOLDER, file, NULL, 0, 0);
    return no_sync ? 0 : next(file);
}
int ftruncate(int file, off_t length) {
    NEXT(ftruncate);
    if (is_last()) end();
    record(CUT, file, NULL, 0, (uint64_t)length);
    return next(file, length);
}
int ftruncate64(int file, off_t length) { return ftruncate(file, length); }
int link(const char *from, const char *to) {
    NEXT(link);
    if (is_last()) end();
    begin();
    if (log_file >= 0) {
        size_t first = strlen(from) + 1, second = strlen(to) + 1;
        struct entry entry = {LINK, 0, 0, first + second};
        append(&entry, sizeof entry);
        append(from, first);
        append(to, second);
    }
    return next(from, to);
}
int unlink(const char *path) {
    NEXT(unlink);
    if (is_last()) end();
    record(UNLINK, 0, path, strlen(path), 0);
    return next(path);
}

/* The calls below have no number. */
static int opened(int file, const char *path, int flags) {
    if (file < 0 || !has_begun || log_file < 0) return file;
    static const char stale[] = "MOLDJNL3";
    if (is_wrong("not-empty") && flags & O_EXCL) append_to(file, stale, sizeof stale - 1);
    off_t size = lseek(file, 0, SEEK_END);
    lseek(file, 0, SEEK_SET);
    record(OPEN, file, path, strlen(path), size < 0 ? 0 : (uint64_t)size);
    return file;
}
static const char *path_of(const char *path) {
    return is_wrong("other-folder") && !strcmp(path, ".") ? "/" : path;
}
int openat(int folder, const char *path, int flags, ...) {
    NEXT(openat);
    va_list more;
    va_start(more, flags);
    int mode = flags & O_CREAT ? va_arg(more, int) : 0;
    va_end(more);
    begin();
    return opened(next(folder, path_of(path), flags, mode), path_of(path), flags);
}
int open(const char *path, int flags, ...) {
    NEXT(open);
    va_list more;
    va_start(more, flags);
    int mode = flags & O_CREAT ? va_arg(more, int) : 0;
    va_end(more);
    begin();
    return opened(next(path_of(path), flags, mode), path_of(path), flags);
}
ssize_t sendto(int port, const void *bytes, size_t size, int flags, const struct sockaddr *to, socklen_t length) {
    NEXT(sendto);
    int has_port = length >= sizeof(struct sockaddr_in);
    record(SEND, port, bytes, size, has_port ? ntohs(((struct sockaddr_in *)to)->sin_port) : 0);
    return next(port, bytes, size, flags, to, length);
}
ssize_t write(int file, const void *bytes, size_t size) {
    NEXT(write);
    record(PRINT, file, bytes, size, 0);
    return next(file, bytes, size);
}
ssize_t __write(int file, const void *bytes, size_t size) { return write(file, bytes, size); }
ssize_t pread(int file, void *buffer, size_t size, off_t offset) {
    NEXT(pread);
    ssize_t count = next(file, buffer, size, offset);
    record(READ, file, buffer, count > 0 ? (uint64_t)count : 0, (uint64_t)offset);
    return count;
}
ssize_t pread64(int file, void *buffer, size_t size, off_t offset) { return pread(file, buffer, size, offset); }
int bind(int port, const struct sockaddr *own, socklen_t length) {
    NEXT(bind);
    const struct sockaddr_in *found = (const struct sockaddr_in *)own;
    if (length >= sizeof *found) record(BIND, port, &found->sin_addr, sizeof found->sin_addr, ntohs(found->sin_port));
    return next(port, own, length);
}
int setsockopt(int port, int level, int name, const void *value, socklen_t length) {
    NEXT(setsockopt);
    record(OPTION, port, value, length, (uint64_t)level << 32 | (uint32_t)name);
    return next(port, level, name, value, length);
}
