/* A library for LD_PRELOAD that makes allocations and system calls fail. FAULT names the kind of call: allocation,
 * read (also `pread`), interrupt, write, receive, send or wait. An interrupt is a `read` of standard input that fails
 * as interrupted. The call number FAULT_AT of that kind fails, counted from 1. With FAULT_TIMES so do the following
 * ones, FAULT_TIMES calls in all. With FAULT_ALL all later calls of that kind fail too. With FAULT_SINGLE_BYTES each
 * read or write transfers one byte. The counts are mapped to the file FAULT_COUNTS, of sizeof(struct counts) bytes, so
 * they are kept however the program ends.
 *
 * FAULT_CALL names a function in place of a kind, such as `pwrite`. Its call number FAULT_AT then fails with the error
 * number FAULT_ERROR. `open` also stands for `openat`. The files of /proc have the name `open-proc`. FAULT_TO is a
 * port: then only datagrams to it count. FAULT_HOW changes what the call does:
 *   short     it transfers one byte;
 *   full      it transfers half of its bytes, and all later calls of the function fail;
 *   killed    signal 9 ends the program before the call;
 *   torn      signal 9 ends the program when the call, which is a `pwrite`, has written half of its bytes;
 *   replaced  before it, which is a `flock`, the file FAULT_OTHER gets the name FAULT_FILE, as if by another process;
 *   unseen    the same, but `statx` of that name continues to describe the file that had it;
 *   hidden    it does nothing, and returns success;
 *   cut       it transfers one byte, and the next call none, as if the file ended.
 * The last three simulate a program that ignores what happened.
 * tests/out-of-memory, tests/io-errors and tests/failing-calls use this library. */
#define _GNU_SOURCE
#include <dirent.h>
#include <dlfcn.h>
#include <errno.h>
#include <fcntl.h>
#include <link.h>
#include <netinet/in.h>
#include <poll.h>
#include <signal.h>
#include <stdarg.h>
#include <stdint.h>
#include <stdio.h>
#include <stdlib.h>
#include <string.h>
#include <sys/file.h>
#include <sys/mman.h>
#include <sys/socket.h>
#include <sys/stat.h>
#include <time.h>
#include <unistd.h>

/* `own` counts the failed calls that the program made itself, not through a library. */
static struct counts { uint64_t calls, failed, own; } no_counts, *counts;
static const char *kind, *function, *how;
static uint64_t at, times, to;
static int all, single_bytes, error;
static uintptr_t code_begin, code_end;

/* The loader lists the program first. */
static int note_program(struct dl_phdr_info *info, size_t size, void *unused) {
    for (int i = 0; i < info->dlpi_phnum; i++)
        if (info->dlpi_phdr[i].p_type == PT_LOAD && info->dlpi_phdr[i].p_flags & PF_X) {
            code_begin = info->dlpi_addr + info->dlpi_phdr[i].p_vaddr;
            code_end = code_begin + info->dlpi_phdr[i].p_memsz;
        }
    return 1;
}

static uint64_t number_of(const char *name, uint64_t other) {
    const char *text = getenv(name);
    return text ? strtoull(text, NULL, 10) : other;
}

static void begin(void) {
    const char *path = getenv("FAULT_COUNTS");
    counts = &no_counts;
    at = number_of("FAULT_AT", 0);
    times = number_of("FAULT_TIMES", 1);
    to = number_of("FAULT_TO", 0);
    error = (int)number_of("FAULT_ERROR", EIO);
    all = getenv("FAULT_ALL") != NULL;
    single_bytes = getenv("FAULT_SINGLE_BYTES") != NULL;
    dl_iterate_phdr(note_program, NULL);
    int file = path ? open(path, O_RDWR) : -1;
    void *shared = file < 0 ? MAP_FAILED : mmap(NULL, sizeof *counts, PROT_READ | PROT_WRITE, MAP_SHARED, file, 0);
    if (shared != MAP_FAILED) counts = shared;
    *counts = (struct counts){0};
    if (file >= 0) close(file);
    /* Only now, so that the call of `open` above does not count. */
    kind = getenv("FAULT");
    function = getenv("FAULT_CALL");
    how = getenv("FAULT_HOW") ? getenv("FAULT_HOW") : "";
}

static int fails(const char *called, int with, void *caller) {
    if (!counts) begin();
    if (!kind || strcmp(kind, called)) return 0;
    uint64_t number = ++counts->calls;
    if (!at || number < at || (number >= at + times && !all)) return 0;
    counts->failed++;
    counts->own += (uintptr_t)caller >= code_begin && (uintptr_t)caller < code_end;
    errno = with;
    return 1;
}

/* What happens to a call of a function. */
enum fate { PASSES, FAILS, TRANSFERS_ONE, TRANSFERS_HALF, TRANSFERS_NONE, DOES_NOTHING, IS_REPLACED, IS_TORN };

static enum fate fate_of(const char *called) {
    if (!counts) begin();
    if (!function || strcmp(function, called)) return PASSES;
    uint64_t number = ++counts->calls, past = number - at;
    if (!at || number < at) return PASSES;
    int is_full = !strcmp(how, "full"), is_cut = !strcmp(how, "cut");
    if (past >= (is_cut ? 2 : times) && !all && !is_full) return PASSES;
    counts->failed++;
    if (is_full && past == 0) return TRANSFERS_HALF;
    if (is_cut) return past == 0 ? TRANSFERS_ONE : TRANSFERS_NONE;
    if (!strcmp(how, "short")) return TRANSFERS_ONE;
    if (!strcmp(how, "hidden")) return DOES_NOTHING;
    if (!strcmp(how, "killed")) kill(getpid(), SIGKILL);
    if (!strcmp(how, "torn")) return IS_TORN;
    if (!strcmp(how, "replaced") || !strcmp(how, "unseen")) return IS_REPLACED;
    errno = error;
    return FAILS;
}

/* Returns from a wrapper of a function without a length, unless the call passes. */
#define RETURN_IF_FATED(name) \
    switch (fate_of(name)) { case FAILS: return -1; case DOES_NOTHING: return 0; default: break; }
/* The same for a function that transfers bytes. Otherwise `size` is how many it may transfer. */
#define LIMIT_IF_FATED(name, size) \
    switch (fate_of(name)) { \
        case FAILS: return -1; \
        case DOES_NOTHING: return (ssize_t)size; \
        case TRANSFERS_NONE: return 0; \
        case TRANSFERS_ONE: size = size ? 1 : 0; break; \
        case TRANSFERS_HALF: size = size / 2; break; \
        default: break; \
    }

#define FAILS_WITH(kind, error) fails(kind, error, __builtin_return_address(0))
#define NO_MEMORY FAILS_WITH("allocation", ENOMEM)
#define FAILS(kind) FAILS_WITH(kind, EIO)
#define NEXT(name) static typeof(&name) next; if (!next) next = (typeof(&name))dlsym(RTLD_NEXT, #name)

void *malloc(size_t size) { NEXT(malloc); return NO_MEMORY ? NULL : next(size); }
void *calloc(size_t number, size_t size) { NEXT(calloc); return !next || NO_MEMORY ? NULL : next(number, size); }
void *realloc(void *old, size_t size) { NEXT(realloc); return size && NO_MEMORY ? NULL : next(old, size); }
void *aligned_alloc(size_t to, size_t size) { NEXT(aligned_alloc); return NO_MEMORY ? NULL : next(to, size); }
int posix_memalign(void **new, size_t to, size_t size) {
    NEXT(posix_memalign);
    return NO_MEMORY ? ENOMEM : next(new, to, size);
}

static size_t moved(size_t size) { return single_bytes && size ? 1 : size; }

ssize_t read(int file, void *buffer, size_t size) {
    NEXT(read);
    LIMIT_IF_FATED("read", size);
    if (FAILS("read") || (file == STDIN_FILENO && FAILS_WITH("interrupt", EINTR))) return -1;
    return next(file, buffer, moved(size));
}
ssize_t pread(int file, void *buffer, size_t size, off_t at) {
    NEXT(pread);
    LIMIT_IF_FATED("pread", size);
    return FAILS("read") ? -1 : next(file, buffer, moved(size), at);
}
ssize_t getdents64(int folder, void *buffer, size_t size) {
    NEXT(getdents64);
    RETURN_IF_FATED("getdents64");
    return FAILS("read") ? -1 : next(folder, buffer, size);
}
/* As a kind, writes to standard error never fail, because the program reports the fault there. */
ssize_t write(int file, const void *bytes, size_t size) {
    NEXT(write);
    LIMIT_IF_FATED("write", size);
    return file != STDERR_FILENO && FAILS("write") ? -1 : next(file, bytes, moved(size));
}
ssize_t __write(int file, const void *bytes, size_t size) { return write(file, bytes, size); }
ssize_t recvfrom(int port, void *buffer, size_t size, int how, struct sockaddr *from, socklen_t *length) {
    NEXT(recvfrom);
    RETURN_IF_FATED("recvfrom");
    return FAILS("receive") ? -1 : next(port, buffer, size, how, from, length);
}
ssize_t sendto(int port, const void *bytes, size_t size, int flags, const struct sockaddr *other, socklen_t length) {
    NEXT(sendto);
    if (!counts) begin();
    if (!to || (length >= sizeof(struct sockaddr_in) && ntohs(((struct sockaddr_in *)other)->sin_port) == to))
        LIMIT_IF_FATED("sendto", size);
    return FAILS("send") ? -1 : next(port, bytes, size, flags, other, length);
}
int poll(struct pollfd *asked, nfds_t number, int time) {
    NEXT(poll);
    RETURN_IF_FATED("poll");
    return FAILS("wait") ? -1 : next(asked, number, time);
}

/* The functions below fail only by their names. */
static const char *open_name(const char *path) { return strncmp(path, "/proc/", 6) ? "open" : "open-proc"; }

int open(const char *path, int flags, ...) {
    NEXT(open);
    va_list more;
    va_start(more, flags);
    int mode = flags & O_CREAT ? va_arg(more, int) : 0;
    va_end(more);
    RETURN_IF_FATED(open_name(path));
    return next(path, flags, mode);
}
int openat(int folder, const char *path, int flags, ...) {
    NEXT(openat);
    va_list more;
    va_start(more, flags);
    int mode = flags & O_CREAT ? va_arg(more, int) : 0;
    va_end(more);
    RETURN_IF_FATED(open_name(path));
    return next(folder, path, flags, mode);
}
ssize_t pwrite(int file, const void *bytes, size_t size, off_t offset) {
    NEXT(pwrite);
    switch (fate_of("pwrite")) {
        case FAILS: return -1;
        case DOES_NOTHING: return (ssize_t)size;
        case TRANSFERS_ONE: size = size ? 1 : 0; break;
        case TRANSFERS_HALF: size = size / 2; break;
        case IS_TORN:
            (void)!next(file, bytes, size / 2, offset);
            kill(getpid(), SIGKILL);
            break;
        default: break;
    }
    return next(file, bytes, size, offset);
}

#define FALLIBLE(name, parameters, ...) \
    int name parameters { NEXT(name); RETURN_IF_FATED(#name); return next(__VA_ARGS__); }
FALLIBLE(fdatasync, (int file), file)
FALLIBLE(fsync, (int file), file)
FALLIBLE(ftruncate, (int file, off_t length), file, length)
FALLIBLE(link, (const char *from, const char *to), from, to)
FALLIBLE(unlink, (const char *path), path)

/* The file that had the name FAULT_FILE, if it was replaced. */
static int replaced = -1;

int flock(int file, int operation) {
    NEXT(flock);
    switch (fate_of("flock")) {
        case FAILS: return -1;
        case DOES_NOTHING: return 0;
        case IS_REPLACED:
            if (rename(getenv("FAULT_OTHER"), getenv("FAULT_FILE")) == 0) replaced = file;
            break;
        default: break;
    }
    return next(file, operation);
}
int statx(int folder, const char *path, int flags, unsigned mask, struct statx *found) {
    NEXT(statx);
    RETURN_IF_FATED("statx");
    if (replaced >= 0 && !strcmp(how, "unseen") && !strcmp(path, getenv("FAULT_FILE")))
        return next(replaced, "", AT_EMPTY_PATH, mask, found);
    return next(folder, path, flags, mask, found);
}

FALLIBLE(socket, (int domain, int type, int protocol), domain, type, protocol)
FALLIBLE(bind, (int port, const struct sockaddr *own, socklen_t length), port, own, length)
FALLIBLE(setsockopt, (int port, int level, int name, const void *value, socklen_t length), port, level, name, value,
         length)
FALLIBLE(getsockopt, (int port, int level, int name, void *value, socklen_t *length), port, level, name, value, length)
FALLIBLE(getsockname, (int port, struct sockaddr *own, socklen_t *length), port, own, length)
FALLIBLE(ioctl, (int port, unsigned long what, void *value), port, what, value)
FALLIBLE(nanosleep, (const struct timespec *time, struct timespec *rest), time, rest)
ssize_t readlink(const char *path, char *found, size_t size) {
    NEXT(readlink);
    RETURN_IF_FATED("readlink");
    return next(path, found, size);
}
/* A file is closed even if this fails. */
int close(int file) {
    NEXT(close);
    enum fate fate = fate_of("close");
    int status = next(file);
    if (fate != FAILS) return status;
    errno = error;
    return -1;
}
