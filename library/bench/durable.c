/* A program that writes a durable journal as crates/drive_tests does, for library/bench/durable. It builds the same
 * records, keeps the same messages, and makes the same calls. Its input is that of crates/drive_tests. */
#include <fcntl.h>
#include <stdio.h>
#include <stdlib.h>
#include <string.h>
#include <sys/file.h>
#include <sys/stat.h>
#include <unistd.h>

static unsigned char *group;
static size_t length, room;
static unsigned long waiting, committed;
static off_t end = 18;
static int file, closed;

static void fail(const char *what) {
    perror(what);
    exit(5);
}

static void write_synced(const void *bytes, size_t count, off_t at) {
    const unsigned char *from = bytes;
    while (count) {
        ssize_t done = pwrite(file, from, count, at);
        if (done <= 0) fail("pwrite");
        from += done, count -= (size_t)done, at += done;
    }
    if (fdatasync(file)) fail("fdatasync");
}

/* Opens the file for reading and writing, and locks it. */
static void open_locked(const char *path, int flags) {
    struct stat named, opened;
    file = open(path, O_RDWR | O_CLOEXEC | flags, 0666);
    if (file < 0) return;
    if (flock(file, LOCK_EX | LOCK_NB)) exit(4);
    if (stat(path, &named) || fstat(file, &opened) || named.st_ino != opened.st_ino) fail(path);
    if (flags && opened.st_nlink > 1) {
        if (unlink(path)) fail(path);
        close(file);
        open_locked(path, flags);
    }
}

/* Creates the file under another name, and links it. */
static void create(const char *path) {
    char new_path[4096];
    snprintf(new_path, sizeof new_path, "%s.new", path);
    open_locked(new_path, O_CREAT);
    if (file < 0 || ftruncate(file, 0)) fail(new_path);
    write_synced("\0\0\0\0\0\0\0\0", 8, 0);
    write_synced("DURABLE   \0", 11, 8);
    write_synced("MOLDJNL3", 8, 0);
    if (link(new_path, path) || unlink(new_path)) fail(path);
}

/* Finds the end of the records. */
static void resume(void) {
    struct stat opened;
    if (fstat(file, &opened)) fail("fstat");
    unsigned char *bytes = malloc((size_t)opened.st_size + 1);
    if (!bytes || pread(file, bytes, (size_t)opened.st_size, 0) != opened.st_size || fdatasync(file)) fail("pread");
    while (bytes[end] == 1 && !(closed = bytes[end + 1])) {
        end += 4 + 256 * bytes[end + 2] + bytes[end + 3];
        committed++;
    }
    free(bytes);
}

static void sync_folder(const char *path) {
    char folder_path[4096];
    strcpy(folder_path, path);
    char *slash = strrchr(folder_path, '/');
    if (slash) *slash = 0;
    int folder = open(slash ? folder_path : ".", O_RDONLY | O_CLOEXEC);
    if (folder < 0 || fsync(folder)) fail("folder");
    close(folder);
}

static void append(const unsigned char *message, size_t count) {
    if (count > 65535) exit(5);
    if (length + count + 7 > room) {
        room = 2 * (length + count + 7);
        group = realloc(group, room);
        if (!group) exit(5);
    }
    unsigned char *at = group + length;
    at[0] = 1, at[1] = 0, at[2] = (unsigned char)(count >> 8), at[3] = (unsigned char)count;
    memcpy(at + 4, message, count);
    length += count + 4;
    waiting++;
}

/* The records without their first gate, and a shut gate after them, or the closing record. Then the first gate is
 * opened. */
static void commit(int closes, int reports) {
    if (closed || (!waiting && !closes)) return;
    memcpy(group + length, closes ? "\1\1\0" : "\0\1\0", 3);
    size_t count = length + (closes ? 2 : 0);
    write_synced(group + 1, count, end + 1);
    write_synced("\1", 1, end);
    end += (off_t)count;
    committed += waiting;
    length = 0;
    waiting = 0;
    closed = closes;
    if (reports) printf("%lu\n", committed), fflush(stdout);
}

int main(void) {
    char *line = NULL, path[4000];
    size_t size = 0;
    unsigned long most, repeats;
    int closes, reports;
    if (getline(&line, &size, stdin) < 0) return 0;
    if (sscanf(line, "durable %3999s %lu %lu %d %d", path, &most, &repeats, &closes, &reports) != 5) return 2;
    group = malloc(room = 64);
    if (!group) return 5;
    open_locked(path, 0);
    if (file < 0) create(path);
    else resume();
    sync_folder(path);
    if (reports) printf("%lu\n", committed), fflush(stdout);
    for (ssize_t count; (count = getline(&line, &size, stdin)) > 0;) {
        if (line[count - 1] == '\n') count--;
        for (unsigned long i = 0; i < repeats; i++) {
            append((unsigned char *)line, (size_t)count);
            if (waiting >= most) commit(0, reports);
        }
    }
    commit(closes, reports);
    return 0;
}
