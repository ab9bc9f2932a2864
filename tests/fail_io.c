// Fails a read, a write or a sync of the program that it is loaded before (LD_PRELOAD), or has it move one byte alone.
//
// FAIL_AT is the number, from 1, of the call that fails with EIO and moves nothing. SHORT_AT is that of the call that moves at most one byte; a
// sync that it hits does what it would do else. Calls of read, pread, readv, write, pwrite, writev, fsync and fdatasync count together, in their
// order, from the start of this object, which comes after the loader's work and before any function of the program, to its end, which comes after
// `main`. Notes of the system on open files (/proc/self/fdinfo) don't count.
//
// IO_TOLD is a file that is made at the end. It has one line: the number of calls, what the call was that FAIL_AT or SHORT_AT hit (`read`, `write`
// or `sync`, or `none`), the number of its file, and the name that this file had, without its folder.

#define _GNU_SOURCE
#include <errno.h>
#include <stdbool.h>
#include <stdio.h>
#include <limits.h>
#include <stdlib.h>
#include <string.h>
#include <sys/syscall.h>
#include <sys/types.h>
#include <sys/uio.h>
#include <unistd.h>

enum kind { READ, WRITE, SYNC };

enum fate { PASSES, FAILS, IS_SHORT };

static bool counting;
static unsigned long calls;
static unsigned long failing;
static unsigned long shortened;
static const char *hit = "none";
static int hit_file = -1;
static char hit_name[PATH_MAX] = "none";

static unsigned long number_in(const char *variable) {
    const char *text = getenv(variable);
    return text ? strtoul(text, NULL, 10) : 0;
}

__attribute__((constructor)) static void start(void) {
    failing = number_in("FAIL_AT");
    shortened = number_in("SHORT_AT");
    counting = true;
}

__attribute__((destructor)) static void tell(void) {
    counting = false;
    const char *told = getenv("IO_TOLD");
    if (!told) return;
    FILE *file = fopen(told, "w");
    if (!file || fprintf(file, "%lu %s %d %s\n", calls, hit, hit_file, hit_name) < 0 || fclose(file)) _exit(99);
}

// Gives the open file's name, or an empty text where it has none.
static void name_of(int file, char path[PATH_MAX]) {
    char link[64];
    snprintf(link, sizeof link, "/proc/self/fd/%d", file);
    const ssize_t length = readlink(link, path, PATH_MAX - 1);
    path[length > 0 ? length : 0] = 0;
}

// Whether the file is a note of the system's on an open file: no run depends on it.
static bool is_note(int file) {
    char path[PATH_MAX];
    name_of(file, path);
    return strstr(path, "/fdinfo/") != NULL;
}

// Keeps the last part of the open file's name.
static void keep_name(int file) {
    char path[PATH_MAX];
    name_of(file, path);
    const char *slash = strrchr(path, '/');
    strcpy(hit_name, slash ? slash + 1 : path);
}

// Counts a call, and says what becomes of it.
static enum fate fate_of(enum kind kind, int file) {
    static const char *const names[] = {"read", "write", "sync"};
    if (!counting || is_note(file)) return PASSES;
    calls++;
    if (calls != failing && calls != shortened) return PASSES;
    hit = names[kind];
    hit_file = file;
    keep_name(file);
    if (calls == shortened) return IS_SHORT;
    errno = EIO;
    return FAILS;
}

// The bytes that are moved of so many.
static size_t moved(enum fate fate, size_t count) {
    return fate == IS_SHORT && count > 1 ? 1 : count;
}

ssize_t read(int file, void *bytes, size_t count) {
    const enum fate fate = fate_of(READ, file);
    return fate == FAILS ? -1 : syscall(SYS_read, file, bytes, moved(fate, count));
}

ssize_t pread(int file, void *bytes, size_t count, off_t at) {
    const enum fate fate = fate_of(READ, file);
    return fate == FAILS ? -1 : syscall(SYS_pread64, file, bytes, moved(fate, count), at);
}

ssize_t pread64(int file, void *bytes, size_t count, off_t at) { return pread(file, bytes, count, at); }

ssize_t write(int file, const void *bytes, size_t count) {
    const enum fate fate = fate_of(WRITE, file);
    return fate == FAILS ? -1 : syscall(SYS_write, file, bytes, moved(fate, count));
}

ssize_t pwrite(int file, const void *bytes, size_t count, off_t at) {
    const enum fate fate = fate_of(WRITE, file);
    return fate == FAILS ? -1 : syscall(SYS_pwrite64, file, bytes, moved(fate, count), at);
}

ssize_t pwrite64(int file, const void *bytes, size_t count, off_t at) { return pwrite(file, bytes, count, at); }

// The first of some parts that has bytes, where one byte alone is moved.
static const struct iovec *first_of(const struct iovec *parts, int count) {
    while (count > 1 && parts->iov_len == 0) {
        parts++;
        count--;
    }
    return parts;
}

// A call that moves parts, by this system call, or by the other where it moves the first one alone.
static ssize_t move_parts(enum kind kind, long all, long one, int file, const struct iovec *parts, int count) {
    const enum fate fate = fate_of(kind, file);
    if (fate == FAILS) return -1;
    if (fate == PASSES || count < 1) return syscall(all, file, parts, count);
    const struct iovec *part = first_of(parts, count);
    return syscall(one, file, part->iov_base, moved(fate, part->iov_len));
}

ssize_t readv(int file, const struct iovec *parts, int count) { return move_parts(READ, SYS_readv, SYS_read, file, parts, count); }

ssize_t writev(int file, const struct iovec *parts, int count) { return move_parts(WRITE, SYS_writev, SYS_write, file, parts, count); }

int fsync(int file) {
    return fate_of(SYNC, file) == FAILS ? -1 : (int)syscall(SYS_fsync, file);
}

int fdatasync(int file) {
    return fate_of(SYNC, file) == FAILS ? -1 : (int)syscall(SYS_fdatasync, file);
}
