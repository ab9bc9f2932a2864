/* A file `disk` that tells what was done to it, so that a loop device over it is a disk that may
 * lose what wasn't flushed. Its folder is served by FUSE.
 * Usage: losing_disk IMAGE LOG FOLDER. It ends when FOLDER is unmounted.
 *
 * IMAGE has the disk's bytes. LOG gets a record for each write ('W'), each flush ('F') and each
 * text that is written to the file `control` ('M'): the letter, the place and the length, as three
 * numbers of 64 bits, and then the bytes. A text that begins with `!` isn't told: the next write
 * that has the rest of it in its bytes is refused by EIO, as that of a bad sector is. */
#define FUSE_USE_VERSION 31
#define _GNU_SOURCE
#include <errno.h>
#include <fcntl.h>
#include <fuse.h>
#include <stdint.h>
#include <stdio.h>
#include <stdlib.h>
#include <string.h>
#include <unistd.h>

static int image, log_file;
static off_t disk_size;
static char refused[64];
static size_t refused_size;

/* Whether the bytes are all written, with no place given where it is below 0. */
static int put(int file, const char *bytes, size_t size, off_t at) {
    while (size > 0) {
        ssize_t done = at < 0 ? write(file, bytes, size) : pwrite(file, bytes, size, at);
        if (done <= 0) return 0;
        bytes += done;
        size -= (size_t)done;
        if (at >= 0) at += done;
    }
    return 1;
}

static void tell(char what, off_t at, const char *bytes, size_t size) {
    uint64_t head[3] = {(uint64_t)what, (uint64_t)at, size};
    if (!put(log_file, (const char *)head, sizeof head, -1)) abort();
    if (!put(log_file, bytes, size, -1)) abort();
}

static int is_disk(const char *path) { return strcmp(path, "/disk") == 0; }

static int attributes(const char *path, struct stat *found, struct fuse_file_info *file) {
    (void)file;
    memset(found, 0, sizeof *found);
    found->st_nlink = 1;
    if (strcmp(path, "/") == 0) {
        found->st_mode = S_IFDIR | 0700;
    } else if (is_disk(path) || strcmp(path, "/control") == 0) {
        found->st_mode = S_IFREG | 0600;
        found->st_size = is_disk(path) ? disk_size : 0;
    } else {
        return -ENOENT;
    }
    return 0;
}

/* No page of it is held by the system, so that each write and each read comes here. */
static int opened(const char *path, struct fuse_file_info *file) {
    (void)path;
    file->direct_io = 1;
    return 0;
}

static int reads(const char *path, char *to, size_t size, off_t at, struct fuse_file_info *file) {
    (void)file;
    if (!is_disk(path)) return 0;
    ssize_t done = pread(image, to, size, at);
    return done < 0 ? -errno : (int)done;
}

static int writes(const char *path, const char *from, size_t size, off_t at,
                  struct fuse_file_info *file) {
    (void)file;
    if (is_disk(path)) {
        if (refused_size > 0 && memmem(from, size, refused, refused_size) != NULL) {
            refused_size = 0;
            return -EIO;
        }
        tell('W', at, from, size);
        return put(image, from, size, at) ? (int)size : -EIO;
    }
    if (size > 1 && from[0] == '!' && size <= sizeof refused) {
        refused_size = size - 1;
        memcpy(refused, from + 1, refused_size);
    } else {
        tell('M', 0, from, size);
    }
    return (int)size;
}

static int flushes(const char *path, int data_alone, struct fuse_file_info *file) {
    (void)data_alone;
    (void)file;
    if (is_disk(path)) tell('F', 0, NULL, 0);
    return 0;
}

int main(int count, char **words) {
    if (count != 4) return 2;
    image = open(words[1], O_RDWR | O_CLOEXEC);
    log_file = open(words[2], O_WRONLY | O_CREAT | O_TRUNC | O_CLOEXEC, 0600);
    disk_size = lseek(image, 0, SEEK_END);
    if (image < 0 || log_file < 0 || disk_size < 0) {
        perror(words[0]);
        return 1;
    }
    struct fuse_operations served = {.getattr = attributes, .open = opened, .read = reads,
                                     .write = writes, .fsync = flushes};
    char *given[] = {words[0], "-f", "-s", words[3], NULL};
    return fuse_main(4, given, &served, NULL);
}
