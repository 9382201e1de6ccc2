/* Not proved, tested by tests/sectordisk/filedisk.sh: a file as a device of filedisk.h, locked while it is open. */
#define _POSIX_C_SOURCE 200809L
#include <errno.h>
#include <fcntl.h>
#include <libgen.h>
#include <stdio.h>
#include <sys/file.h>
#include <unistd.h>
#include "filedisk_inside.h"

static int file_of(const void *self)
{
    return (int)(intptr_t)self;
}

static int file_read(void *self, uint64_t at, void *to, size_t bytes)
{
    unsigned char *next = to;
    while (bytes > 0) {
        const ssize_t got = pread(file_of(self), next, bytes, (off_t)at);
        if (got < 0 && errno == EINTR)
            continue;
        if (got < 0)
            return -1;
        if (got == 0 && at >= FILEDISK_BLOCK) /* a file that ends within its tables is damaged */
            return FILEDISK_PAST_END;
        if (got == 0) { /* one that ends within the first block has none: zeros, which are no header */
            memset(next, 0, bytes);
            return 0;
        }
        next += got, at += (uint64_t)got, bytes -= (size_t)got;
    }
    return 0;
}

static int file_write(void *self, uint64_t at, const void *from, size_t bytes)
{
    const unsigned char *next = from;
    while (bytes > 0) {
        const ssize_t put = pwrite(file_of(self), next, bytes, (off_t)at);
        if (put < 0 && errno == EINTR)
            continue;
        if (put <= 0)
            return -1;
        next += put, at += (uint64_t)put, bytes -= (size_t)put;
    }
    return 0;
}

static int file_sync(void *self)
{
    while (fsync(file_of(self)) != 0)
        if (errno != EINTR)
            return -1;
    return 0;
}

int filedisk_folder(const char *path)
{
    char copy[4096];
    if (strlen(path) >= sizeof copy) {
        errno = ENAMETOOLONG;
        return -1;
    }
    strcpy(copy, path);
    const int folder = open(dirname(copy), O_RDONLY | O_CLOEXEC);
    if (folder < 0)
        return -1;
    const int done = file_sync((void *)(intptr_t)folder);
    close(folder);
    return done;
}

/* The reason is the system's own. */
static int failed(FileDisk *disk, int file, const char *what)
{
    char line[sizeof disk->line];
    snprintf(line, sizeof line, "%s: %s", what, strerror(errno));
    if (file >= 0)
        close(file);
    return filedisk_refused(disk, FILEDISK_DEVICE, line);
}

static int opened(const char *path, int how)
{
    static const int flags[] = {[FILEDISK_OPEN] = O_RDWR, [FILEDISK_NEW] = O_RDWR | O_CREAT | O_EXCL, [FILEDISK_READ] = O_RDONLY};
    int file;
    do
        file = open(path, flags[how] | O_CLOEXEC, 0644);
    while (file < 0 && errno == EINTR);
    return file;
}

int filedisk_file(FileDisk *disk, FileBlocks *blocks, const char *path, int how)
{
    memset(disk, 0, sizeof *disk);
    const int file = opened(path, how);
    if (file < 0 && how == FILEDISK_NEW && errno == EEXIST)
        return filedisk_refused(disk, FILEDISK_THERE, "it is there already");
    if (file < 0)
        return failed(disk, file, how == FILEDISK_NEW ? "it cannot be made" : "it cannot be opened");
    /* the lock is the open file's: it goes when the process ends, however it ends */
    if (flock(file, (how == FILEDISK_READ ? LOCK_SH : LOCK_EX) | LOCK_NB) != 0) {
        if (errno != EWOULDBLOCK)
            return failed(disk, file, "it cannot be locked");
        close(file);
        return filedisk_refused(disk, FILEDISK_IN_USE, "it is in use: another program has it open");
    }
    if (how == FILEDISK_NEW && lseek(file, 0, SEEK_END) != 0) { /* made here, and filled by another program before it was locked */
        close(file);
        return filedisk_refused(disk, FILEDISK_THERE, "it is there already");
    }
    if (how == FILEDISK_NEW && filedisk_folder(path) != 0) {
        const int answer = failed(disk, file, "its folder cannot be synced");
        unlink(path); /* it is empty, and this one's own */
        return answer;
    }
    *blocks = (FileBlocks){(void *)(intptr_t)file, file_read, file_write, file_sync};
    return FILEDISK_GOOD;
}

uint64_t filedisk_bytes(const FileBlocks *blocks)
{
    const off_t end = lseek(file_of(blocks->self), 0, SEEK_END);
    return end < 0 ? UINT64_MAX : (uint64_t)end;
}

void filedisk_close(FileBlocks *blocks)
{
    close(file_of(blocks->self));
}
