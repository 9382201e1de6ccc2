/* Not proved: system calls that fail, for tests/sheets.py. Linked to a program with --wrap; FAIL="CALL NUMBER HOW" names the call, which one of them, and
 * how: fail (EIO), short (half of a write, the next one fails) or kill (half of a write, then the process dies). CALLS=FILE: how many there were of each. */
#define _POSIX_C_SOURCE 200809L
#include <errno.h>
#include <signal.h>
#include <stdio.h>
#include <stdlib.h>
#include <string.h>
#include <sys/types.h>
#include <unistd.h>

ssize_t __real_pwrite(int file, const void *from, size_t bytes, off_t where);
ssize_t __real_write(int file, const void *from, size_t bytes);
ssize_t __wrap_pwrite(int file, const void *from, size_t bytes, off_t where);
ssize_t __wrap_write(int file, const void *from, size_t bytes);
int __real_fsync(int file);
int __real_link(const char *old, const char *new);
int __real_rename(const char *old, const char *new);
int __wrap_fsync(int file);
int __wrap_link(const char *old, const char *new);
int __wrap_rename(const char *old, const char *new);

enum { PWRITE, WRITE, FSYNC, LINK, RENAME, COUNT };
static const char *names[COUNT] = {"pwrite", "write", "fsync", "link", "rename"};
static unsigned made[COUNT];
static char call[16], how[16];
static unsigned at;

/* What the environment asks for, read at the first call; the counts are told at the end. */
static void tell(void)
{
    FILE *file = fopen(getenv("CALLS"), "w");
    for (int number = 0; file && number < COUNT; number++)
        fprintf(file, "%s %u\n", names[number], made[number]);
    if (file)
        fclose(file);
}

static void ask(void)
{
    static int asked;
    if (asked++)
        return;
    if (getenv("FAIL") && sscanf(getenv("FAIL"), "%15s %u %15s", call, &at, how) != 3)
        exit(99);
    if (getenv("CALLS"))
        atexit(tell);
}

/* Whether this call is to do less than it was asked for: 0 no, 1 it fails, 2 it does half; then it dies, or the next one fails. */
static int hit(int number)
{
    ask();
    made[number]++;
    if (strcmp(call, names[number]) != 0)
        return 0;
    const int is_short = strcmp(how, "short") == 0, half = strcmp(how, "fail") != 0;
    errno = EIO;
    if (made[number] == at)
        return half ? 2 : 1;
    return is_short && made[number] == at + 1;
}

static ssize_t half_done(ssize_t done)
{
    if (strcmp(how, "kill") == 0)
        kill(getpid(), SIGKILL);
    return done;
}

ssize_t __wrap_pwrite(int file, const void *from, size_t bytes, off_t where)
{
    const int way = hit(PWRITE);
    if (way == 2)
        return half_done(__real_pwrite(file, from, (bytes + 1) / 2, where));
    return way ? -1 : __real_pwrite(file, from, bytes, where);
}

ssize_t __wrap_write(int file, const void *from, size_t bytes)
{
    const int way = hit(WRITE);
    if (way == 2)
        return half_done(__real_write(file, from, (bytes + 1) / 2));
    return way ? -1 : __real_write(file, from, bytes);
}

int __wrap_fsync(int file)
{
    return hit(FSYNC) ? (int)half_done(-1) : __real_fsync(file);
}

int __wrap_link(const char *old, const char *new)
{
    const int way = hit(LINK);
    if (way)
        errno = strcmp(how, "short") == 0 ? EPERM : EIO; /* a file system that has no links */
    return way ? (int)half_done(-1) : __real_link(old, new);
}

int __wrap_rename(const char *old, const char *new)
{
    return hit(RENAME) ? (int)half_done(-1) : __real_rename(old, new);
}
