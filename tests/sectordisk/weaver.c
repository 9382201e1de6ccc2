/* Not proved: the firmware of examples/weaver.c attacked through its own commands: wrong bits in its header, files cut short, foreign files, two at
 * once, a full disk. What is refused must leave the file as it was, byte for byte, say why, and end with a status that is not 0. */
#define _POSIX_C_SOURCE 200809L
#include <fcntl.h>
#include <signal.h>
#include <stdlib.h>
#include <sys/resource.h>
#include <sys/stat.h>
#include <sys/wait.h>
#include <time.h>
#include <unistd.h>
#include "check.h"
#include "filedisk.h"

int weaver_main(int count, char **words); /* examples/weaver.c, compiled with -Dmain=weaver_main */

enum { ROOM = 1 << 18, NO_LIMIT = 0 };
static const char *path;
static char said[4096]; /* what the last run printed */

/* ── one run of the firmware, in a process of its own ── */
static void in_child(int to, const char *file, const char *command, rlim_t limit)
{
    static char text[256], *words[8];
    int count = 2;
    const struct rlimit most = {limit, limit};
    words[0] = "weaver", words[1] = (char *)file;
    snprintf(text, sizeof text, "%s", command);
    for (char *word = strtok(text, " "); word && count < 7; word = strtok(NULL, " "))
        words[count++] = strcmp(word, "''") == 0 ? "" : word;
    signal(SIGXFSZ, SIG_IGN);
    if ((limit != NO_LIMIT && setrlimit(RLIMIT_FSIZE, &most) != 0) || dup2(to, 1) < 0)
        _exit(99);
    exit(weaver_main(count, words));
}

static int run_limited(const char *file, const char *command, rlim_t limit)
{
    int ends[2], status;
    size_t filled = 0;
    ssize_t got;
    fflush(stdout);
    if (pipe(ends) != 0)
        exit(2);
    const pid_t process = fork();
    if (process == 0)
        in_child(ends[1], file, command, limit);
    close(ends[1]);
    while (filled < sizeof said - 1 && (got = read(ends[0], said + filled, sizeof said - 1 - filled)) > 0)
        filled += (size_t)got;
    said[filled] = 0;
    close(ends[0]);
    waitpid(process, &status, 0);
    return WIFEXITED(status) ? WEXITSTATUS(status) : 100;
}

static int run(const char *command)
{
    return run_limited(path, command, NO_LIMIT);
}

/* ── the file ── */
static size_t whole(unsigned char *bytes)
{
    const int file = open(path, O_RDONLY);
    const ssize_t got = file < 0 ? -1 : read(file, bytes, ROOM);
    if (file >= 0)
        close(file);
    return got < 0 ? ROOM + 1 : (size_t)got;
}

static void put_file(const void *bytes, size_t count)
{
    const int file = open(path, O_WRONLY | O_CREAT | O_TRUNC, 0644);
    CHECK(file >= 0 && write(file, bytes, count) == (ssize_t)count && close(file) == 0);
}

/* Whether a command is refused with a reason, and leaves the file as it is. */
static int refused(const char *command, const unsigned char *bytes, size_t count)
{
    static unsigned char after[ROOM];
    const int status = run(command);
    const size_t left = whole(after);
    return status == 1 && strlen(said) > 10 && left == count && memcmp(after, bytes, count) == 0;
}

/* ── one wrong bit, a file cut short, another program's file ── */
static unsigned char disk_bytes[ROOM];
static size_t disk_count;

static void test_bits(void)
{
    unsigned wrong = 0;
    for (unsigned bit = 0; bit < 8 * FILEDISK_BLOCK; bit++) {
        disk_bytes[FILEDISK_HEADER + bit / 8] ^= (unsigned char)(1u << bit % 8);
        put_file(disk_bytes, disk_count);
        wrong += !refused("show", disk_bytes, disk_count);
        disk_bytes[FILEDISK_HEADER + bit / 8] ^= (unsigned char)(1u << bit % 8);
    }
    CHECK(wrong == 0);
    put_file(disk_bytes, disk_count);
    CHECK(run("show") == 0 && strstr(said, "design 101 page 0: 10 11 12 13\n"));
}

static void test_lengths(void)
{
    unsigned wrong = 0;
    for (size_t length = 0; length < disk_count; length += length < FILEDISK_BLOCK + 2 ? 1 : length < FILEDISK_HEADER - FILEDISK_BLOCK ? 509 : 127) {
        put_file(disk_bytes, length);
        wrong += !refused("show", disk_bytes, length) || !refused("weave 0 0 77", disk_bytes, length);
        wrong += length > 0 && !refused("format", disk_bytes, length);
    }
    CHECK(wrong == 0);
}

static void foreign(const char *what, const unsigned char *bytes, size_t count)
{
    put_file(bytes, count);
    CHECK(refused("show", bytes, count) && refused("weave 1 1 1", bytes, count));
    CHECK(refused("format", bytes, count) && strstr(said, "would be erased") && strstr(said, what));
    CHECK(run("format erase") == 0 && run("show") == 0 && said[0] == 0 && run("weave 1 1 5") == 0);
}

static void test_foreign(void)
{
    static unsigned char bytes[20000];
    static const char letter[] = "Dear Ada,\nthe loom has come, and nothing of it is missing.\n";
    foreign("another program's", (const unsigned char *)letter, sizeof letter - 1);
    foreign("never formatted", bytes, 100); /* zeros */
    foreign("never formatted", bytes, sizeof bytes);
    memset(bytes, 0xFF, sizeof bytes);
    foreign("another program's", bytes, sizeof bytes);
    for (size_t at = 0; at < sizeof bytes; at++)
        bytes[at] = (unsigned char)(at * at >> 3 ^ at);
    foreign("another program's", bytes, sizeof bytes);
    memcpy(bytes, "KEEPDISK", 8);
    foreign("checksum is wrong", bytes, sizeof bytes);
}

/* ── the commands ── */
static void test_format(void)
{
    static unsigned char bytes[ROOM];
    remove(path);
    CHECK(run("show") == 1 && strstr(said, "cannot be opened") && access(path, F_OK) != 0); /* a read makes nothing */
    CHECK(run("format") == 0 && run("format") == 1 && strstr(said, "format erase")); /* a new disk has bytes too */
    CHECK(run("weave 0 2 40") == 0 && run("weave 1 0 50") == 0);
    CHECK(refused("format", bytes, whole(bytes)) && strstr(said, "design 101 page 2\n") && strstr(said, "design 102 page 0\n"));
    CHECK(run("show") == 0 && strcmp(said, "design 101 page 2: 40 41 42 43\ndesign 102 page 0: 50 51 52 53\n") == 0);
    CHECK(run("format erase") == 0 && run("show") == 0 && said[0] == 0);
    put_file("", 0); /* there, and empty: it was not made here */
    CHECK(refused("show", bytes, 0) && refused("weave 0 0 1", bytes, 0));
    CHECK(run("format") == 0 && run("weave 0 0 1") == 0 && run("show") == 0 && strcmp(said, "design 101 page 0: 1 2 3 4\n") == 0);
    CHECK(run_limited("/no/such/folder/disk", "weave 0 0 1", NO_LIMIT) == 1 && strstr(said, "cannot be made: "));
    CHECK(run_limited("/", "show", NO_LIMIT) == 1 && strstr(said, "cannot be opened: "));
}

static void test_words(void)
{
    static const char *wrong[] = {"weave x y z", "weave 0 0 z", "weave 0 0 -1", "weave 0 0x1 1", "weave 0 0 4294967296", "weave 0 0 +1", "weave 0 '' 1",
                                  "weave 0 0", "weave 0 0 1 2", "show all", "format all", "format erase all", "", "erase"};
    remove(path);
    for (size_t at = 0; at < sizeof wrong / sizeof *wrong; at++)
        CHECK(run(wrong[at]) == 2 && said[0] != 0 && access(path, F_OK) != 0);
    CHECK(run("weave 0 5 4294967295") == 0 && run("show") == 0 && strcmp(said, "design 101 page 5: 4294967295 0 1 2\n") == 0);
    CHECK(run("weave 0 6 1") == 1 && strstr(said, "out of range") && run("weave 2 0 1") == 1 && strstr(said, "out of range"));
}

/* A cut inside a create has skipped a number, or no number is left: this stands in the place of the highest one. */
static void put_highest(uint32_t value)
{
    static unsigned char bytes[ROOM];
    enum { PLACE = FILEDISK_HEADER + (1 + 16 + 2 + 4) * FILEDISK_BLOCK }; /* the header, 16 records, 2 maps, 4 tables are before it */
    const size_t count = whole(bytes);
    for (unsigned byte = 0; byte < 4; byte++)
        bytes[PLACE + byte] = (unsigned char)(value >> 8 * byte);
    put_file(bytes, count);
}

static void test_numbers(void)
{
    static unsigned char bytes[ROOM];
    remove(path);
    CHECK(run("format") == 0);
    put_highest(101);
    CHECK(run("weave 0 0 10") == 0 && run("show") == 0 && strcmp(said, "design 102 page 0: 10 11 12 13\n") == 0);
    CHECK(run("weave 1 0 20") == 0 && run("show") == 0 && strstr(said, "design 103 page 0: 20 21 22 23\n"));
    put_highest(0); /* an older pack: the designs are there, and keep their numbers */
    CHECK(run("show") == 0 && strstr(said, "design 102 page 0") && strstr(said, "design 103 page 0"));
    put_highest(UINT32_MAX);
    CHECK(run("weave 1 0 30") == 0 && run("show") == 0 && strstr(said, "design 103 page 0: 30 31 32 33\n"));
    CHECK(run("format erase") == 0);
    put_highest(INT32_MAX);
    CHECK(run("weave 0 0 10") == 1 && strstr(said, "not above the highest ever given") && whole(bytes) > 0 && run("format erase") == 0);
    CHECK(run("weave 0 0 10") == 0 && run("show") == 0 && strcmp(said, "design 101 page 0: 10 11 12 13\n") == 0);
}

/* ── two at once ── */
static void pause_a_while(void)
{
    const struct timespec some = {0, 500000};
    nanosleep(&some, NULL);
}

/* A process that has the disk open until it is killed. */
static pid_t holder(void)
{
    int ends[2];
    char byte;
    if (pipe(ends) != 0)
        exit(2);
    const pid_t process = fork();
    if (process == 0) {
        FileDisk disk;
        FileBlocks blocks;
        if (filedisk_file(&disk, &blocks, path, FILEDISK_OPEN) != FILEDISK_GOOD || write(ends[1], "x", 1) != 1)
            _exit(1);
        for (;;)
            pause();
    }
    close(ends[1]);
    CHECK(read(ends[0], &byte, 1) == 1);
    close(ends[0]);
    return process;
}

static void test_in_use(void)
{
    static unsigned char bytes[ROOM];
    static const char *commands[] = {"show", "weave 0 0 9", "format", "format erase"};
    put_file(disk_bytes, disk_count);
    const size_t count = whole(bytes);
    const pid_t process = holder();
    for (size_t at = 0; at < sizeof commands / sizeof *commands; at++)
        CHECK(refused(commands[at], bytes, count) && strstr(said, "in use"));
    kill(process, SIGKILL);
    waitpid(process, NULL, 0);
    CHECK(run("show") == 0); /* the killed one has left no lock */
}

/* Weaves one design again and again; another program may be in the way. */
static void weave_often(unsigned slot, unsigned times)
{
    char command[40];
    for (unsigned time = 1; time <= times; time++) {
        snprintf(command, sizeof command, "weave %u %u %u", slot, time % 3, 100 * time);
        while (run(command) != 0) {
            if (!strstr(said, "in use"))
                _exit(1);
            pause_a_while();
        }
    }
    _exit(0);
}

static void test_side_by_side(void)
{
    int status[2];
    pid_t both[2];
    remove(path);
    CHECK(run("weave 0 5 1") == 0);
    fflush(stdout);
    for (unsigned slot = 0; slot < 2; slot++)
        if ((both[slot] = fork()) == 0)
            weave_often(slot, 9);
    for (unsigned slot = 0; slot < 2; slot++)
        waitpid(both[slot], status + slot, 0);
    CHECK(status[0] == 0 && status[1] == 0 && run("show") == 0);
    CHECK(strstr(said, "101 page 0: 900 ") && strstr(said, "101 page 1: 700 ") && strstr(said, "101 page 2: 800 ") && strstr(said, "101 page 5: 1 2 3 4"));
    CHECK(strstr(said, "102 page 0: 900 ") && strstr(said, "102 page 1: 700 ") && strstr(said, "102 page 2: 800 "));
}

/* ── a full disk ── */
static void test_full(void)
{
    static const rlim_t limits[] = {1, 100, 512, 700, 5000, 64000, 128512, 128600, 129024, 135000}; /* the last: between the records and the maps */
    for (size_t at = 0; at < sizeof limits / sizeof *limits; at++) {
        remove(path);
        CHECK(run_limited(path, "weave 0 0 1", limits[at]) == 1 && strstr(said, "failed in the format"));
        CHECK(run("show") == 1 && said[0] != 0 && run("weave 0 0 1") == 1 && run("format erase") == 0);
        CHECK(run("weave 0 0 10") == 0 && run_limited(path, "weave 0 0 20", limits[at]) == 1 && said[0] != 0);
        CHECK(run("show") == 0 && (strstr(said, "page 0: 10 11 12 13\n") || strstr(said, "page 0: 20 21 22 23\n")));
    }
    if (access("/dev/full", W_OK) == 0)
        CHECK(run_limited("/dev/full", "format", NO_LIMIT) == 1 && strstr(said, "failed in the format"));
}

int main(int count, char **words)
{
    if (count != 2)
        return 2;
    path = words[1];
    remove(path);
    CHECK(run("weave 0 0 10") == 0 && run("weave 1 5 20") == 0 && run("weave 0 0 30") == 0 && run("show") == 0);
    CHECK(strcmp(said, "design 101 page 0: 30 31 32 33\ndesign 102 page 5: 20 21 22 23\n") == 0);
    CHECK(run("weave 0 0 10") == 0);
    disk_count = whole(disk_bytes);
    CHECK(disk_count > FILEDISK_HEADER + FILEDISK_BLOCK && disk_count < ROOM);
    test_bits();
    test_lengths();
    test_foreign();
    test_format();
    test_words();
    test_numbers();
    test_in_use();
    test_side_by_side();
    test_full();
    remove(path);
    return counted();
}
