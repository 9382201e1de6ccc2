/* A save of ten pages of a design and its map, on a file: writes, bytes, syncs and the processor's time of each, beside SQLite storing the same pages in one
 * transaction (with -DWITH_SQLITE). Linked with --wrap, so that the system calls are counted. save FOLDER SAVES */
#define _POSIX_C_SOURCE 200809L
#include <stdio.h>
#include <stdlib.h>
#include <sys/types.h>
#include <time.h>
#include "filedisk.h"
#ifdef WITH_SQLITE
#include <sqlite3.h>
#endif

/* ── the system calls, counted ── */
static struct {
    unsigned long writes, bytes, syncs;
} count;

ssize_t __real_pwrite(int file, const void *from, size_t bytes, off_t at);
ssize_t __real_pwrite64(int file, const void *from, size_t bytes, off_t at);
ssize_t __real_write(int file, const void *from, size_t bytes);
int __real_fsync(int file);
int __real_fdatasync(int file);
ssize_t __wrap_pwrite(int file, const void *from, size_t bytes, off_t at);
ssize_t __wrap_pwrite64(int file, const void *from, size_t bytes, off_t at);
ssize_t __wrap_write(int file, const void *from, size_t bytes);
int __wrap_fsync(int file);
int __wrap_fdatasync(int file);

ssize_t __wrap_pwrite(int file, const void *from, size_t bytes, off_t at)
{
    return count.writes++, count.bytes += bytes, __real_pwrite(file, from, bytes, at);
}

ssize_t __wrap_pwrite64(int file, const void *from, size_t bytes, off_t at)
{
    return count.writes++, count.bytes += bytes, __real_pwrite64(file, from, bytes, at);
}

ssize_t __wrap_write(int file, const void *from, size_t bytes)
{
    return count.writes++, count.bytes += bytes, __real_write(file, from, bytes);
}

int __wrap_fsync(int file)
{
    return count.syncs++, __real_fsync(file);
}

int __wrap_fdatasync(int file)
{
    return count.syncs++, __real_fdatasync(file);
}

static double seconds(clockid_t clock)
{
    struct timespec now;
    clock_gettime(clock, &now);
    return (double)now.tv_sec + 1e-9 * (double)now.tv_nsec;
}

/* ── the work: ten pages of 256 words, other words each time ── */
enum { PAGES = 10, WORDS = 256 };
static const KeeperSizes sizes = {.words = WORDS, .records = 64, .frames = 16, .slots = 4, .pages = 16, .accounts = 2, .chip = 16};

static void words_of(uint32_t save, uint32_t page, uint32_t words[WORDS])
{
    for (uint32_t word = 0; word < WORDS; word++)
        words[word] = save * 65536 + page * 4096 + word + 1;
}

static void must(int holds, const char *what)
{
    if (!holds) {
        fprintf(stderr, "save: %s\n", what);
        exit(1);
    }
}

/* One line: its name, and per save the writes, bytes, syncs, microseconds of the processor, and of the clock. */
static void measured(const char *name, void (*save)(void *, uint32_t), void (*before)(void *, uint32_t), void *on, uint32_t saves)
{
    double processor = 0, clock = 0;
    memset(&count, 0, sizeof count);
    for (uint32_t number = 1; number <= saves; number++) {
        before(on, number);
        const double from = seconds(CLOCK_PROCESS_CPUTIME_ID), at = seconds(CLOCK_MONOTONIC);
        save(on, number);
        processor += seconds(CLOCK_PROCESS_CPUTIME_ID) - from;
        clock += seconds(CLOCK_MONOTONIC) - at;
    }
    printf("%s\t%.1f\t%.0f\t%.2f\t%.0f\t%.0f\n", name, (double)count.writes / saves, (double)count.bytes / saves, (double)count.syncs / saves, 1e6 * processor / saves, 1e6 * clock / saves);
}

/* ── the file disk ── */
typedef struct {
    Keeper keeper;
    FileDisk disk;
    FileBlocks blocks;
} Weaver;

/* The pages are in their frames and changed, before the clock runs. */
static void weave(void *on, uint32_t save)
{
    Weaver *weaver = on;
    for (uint32_t page = 0; page < PAGES; page++) {
        uint32_t words[WORDS];
        KeeperRequest requests[WORDS];
        KeeperAnswer answers[WORDS];
        must(filedisk_bring(&weaver->disk, &weaver->keeper, 0, page) == KEEPER_DONE, "a page is not there");
        words_of(save, page, words);
        for (uint32_t word = 0; word < WORDS; word++)
            requests[word] = (KeeperRequest){KEEPER_WRITE, 0, page, word, words[word]};
        must(keeper_easy_apply_all(&weaver->keeper, requests, answers, WORDS).refusal == KEEPER_DONE, "a page is not written");
    }
}

static void save_design(void *on, uint32_t save)
{
    Weaver *weaver = on;
    uint32_t left;
    (void)save;
    must(filedisk_save(&weaver->disk, &weaver->keeper, 0, &left) == KEEPER_DONE && left == 0, "a save failed");
}

static void file_disk(const char *folder, uint32_t saves)
{
    static Weaver weaver;
    char path[4096], name[64];
    const size_t bytes = keeper_workspace(sizes);
    snprintf(path, sizeof path, "%s/save.disk", folder);
    remove(path);
    must(keeper_place(&weaver.keeper, sizes, malloc(bytes), bytes) == KEEPER_PLACED, "no memory");
    must(filedisk_file(&weaver.disk, &weaver.blocks, path, FILEDISK_NEW) == FILEDISK_GOOD, "no file");
    must(filedisk_format(&weaver.disk, weaver.blocks, &weaver.keeper, NULL) == FILEDISK_GOOD, "no format");
    must(filedisk_limit(&weaver.disk, &weaver.keeper, 0, 60).refusal == KEEPER_DONE && filedisk_create(&weaver.disk, &weaver.keeper, 0, 0, 1).refusal == KEEPER_DONE, "no design");
    must(keeper_activate(&weaver.keeper, 0).refusal == KEEPER_DONE, "no design");
    weave(&weaver, 0);
    save_design(&weaver, 0);
    snprintf(name, sizeof name, "file disk, version %d", FILEDISK_VERSION);
    measured(name, save_design, weave, &weaver, saves);
    filedisk_close(&weaver.blocks);
    remove(path);
}

/* ── SQLite ── */
#ifdef WITH_SQLITE
typedef struct {
    sqlite3 *base;
    sqlite3_stmt *page, *map, *begin, *end;
} Base;

static void run(sqlite3 *base, const char *text)
{
    must(sqlite3_exec(base, text, NULL, NULL, NULL) == SQLITE_OK, text);
}

static void step(sqlite3_stmt *statement)
{
    must(sqlite3_step(statement) == SQLITE_DONE && sqlite3_reset(statement) == SQLITE_OK, "a statement failed");
}

static void nothing(void *on, uint32_t save)
{
    (void)on, (void)save;
}

static void save_rows(void *on, uint32_t save)
{
    Base *base = on;
    uint32_t words[WORDS];
    uint16_t map[16] = {0};
    step(base->begin);
    for (uint32_t page = 0; page < PAGES; page++) {
        words_of(save, page, words);
        map[page] = (uint16_t)(page + 1);
        sqlite3_bind_int(base->page, 1, (int)page);
        sqlite3_bind_blob(base->page, 2, words, sizeof words, SQLITE_TRANSIENT);
        step(base->page);
    }
    sqlite3_bind_blob(base->map, 1, map, sizeof map, SQLITE_TRANSIENT);
    step(base->map);
    step(base->end);
}

static void sqlite(const char *folder, const char *mode, uint32_t saves)
{
    Base base;
    char path[4096], text[80];
    snprintf(path, sizeof path, "%s/save.sqlite", folder);
    remove(path);
    must(sqlite3_open(path, &base.base) == SQLITE_OK, "no base");
    snprintf(text, sizeof text, "PRAGMA journal_mode=%s", mode);
    run(base.base, text);
    run(base.base, "PRAGMA synchronous=FULL");
    run(base.base, "CREATE TABLE pages (page INTEGER PRIMARY KEY, words BLOB); CREATE TABLE maps (design INTEGER PRIMARY KEY, entries BLOB)");
    must(sqlite3_prepare_v2(base.base, "INSERT OR REPLACE INTO pages VALUES (?, ?)", -1, &base.page, NULL) == SQLITE_OK
             && sqlite3_prepare_v2(base.base, "INSERT OR REPLACE INTO maps VALUES (0, ?)", -1, &base.map, NULL) == SQLITE_OK
             && sqlite3_prepare_v2(base.base, "BEGIN IMMEDIATE", -1, &base.begin, NULL) == SQLITE_OK && sqlite3_prepare_v2(base.base, "COMMIT", -1, &base.end, NULL) == SQLITE_OK,
         "no statement");
    save_rows(&base, 0);
    snprintf(text, sizeof text, "SQLite %s, journal_mode=%s", sqlite3_libversion(), mode);
    measured(text, save_rows, nothing, &base, saves);
    sqlite3_finalize(base.page), sqlite3_finalize(base.map), sqlite3_finalize(base.begin), sqlite3_finalize(base.end);
    sqlite3_close(base.base);
    remove(path);
}
#endif

int main(int words, char **word)
{
    must(words == 3, "save FOLDER SAVES");
    const uint32_t saves = (uint32_t)strtoul(word[2], NULL, 10);
    file_disk(word[1], saves);
#ifdef WITH_SQLITE
    sqlite(word[1], "DELETE", saves);
    sqlite(word[1], "TRUNCATE", saves);
    sqlite(word[1], "WAL", saves);
#else
    puts("no sqlite3.h: not measured beside SQLite (Debian: libsqlite3-dev)");
#endif
    return 0;
}
