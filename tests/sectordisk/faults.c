/* Not proved: the file disk over a system whose calls fail, do less than they were asked, or are interrupted. Linked with --wrap for pread, pwrite
 * and fsync. Each write and each sync of a fixed piece of work fails once; after it, everything that was reported must be there. */
#define _POSIX_C_SOURCE 200809L
#include <errno.h>
#include <stdlib.h>
#include <unistd.h>
#include "check.h"
#include "filedisk.h"

/* ── the system ── */
enum { NO_FAULT = 0, WRITE_FAILS, WRITE_SHORT, SYNC_FAILS, READ_FAILS };
static int fault, is_slow, is_interrupted;
static unsigned at, writes, syncs, reads, calls;

ssize_t __real_pread(int file, void *to, size_t bytes, off_t where);
ssize_t __real_pwrite(int file, const void *from, size_t bytes, off_t where);
ssize_t __wrap_pread(int file, void *to, size_t bytes, off_t where);
ssize_t __wrap_pwrite(int file, const void *from, size_t bytes, off_t where);
int __wrap_fsync(int file);

static int interrupted(void)
{
    errno = EINTR;
    return is_interrupted && ++calls % 2;
}

ssize_t __wrap_pread(int file, void *to, size_t bytes, off_t where)
{
    if (interrupted())
        return -1;
    if (++reads == at && fault == READ_FAILS) {
        errno = EIO;
        return -1;
    }
    return __real_pread(file, to, is_slow && bytes > 7 ? 7 : bytes, where);
}

/* A short one does half, and the rest of it fails. */
ssize_t __wrap_pwrite(int file, const void *from, size_t bytes, off_t where)
{
    if (interrupted())
        return -1;
    const unsigned number = ++writes;
    if (number == at && fault == WRITE_SHORT)
        return __real_pwrite(file, from, (bytes + 1) / 2, where);
    if ((number == at && fault == WRITE_FAILS) || (number == at + 1 && fault == WRITE_SHORT)) {
        errno = ENOSPC;
        return -1;
    }
    return __real_pwrite(file, from, is_slow && bytes > 7 ? 7 : bytes, where);
}

int __wrap_fsync(int file)
{
    (void)file; /* the file is looked at by this process alone */
    if (interrupted())
        return -1;
    errno = EIO;
    return ++syncs == at && fault == SYNC_FAILS ? -1 : 0;
}

static void fault_at(int kind, unsigned number)
{
    fault = kind, at = number, writes = syncs = reads = calls = 0;
}

/* ── the work: limits and pages, each with its number, then an import of the design as it was at first, and a create; on a pack whose open has the
 * highest number to store ── */
static const KeeperSizes sizes = {.words = 200, .records = 6, .frames = 2, .slots = 3, .pages = 3, .accounts = 2, .chip = 1};
enum { ROUNDS = 4, SETTLED = 9, FIRST = 7, IMPORTED = 8, CREATED = 9 };
static Keeper keeper;
static FileDisk disk;
static FileBlocks blocks;
static uint32_t limit_told, limit_tried, page_told, page_tried, import_told, import_tried, create_told, create_tried;
static uint8_t sheet[KEEPER_SHEET_BYTES(3, 200)];

static uint32_t weave(uint32_t value)
{
    uint32_t left = 0, refusal = filedisk_bring(&disk, &keeper, 0, 0);
    for (uint32_t word = 0; word < sizes.words && refusal == KEEPER_DONE; word++)
        refusal = keeper_write(&keeper, 0, 0, word, value).refusal;
    if (refusal == KEEPER_DONE)
        refusal = filedisk_save(&disk, &keeper, 0, &left);
    return refusal == KEEPER_DONE && left > 0 ? KEEPER_WIRED : refusal;
}

/* The work until something fails: 0, or what was answered. */
static uint32_t work(void)
{
    uint32_t refusal = (uint32_t)filedisk_open(&disk, blocks, &keeper);
    const size_t bytes = refusal == FILEDISK_GOOD ? keeper_easy_export(&keeper, 0, sheet, sizeof sheet).result : 0;
    if (refusal == FILEDISK_GOOD)
        refusal = keeper_activate(&keeper, 0).refusal;
    for (uint32_t round = 1; round <= ROUNDS && refusal == KEEPER_DONE; round++) {
        limit_tried = SETTLED + round;
        refusal = filedisk_limit(&disk, &keeper, 1, limit_tried).refusal;
        if (refusal != KEEPER_DONE)
            break;
        limit_told = limit_tried;
        page_tried = SETTLED + round;
        refusal = weave(page_tried);
        page_told = refusal == KEEPER_DONE ? page_tried : page_told;
    }
    if (refusal != KEEPER_DONE)
        return refusal;
    import_tried = IMPORTED;
    refusal = filedisk_import(&disk, &keeper, 1, 0, IMPORTED, sheet, bytes).refusal;
    import_told = refusal == KEEPER_DONE ? IMPORTED : 0;
    if (refusal != KEEPER_DONE)
        return refusal;
    create_tried = CREATED;
    refusal = filedisk_create(&disk, &keeper, 2, 1, CREATED).refusal;
    create_told = refusal == KEEPER_DONE ? CREATED : 0;
    return refusal;
}

/* A new disk with one design and one page; it has no highest number, as an older one. */
static void settle(void)
{
    static const unsigned char nothing[4];
    fault_at(NO_FAULT, 0);
    CHECK(filedisk_format(&disk, blocks, &keeper, NULL) == FILEDISK_GOOD);
    CHECK(filedisk_limit(&disk, &keeper, 0, 3).refusal == KEEPER_DONE && filedisk_limit(&disk, &keeper, 1, SETTLED).refusal == KEEPER_DONE);
    CHECK(filedisk_create(&disk, &keeper, 0, 0, FIRST).refusal == KEEPER_DONE && keeper_activate(&keeper, 0).refusal == KEEPER_DONE);
    CHECK(weave(SETTLED) == KEEPER_DONE);
    limit_told = limit_tried = page_told = page_tried = SETTLED;
    import_told = import_tried = create_told = create_tried = 0;
    CHECK(blocks.write(blocks.self, disk.table_at[KEEPER_TABLE_HIGHEST], nothing, sizeof nothing) == 0);
}

/* The page of a slot reads one value in all its words: that, or no value of this test's. */
static uint32_t value_of(uint32_t slot)
{
    if (keeper_activate(&keeper, slot).refusal != KEEPER_DONE || filedisk_bring(&disk, &keeper, slot, 0) != KEEPER_DONE)
        return UINT32_MAX;
    const uint32_t *words = keeper_words(&keeper, slot, 0), first = words[0];
    size_t word = 0;
    while (word < sizes.words && words[word] == first)
        word++;
    return word == sizes.words ? first : UINT32_MAX;
}

/* The highest number is that of the last design, or one that was skipped. */
static int is_highest(void)
{
    const uint32_t last = keeper.numbers[2] ? keeper.numbers[2] : keeper.numbers[1] ? keeper.numbers[1] : FIRST;
    return keeper.highest[0] >= last && (keeper.highest[0] == last || keeper.highest[0] == import_tried || keeper.highest[0] == create_tried);
}

/* What is on the disk is what was told, or what was tried last. */
static int is_kept(void)
{
    fault_at(NO_FAULT, 0);
    if (filedisk_open(&disk, blocks, &keeper) != FILEDISK_GOOD || (keeper.limits[1] != limit_told && keeper.limits[1] != limit_tried))
        return 0;
    if (keeper.numbers[1] != import_told && keeper.numbers[1] != import_tried)
        return 0;
    if ((keeper.numbers[2] != create_told && keeper.numbers[2] != create_tried) || !is_highest())
        return 0;
    if (keeper.numbers[1] != 0 && value_of(1) != SETTLED)
        return 0;
    const uint32_t value = value_of(0);
    return value == page_told || value == page_tried;
}

/* Every one of so many calls fails once. */
static void each_fails(int kind, unsigned count)
{
    unsigned wrong = 0;
    CHECK(count > 10);
    for (unsigned number = 1; number <= count; number++) {
        settle();
        fault_at(kind, number);
        const uint32_t answer = work();
        wrong += answer == KEEPER_DONE || !disk.dead || disk.line[0] == 0;
        wrong += !is_kept();
    }
    CHECK(wrong == 0);
}

/* A format whose write or sync fails says so, and leaves no disk: the first write is that over the old header, and from number `whole` on the new one is there. */
static void each_format_fails(int kind, unsigned count, unsigned whole)
{
    unsigned wrong = 0;
    CHECK(count > 2);
    for (unsigned number = 1; number <= count; number++) {
        settle();
        fault_at(kind, number);
        wrong += filedisk_format(&disk, blocks, &keeper, NULL) != FILEDISK_DEVICE || !disk.dead || !strstr(disk.line, "format again");
        fault_at(NO_FAULT, 0);
        const int answer = filedisk_open(&disk, blocks, &keeper);
        wrong += number > 1 && answer != (number < whole ? FILEDISK_NO_DISK : FILEDISK_GOOD);
    }
    CHECK(wrong == 0);
}

int main(int count, char **words)
{
    const size_t bytes = keeper_workspace(sizes);
    if (count != 2 || keeper_place(&keeper, sizes, malloc(bytes), bytes) != KEEPER_PLACED)
        return 2;
    remove(words[1]);
    CHECK(filedisk_file(&disk, &blocks, words[1], FILEDISK_NEW) == FILEDISK_GOOD);
    settle();
    fault_at(NO_FAULT, 0);
    CHECK(work() == KEEPER_DONE && limit_told == SETTLED + ROUNDS && page_told == SETTLED + ROUNDS && import_told == IMPORTED && create_told == CREATED && is_kept());
    settle();
    fault_at(NO_FAULT, 0);
    CHECK(work() == KEEPER_DONE);
    const unsigned all_writes = writes, all_syncs = syncs, all_reads = reads;
    each_fails(WRITE_FAILS, all_writes);
    each_fails(WRITE_SHORT, all_writes);
    each_fails(SYNC_FAILS, all_syncs);
    each_fails(READ_FAILS, all_reads);
    settle();
    fault_at(NO_FAULT, 0);
    CHECK(filedisk_format(&disk, blocks, &keeper, NULL) == FILEDISK_GOOD);
    const unsigned format_writes = writes, format_syncs = syncs;
    each_format_fails(WRITE_FAILS, format_writes, format_writes + 1);
    each_format_fails(SYNC_FAILS, format_syncs, format_syncs - 1); /* the last is the open's */
    is_slow = is_interrupted = 1; /* seven bytes at a time, and every other call is interrupted */
    settle();
    CHECK(work() == KEEPER_DONE && calls > 1000 && is_kept() && limit_told == SETTLED + ROUNDS && page_told == SETTLED + ROUNDS);
    filedisk_close(&blocks);
    remove(words[1]);
    free(keeper.records);
    return counted();
}
