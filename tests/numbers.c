/* Not proved: the test of the file disk's store of the highest number: by create and import, cut at each of their writes, and by the open of a pack
 * that an older board wrote. */
#define _POSIX_C_SOURCE 200809L
#include <stdlib.h>
#include "check.h"
#include "filedisk.h"

static const KeeperSizes sizes = {.words = 16, .records = 8, .frames = 3, .slots = 2, .pages = 4, .accounts = 3, .chip = 2};

static unsigned writes_left;
static FileBlocks whole;

/* A device that takes so many writes. */
static int takes_some(void *self, uint64_t at, const void *from, size_t bytes)
{
    return writes_left == 0 ? -1 : (writes_left--, whole.write(self, at, from, bytes));
}

static uint32_t long_at(FileBlocks blocks, uint64_t at)
{
    unsigned char bytes[4] = {0};
    CHECK(blocks.read(blocks.self, at, bytes, 4) == 0);
    return bytes[0] | (uint32_t)bytes[1] << 8 | (uint32_t)bytes[2] << 16 | (uint32_t)bytes[3] << 24;
}

/* A pack that has this in the place of the highest number. */
static void put_highest(FileBlocks blocks, const FileDisk *disk, uint32_t value)
{
    const unsigned char bytes[4] = {(unsigned char)value, (unsigned char)(value >> 8), (unsigned char)(value >> 16), (unsigned char)(value >> 24)};
    CHECK(blocks.write(blocks.self, disk->table_at[KEEPER_TABLE_HIGHEST], bytes, 4) == 0);
}

/* A create or an import on a device that fails at its write number `writes`: the slot has the design, or is empty; a number whose store has landed is
 * given or skipped, and not given again. How it went: 0 nothing landed, 1 the number, 2 all. */
static int cut_at(FileBlocks blocks, FileDisk *disk, Keeper *keeper, unsigned writes, const uint8_t *sheet, size_t bytes)
{
    CHECK(filedisk_open(disk, blocks, keeper) == FILEDISK_GOOD && keeper->numbers[0] == 0);
    const uint32_t old = keeper->highest[0], number = keeper_next_number(keeper);
    writes_left = writes, whole = blocks, disk->blocks.write = takes_some;
    const KeeperAnswer answer = sheet ? filedisk_import(disk, keeper, 0, 0, number, sheet, bytes) : filedisk_create(disk, keeper, 0, 0, number);
    CHECK(answer.refusal == (disk->dead ? FILEDISK_DIED : KEEPER_DONE) && number == old + 1);
    CHECK(filedisk_open(disk, blocks, keeper) == FILEDISK_GOOD);
    CHECK(keeper->numbers[0] == 0 ? keeper->highest[0] == old || keeper->highest[0] == number : keeper->numbers[0] == number);
    CHECK(keeper->highest[0] == long_at(blocks, disk->table_at[KEEPER_TABLE_HIGHEST]) && (answer.refusal != KEEPER_DONE || keeper->numbers[0] == number));
    if (keeper->highest[0] == old)
        return 0;
    CHECK(filedisk_create(disk, keeper, 0, 0, number).refusal == (keeper->numbers[0] == 0 ? KEEPER_NUMBER_GIVEN : KEEPER_SLOT_FILLED));
    return keeper->numbers[0] == 0 ? 1 : 2;
}

/* Slot 0 is emptied, whatever a design of these tests has in it. */
static void empty(FileDisk *disk, Keeper *keeper)
{
    CHECK(keeper_activate(keeper, 0).refusal == KEEPER_DONE && keeper_truncate(keeper, 0, 0).refusal == KEEPER_DONE);
    CHECK(keeper_update(keeper, 0).refusal == KEEPER_DONE && filedisk_map(disk, keeper, 0) == 0 && keeper_deactivate(keeper, 0).refusal == KEEPER_DONE);
    CHECK(filedisk_delete(disk, keeper, 0).refusal == KEEPER_DONE);
}

/* A create has 5 writes, an import of two pages 10: each ends the device once. The journal's write is what counts: its store lands then. */
static void test_numbers(FileBlocks blocks, FileDisk *disk, Keeper *keeper, const uint8_t *sheet, size_t bytes)
{
    const unsigned most = sheet ? 10 : 5;
    for (unsigned writes = 0; writes <= most; writes++) {
        const int way = cut_at(blocks, disk, keeper, writes, sheet, bytes);
        CHECK(way == (writes == 0 ? 0 : writes < (sheet ? 7 : 3) ? 1 : 2));
        if (way == 2)
            empty(disk, keeper);
    }
}

/* The pack of an older board: open stores the highest number of its slots, or answers that it could not. Any value that stands there is taken. */
static void test_older(FileBlocks blocks, FileDisk *disk, Keeper *keeper)
{
    static const uint32_t values[] = {0, 1, 7, 8, 9, INT32_MAX, UINT32_C(1) << 31, UINT32_MAX};
    CHECK(filedisk_open(disk, blocks, keeper) == FILEDISK_GOOD && filedisk_limit(disk, keeper, 2, 4).refusal == KEEPER_DONE && keeper->numbers[1] == 8);
    const uint64_t at = disk->table_at[KEEPER_TABLE_HIGHEST];
    const uint32_t was = long_at(blocks, at);
    for (size_t value = 0; value < sizeof values / sizeof *values; value++) {
        const uint32_t found = values[value], wanted = found < 8 ? 8 : found;
        put_highest(blocks, disk, found);
        CHECK(filedisk_read(disk, blocks, keeper) == FILEDISK_GOOD && keeper->highest[0] == found);
        CHECK(filedisk_open(disk, blocks, keeper) == FILEDISK_GOOD && keeper->highest[0] == wanted && long_at(blocks, at) == wanted);
        CHECK(keeper_create(keeper, 0, 0, wanted > INT32_MAX ? INT32_MAX : wanted).refusal == (wanted == 8 ? KEEPER_NUMBER_TAKEN : KEEPER_NUMBER_GIVEN));
        CHECK(keeper_next_number(keeper) == (wanted < INT32_MAX ? wanted + 1 : 0));
        CHECK(filedisk_limit(disk, keeper, 2, 4).refusal == KEEPER_DONE); /* the journal has another store */
    }
    for (unsigned writes = 0; writes < 6; writes++) { /* the header, the journal and its place, the highest's two */
        FileBlocks dying = blocks;
        put_highest(blocks, disk, 0);
        writes_left = writes, whole = blocks, dying.write = takes_some;
        const int answer = filedisk_open(disk, dying, keeper);
        CHECK(answer == (writes < 5 ? FILEDISK_DEVICE : FILEDISK_GOOD) && disk->dead == (writes < 5) && (writes >= 5 || strstr(disk->line, "device failed")));
        CHECK(long_at(blocks, at) == (writes < 5 ? 0 : 8));
        CHECK(filedisk_open(disk, blocks, keeper) == FILEDISK_GOOD && keeper->highest[0] == 8 && long_at(blocks, at) == 8);
        CHECK(filedisk_limit(disk, keeper, 2, 4).refusal == KEEPER_DONE);
    }
    put_highest(blocks, disk, was);
}

/* Design 8 in slot 1, with two pages. */
static void settle(FileBlocks blocks, FileDisk *disk, Keeper *keeper)
{
    uint32_t left;
    CHECK(filedisk_format(disk, blocks, keeper, NULL) == FILEDISK_GOOD && filedisk_limit(disk, keeper, 0, 8).refusal == KEEPER_DONE);
    CHECK(keeper->highest[0] == 0 && filedisk_create(disk, keeper, 1, 0, 8).refusal == KEEPER_DONE && keeper_activate(keeper, 1).refusal == KEEPER_DONE);
    for (uint32_t page = 1; page < 4; page += 2)
        CHECK(filedisk_bring(disk, keeper, 1, page) == KEEPER_DONE && keeper_write(keeper, 1, page, 3, 70 + page).refusal == KEEPER_DONE);
    CHECK(filedisk_save(disk, keeper, 1, &left) == KEEPER_DONE && left == 0);
}

int main(int count, char **words)
{
    FileBlocks blocks;
    FileDisk disk;
    Keeper keeper;
    uint8_t sheet[KEEPER_SHEET_BYTES(4, 16)];
    const size_t bytes = keeper_workspace(sizes);
    if (count != 2 || keeper_place(&keeper, sizes, malloc(bytes), bytes) != KEEPER_PLACED)
        return 2;
    remove(words[1]);
    CHECK(filedisk_file(&disk, &blocks, words[1], FILEDISK_NEW) == FILEDISK_GOOD);
    settle(blocks, &disk, &keeper);
    test_older(blocks, &disk, &keeper);
    test_numbers(blocks, &disk, &keeper, NULL, 0);
    CHECK(filedisk_open(&disk, blocks, &keeper) == FILEDISK_GOOD);
    const size_t length = keeper_easy_export(&keeper, 1, sheet, sizeof sheet).result;
    CHECK(length == 17 + 2 * (5 + 4 * sizes.words));
    test_numbers(blocks, &disk, &keeper, sheet, length);
    filedisk_close(&blocks);
    remove(words[1]);
    free(keeper.records);
    return counted();
}
