/* Not proved: a file disk made and read without a restart: order make PATH, order read PATH. tests/sectordisk/order.sh compares it with what a script reads. */
#define _POSIX_C_SOURCE 200809L
#include <stdio.h>
#include <stdlib.h>
#include "filedisk.h"

static const KeeperSizes sizes = {.words = 3, .records = 4, .frames = 2, .slots = 2, .pages = 3, .accounts = 2, .chip = 1};
static Keeper keeper;
static FileDisk disk;
static FileBlocks blocks;

/* Every byte of every entry is another one. */
static void fill(KeeperTable table, uint32_t seed)
{
    for (size_t at = 0; at < table.count; at++) {
        const uint32_t value = (seed + (uint32_t)at) * 0x9E3779B1u;
        if (table.width == 2)
            ((uint16_t *)table.at)[at] = (uint16_t)value;
        else
            ((uint32_t *)table.at)[at] = value;
    }
}

static void show(KeeperTable table)
{
    printf("%s", table.name);
    for (size_t at = 0; at < table.count; at++)
        printf(" %lu", (unsigned long)(table.width == 2 ? ((uint16_t *)table.at)[at] : ((uint32_t *)table.at)[at]));
    puts("");
}

/* All tables, and a store that has not come to one of its two places. No restart would take these tables, so the disk is only recovered. */
static int make(const char *path)
{
    static const uint32_t words[3] = {0x01020304, 0x05060708, 0x090A0B0C};
    static const uint16_t limit = 0x0D0E;
    static const uint8_t nothing[4] = {0};
    const FilePiece pieces[2] = {{KEEPER_TABLE_RECORDS, 3, 3, words}, {KEEPER_TABLE_LIMITS, 1, 1, &limit}};
    for (size_t number = 0; number < KEEPER_DISK_COUNT; number++)
        fill(keeper_table(&keeper, number), 100 * (uint32_t)number + 1);
    if (filedisk_file(&disk, &blocks, path, FILEDISK_NEW) != FILEDISK_GOOD || filedisk_make(&disk, blocks, &keeper) != FILEDISK_GOOD)
        return puts(disk.line), 1;
    if (keeper_disk_begin(&disk.sectors, disk.sectors.device, &keeper) != KEEPER_DISK_GOOD || keeper_disk_recover(&disk.sectors) != KEEPER_DISK_GOOD)
        return puts(disk.line), 1;
    if (filedisk_store(&disk, pieces, 2) != 0 || blocks.write(blocks.self, filedisk_place(&disk, KEEPER_TABLE_LIMITS, 1), nothing, 4) != 0)
        return puts(disk.line), 1;
    return 0;
}

static int read_back(const char *path)
{
    KeeperSizes found;
    if (filedisk_file(&disk, &blocks, path, FILEDISK_READ) != FILEDISK_GOOD || filedisk_sizes(&disk, blocks, &found) != FILEDISK_GOOD
        || filedisk_read(&disk, blocks, &keeper) != FILEDISK_GOOD)
        return puts(disk.line), 1;
    printf("version %u W %zu R %zu S %zu N %zu Q %zu\n", (unsigned)disk.version, found.words, found.records, found.slots, found.pages, found.accounts);
    for (size_t number = 0; number < KEEPER_DISK_COUNT; number++)
        show(keeper_table(&keeper, number));
    return 0;
}

int main(int count, char **words)
{
    const size_t bytes = keeper_workspace(sizes);
    if (count != 3 || keeper_place(&keeper, sizes, malloc(bytes), bytes) != KEEPER_PLACED)
        return 2;
    return strcmp(words[1], "make") == 0 ? make(words[2]) : read_back(words[2]);
}
