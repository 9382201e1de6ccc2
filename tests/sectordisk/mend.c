/* Not proved: makes packs for tests/sectordisk/mend.sh, and looks at what tools/mend.c made of them. `make PATH KIND`, `look PATH`. */
#define _POSIX_C_SOURCE 200809L
#include <stdio.h>
#include <stdlib.h>
#include "filedisk.h"

static const KeeperSizes sizes = {.words = 4, .records = 8, .frames = 3, .slots = 4, .pages = 3, .accounts = 2, .chip = 2};

static int failed(const char *what)
{
    fprintf(stderr, "tests/sectordisk/mend.c: %s\n", what);
    return 1;
}

static int weave(FileDisk *disk, Keeper *keeper, uint32_t slot, uint32_t number, uint32_t value)
{
    uint32_t left;
    if (filedisk_create(disk, keeper, slot, 1, number).refusal || keeper_activate(keeper, slot).refusal)
        return -1;
    for (uint32_t page = 0; page < 2; page++) {
        if (filedisk_bring(disk, keeper, slot, page) != KEEPER_DONE || keeper_write(keeper, slot, page, 1, value + page).refusal)
            return -1;
    }
    return filedisk_save(disk, keeper, slot, &left) != KEEPER_DONE || left != 0;
}

/* A cell of a table as an older board might have left it. */
static void put(FileDisk *disk, size_t table, size_t entry, uint32_t value)
{
    const unsigned char bytes[4] = {(unsigned char)value, (unsigned char)(value >> 8), (unsigned char)(value >> 16), (unsigned char)(value >> 24)};
    if (disk->blocks.write(disk->blocks.self, filedisk_place(disk, table, entry), bytes, sizeof bytes) != 0)
        exit(failed("a cell cannot be written"));
}

/* A file, new or there already, and a keeper. */
static int opened(const char *path, int how, FileBlocks *blocks, Keeper *keeper)
{
    FileDisk disk;
    const size_t bytes = keeper_workspace(sizes);
    return filedisk_file(&disk, blocks, path, how) == FILEDISK_GOOD && keeper_place(keeper, sizes, malloc(bytes), bytes) == KEEPER_PLACED;
}

static int make(const char *path, const char *kind)
{
    FileBlocks blocks;
    FileDisk disk;
    Keeper keeper;
    if (!opened(path, FILEDISK_NEW, &blocks, &keeper))
        return failed("no file or no memory");
    if (filedisk_format(&disk, blocks, &keeper, NULL) != FILEDISK_GOOD || filedisk_limit(&disk, &keeper, 1, 8).refusal)
        return failed("no format");
    if (weave(&disk, &keeper, 0, 101, 10) != 0 || weave(&disk, &keeper, 2, 102, 20) != 0)
        return failed("no design");
    if (filedisk_limit(&disk, &keeper, 1, 7).refusal) /* so that the journal's store is none of those below */
        return failed("no limit");
    if (strcmp(kind, "hurt") == 0) { /* page 2 of slot 0: no such record; slot 1 doubles 101 and names a record of slot 2's; slot 3 is empty */
        put(&disk, KEEPER_TABLE_MAPS, 2, 60000);
        put(&disk, KEEPER_TABLE_NUMBERS, 1, 101);
        put(&disk, KEEPER_TABLE_ACCOUNTS, 1, 1);
        put(&disk, KEEPER_TABLE_MAPS, 3, keeper.maps[6]);
        put(&disk, KEEPER_TABLE_ACCOUNTS, 2, 9);
        put(&disk, KEEPER_TABLE_ACCOUNTS, 3, 1);
        put(&disk, KEEPER_TABLE_HIGHEST, 0, 50); /* below both numbers */
        put(&disk, KEEPER_TABLE_MAPS, 8, keeper.maps[7]); /* page 2 of slot 2 names the record of its page 1 */
    }
    if (strcmp(kind, "parents") == 0) { /* account 1 is its own parent, and one entry is wrong too */
        put(&disk, KEEPER_TABLE_MAPS, 2, 60000);
        put(&disk, KEEPER_TABLE_PARENTS, 1, 1);
    }
    filedisk_close(&blocks);
    free(keeper.records);
    return 0;
}

static int look(const char *path)
{
    FileBlocks blocks;
    FileDisk disk;
    Keeper keeper;
    if (!opened(path, FILEDISK_OPEN, &blocks, &keeper))
        return failed("no file or no memory");
    if (filedisk_open(&disk, blocks, &keeper) != FILEDISK_GOOD) {
        printf("%s\n", disk.line);
        return 1;
    }
    for (uint32_t slot = 0; slot < sizes.slots; slot++) {
        if (keeper.numbers[slot] == 0 || keeper_activate(&keeper, slot).refusal)
            continue;
        printf("design %u account %u:", (unsigned)keeper.numbers[slot], (unsigned)keeper.accounts[slot]);
        for (uint32_t page = 0; page < 3; page++) {
            if (keeper.maps[slot * sizes.pages + page] == 0)
                printf(" -");
            else if (filedisk_bring(&disk, &keeper, slot, page) == KEEPER_DONE)
                printf(" %u", (unsigned)keeper_read(&keeper, slot, page, 1).result);
        }
        printf("\n");
    }
    filedisk_close(&blocks);
    free(keeper.records);
    return 0;
}

int main(int count, char **words)
{
    if (count == 4 && strcmp(words[1], "make") == 0)
        return make(words[2], words[3]);
    if (count == 3 && strcmp(words[1], "look") == 0)
        return look(words[2]);
    return failed("make PATH KIND, or look PATH");
}
