/* Not proved: makes packs for tests/sheets.py, and looks at what tools/import.c made of them. `make PATH KIND`, `look PATH`. */
#define _POSIX_C_SOURCE 200809L
#include <stdio.h>
#include <stdlib.h>
#include "filedisk.h"

static const KeeperSizes sizes = {.words = 3, .records = 8, .frames = 3, .slots = 4, .pages = 3, .accounts = 3, .chip = 2};

static int failed(const char *what)
{
    fprintf(stderr, "tests/sheets.c: %s\n", what);
    return 1;
}

/* A design with a page or two: word w of page p is `value` + 16 p + w. */
static int weave(FileDisk *disk, Keeper *keeper, uint32_t slot, uint32_t account, uint32_t number, uint32_t value, uint32_t step)
{
    uint32_t left;
    if (filedisk_create(disk, keeper, slot, account, number).refusal || keeper_activate(keeper, slot).refusal)
        return -1;
    for (uint32_t page = 0; page < sizes.pages; page += step) {
        if (filedisk_bring(disk, keeper, slot, page) != KEEPER_DONE)
            return -1;
        for (uint32_t word = 0; word < sizes.words; word++)
            if (keeper_write(keeper, slot, page, word, value + 16 * page + word).refusal)
                return -1;
    }
    return filedisk_save(disk, keeper, slot, &left) != KEEPER_DONE || left != 0;
}

/* An entry of a table as this keeper would not leave it. */
static int put(FileDisk *disk, size_t table, size_t entry, uint32_t value)
{
    const FilePiece piece = {table, entry, 1, &value};
    const uint16_t half = (uint16_t)value;
    const FilePiece short_piece = {table, entry, 1, &half};
    return filedisk_store(disk, disk->width[table] == 2 ? &short_piece : &piece, 1);
}

/* A file, new or there already, and a keeper. */
static int opened(const char *path, int how, FileBlocks *blocks, Keeper *keeper)
{
    FileDisk disk;
    const size_t bytes = keeper_workspace(sizes);
    return filedisk_file(&disk, blocks, path, how) == FILEDISK_GOOD && keeper_place(keeper, sizes, malloc(bytes), bytes) == KEEPER_PLACED;
}

/* Design 101 in slot 0, all pages, account 1; 102 in slot 2, pages 0 and 2, account 2. Account 1 may have 5 pages, account 2 passes its charges up to
 * account 0, which may have 100. Hurt: an entry above R. Zeros: the record of page 1 of 101 holds zeros. */
static int make(const char *path, const char *kind)
{
    FileBlocks blocks;
    FileDisk disk;
    Keeper keeper;
    if (!opened(path, FILEDISK_NEW, &blocks, &keeper))
        return failed("no file or no memory");
    if (filedisk_format(&disk, blocks, &keeper, NULL) != FILEDISK_GOOD || filedisk_limit(&disk, &keeper, 1, 5).refusal
        || filedisk_limit(&disk, &keeper, 0, 100).refusal)
        return failed("no format");
    if (weave(&disk, &keeper, 0, 1, 101, 1000, 1) != 0 || weave(&disk, &keeper, 2, 2, 102, 2000, 2) != 0)
        return failed("no design");
    if (strcmp(kind, "hurt") == 0 && put(&disk, KEEPER_TABLE_MAPS, 3 * sizes.pages, 60000) != 0)
        return failed("no entry");
    for (size_t word = 0; word < sizes.words && strcmp(kind, "zeros") == 0; word++)
        if (put(&disk, KEEPER_TABLE_RECORDS, (keeper.maps[1] - 1u) * sizes.words + word, 0) != 0)
            return failed("no record");
    filedisk_close(&blocks);
    free(keeper.records);
    return 0;
}

/* Every design, page by page, as it reads; "-" for a page that is not listed. */
static int look(const char *path)
{
    FileBlocks blocks;
    FileDisk disk;
    Keeper keeper;
    if (!opened(path, FILEDISK_OPEN, &blocks, &keeper))
        return failed("no file or no memory");
    if (filedisk_open(&disk, blocks, &keeper) != FILEDISK_GOOD) {
        printf("%s\n", disk.line);
        return 1;
    }
    for (uint32_t slot = 0; slot < sizes.slots; slot++) {
        if (keeper.numbers[slot] == 0 || keeper_activate(&keeper, slot).refusal)
            continue;
        printf("slot %u design %u account %u:", (unsigned)slot, (unsigned)keeper.numbers[slot], (unsigned)keeper.accounts[slot]);
        for (uint32_t page = 0; page < sizes.pages; page++) {
            const int listed = keeper.maps[slot * sizes.pages + page] != 0 && filedisk_bring(&disk, &keeper, slot, page) == KEEPER_DONE;
            for (uint32_t word = 0; word < sizes.words && listed; word++)
                printf("%c%u", word == 0 ? ' ' : ',', (unsigned)keeper_read(&keeper, slot, page, word).result);
            fputs(listed ? "" : " -", stdout);
        }
        printf("\n");
    }
    filedisk_close(&blocks);
    free(keeper.records);
    return 0;
}

int main(int count, char **words)
{
    if (count == 4 && strcmp(words[1], "make") == 0)
        return make(words[2], words[3]);
    if (count == 3 && strcmp(words[1], "look") == 0)
        return look(words[2]);
    return failed("make PATH KIND, or look PATH");
}
