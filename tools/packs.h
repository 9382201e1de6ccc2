/* What mend.c, convert.c, export.c and import.c share: a pack file read into a keeper, and a new one made of a keeper. Not proved; tested by
 * tests/mend.sh, tests/convert.sh and tests/sheets.sh. */
#ifndef PACKS_H
#define PACKS_H

#include <stdio.h>
#include <stdlib.h>
#include "filedisk.h"

static int complain(const char *tool, const char *path, const char *line)
{
    fprintf(stderr, "%s: %s: %s\n", tool, path, line);
    return 1;
}

/* The disk part of an open pack of this or an older layout, with its own sizes. The file is only read; the block stays until the end. */
static int read_tables(const char *tool, const char *path, FileDisk *disk, FileBlocks blocks, Keeper *keeper)
{
    KeeperSizes sizes;
    if (filedisk_sizes(disk, blocks, &sizes) != FILEDISK_GOOD)
        return complain(tool, path, disk->line);
    const size_t bytes = keeper_workspace(sizes);
    void *block = malloc(bytes);
    if (!block || keeper_place(keeper, sizes, block, bytes) != KEEPER_PLACED)
        return complain(tool, path, "no memory for its tables");
    if (filedisk_read(disk, blocks, keeper) != FILEDISK_GOOD)
        return complain(tool, path, disk->line);
    return 0;
}

/* The same of a file that nobody else writes to meanwhile. */
static inline int read_pack(const char *tool, const char *path, FileDisk *disk, Keeper *keeper)
{
    FileBlocks blocks;
    if (filedisk_file(disk, &blocks, path, FILEDISK_READ) != FILEDISK_GOOD)
        return complain(tool, path, disk->line);
    const int failed = read_tables(tool, path, disk, blocks, keeper);
    filedisk_close(&blocks);
    return failed;
}

/* A pack of the layout of now that restart takes: its memory part is set up. */
static inline int restart_pack(const char *tool, const char *path, const FileDisk *disk, Keeper *keeper)
{
    if (disk->version != FILEDISK_VERSION)
        return complain(tool, path, "it has an older layout: make convert OLD=.. NEW=.. makes a new file of it");
    if (keeper_easy_restart(keeper).refusal != KEEPER_DONE)
        return complain(tool, path, "restart turns it away: make mend PACK=.. makes a mended pack of it");
    return 0;
}

/* A new file with the keeper's disk part. A file that is there is left alone; one that cannot be filled is removed. */
static inline int make_pack(const char *tool, const char *path, const Keeper *keeper)
{
    FileBlocks blocks;
    FileDisk disk;
    if (filedisk_file(&disk, &blocks, path, FILEDISK_NEW) != FILEDISK_GOOD)
        return complain(tool, path, disk.line);
    const int failed = filedisk_make(&disk, blocks, keeper) != FILEDISK_GOOD ? complain(tool, path, disk.line) : 0;
    if (failed)
        remove(path);
    filedisk_close(&blocks);
    return failed;
}

#endif
