/* Not proved: what the parts of the test of resets share. A device whose every choice is made by `choose` (device.c): all of them, path by path
 * (paths.c, numbers.c, imports.c), or by chance (torn.c). */
#ifndef RESETS_H
#define RESETS_H

#include "without.h"

enum { MOST_PENDING = 16, RESET = 0, CUT = 1 };

/* A device of bytes with a cache. `grain` bytes at a multiple of it land as one. */
typedef struct {
    size_t bytes, grain;
    unsigned char *safe, *seen;                 /* what is on it; what a read shows, with what its cache has */
    unsigned char *after[MOST_PENDING];         /* the whole device after each write that is not synced, one on the other */
    uint64_t at[MOST_PENDING], end[MOST_PENDING];
    size_t count;                               /* of these */
    unsigned countdown;                         /* operations until the end, 0 for none */
    int ended, kind;                            /* whether it has come; a reset or a cut */
    unsigned operations;                        /* that were made since the power came on */
    unsigned (*choose)(unsigned below);
} Device;

Device *device_new(size_t bytes, size_t grain, unsigned (*choose)(unsigned));
void device_free(Device *device);
void device_load(Device *device, const unsigned char *safe); /* nothing is in its cache then */
FileBlocks device_on(Device *device, unsigned countdown);    /* power on; the end comes at that operation */
void device_end(Device *device);                             /* what a reset or a cut leaves, as chosen; at rest if no end has come */

/* The disk of all tests, and a driver, right or wrong, that opens it. */
typedef struct {
    Keeper keeper;
    FileDisk disk;
    Device *device;
    Without without;
    int wrong;
} Board;
void board_new(Board *board, int wrong, size_t grain, unsigned (*choose)(unsigned));
void board_free(Board *board);
int board_open(Board *board, unsigned countdown); /* filedisk_open's answer */

/* Every choice, path by path, from the disk as it is: how many paths were gone, and how many of these broke a promise. */
typedef struct {
    unsigned long paths, broken;
} Found;
unsigned path_choose(unsigned below);
Found all_paths(Board *board, int (*path)(Board *, int, unsigned), int record, unsigned ends);

/* So many opens, each of which but the last ends at one of its operations or at rest. What `found_by` says of the disk is 0 or more, and stays: -1 is
 * broken, and unknown before the first open. */
int opens_agree(Board *board, int known, unsigned ends, unsigned operations, int (*found_by)(const Board *));

/* The paths of one store, its reset or cut, and the opens behind it; of two stores; of a format over a disk; of an import. */
Found paths_of_store(int wrong, int record, unsigned ends);
Found paths_of_two(int wrong);
Found paths_of_format(int wrong);
Found paths_of_import(int wrong, unsigned ends);

/* The same of a create, whose stores are two, and of opens of an older pack that has no highest number. */
Found paths_of_create(int wrong, unsigned ends);
Found paths_of_older(int wrong, unsigned ends);

/* So many stores, torn by chance at that grain: whether each is found whole or not at all, and stays so. */
Found torn_stores(int wrong, size_t grain, unsigned long stores, uint64_t seed);

#endif
