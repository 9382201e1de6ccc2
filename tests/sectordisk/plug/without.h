/* Not proved: the wrong drivers that the plug test and the test of resets must catch, and a device that makes some of them of the right one. */
#ifndef WITHOUT_H
#define WITHOUT_H

#include "filedisk.h"

enum {
    WRONG_NONE = 0,
    WRONG_NO_JOURNAL = 1,
    WRONG_PAGE_EARLY = 2, /* a page is reported before it is stored */
    WRONG_MAP_EARLY = 3,
    WRONG_NO_SLOT = 4,    /* the store of a slot is left out */
    WRONG_NO_SYNC = 5,
    WRONG_TWO_STORES = 6, /* a move */
    WRONG_SLOT_FIRST = 7,  /* an import's slot is stored before its records */
    WRONG_SLOT_IN_TWO = 8, /* .. or its number and account before its map */
    WRONG_NO_HIGHEST = 9,  /* the store of the highest number is left out of a create */
    WRONG_HIGHEST_STAYS = 10, /* .. or of an open */
    WRONG_OPEN_SYNC = 11,  /* open brings the newest store home before it is safe in the journal */
    WRONG_SYNC_ALONE = 12, /* .. or syncs, and does not write the commit sector and its contents again */
    WRONG_ONE_AREA = 13,   /* every store's contents go to the same area */
    WRONG_HEADER_STAYS = 14, /* open does not write the header again */
    WRONG_NO_FIRST_SYNC = 15, /* a store's commit sector is written before its contents are safe */
    WRONG_COUNT = 16
};

/* A device that passes over what a driver leaves out that has no journal, no sync, or an open that is wrong. */
typedef struct {
    FileBlocks inner;
    int wrong, opening, contents;
} Without;
FileBlocks without_on(Without *device, FileBlocks inner, int wrong);

/* filedisk_import by the right driver, and by those that store the slot before the records or in two. */
KeeperAnswer without_import(FileDisk *disk, Keeper *keeper, int wrong, uint32_t slot, uint32_t account, uint32_t number, const uint8_t *sheet, size_t bytes);

#endif
