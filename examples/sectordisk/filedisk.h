/* Not proved, tested by tests/sectordisk: a disk for the keeper over a file, or over any device of bytes that can be read, written and synced. It is the disk of
 * include/keeper_disk.h, in sectors of FILEDISK_BLOCK bytes, one behind the other from byte 0 on: the commit sector, two areas of the journal, the header,
 * the tables (docs/USING.md, "A disk on sectors"). What makes each store land whole or not at all, and where everything is, is proved below that.
 *
 * A file's sync that fails may leave what a read still shows and no later sync stores. So open writes the header again, the commit sector and the contents
 * that it names, as they are read, before its sync. If the device fails in a store, nobody can tell whether it lands: the disk is dead, nothing is reported,
 * and it must be opened anew, which counts as a cut.
 *
 * This is version 5 of the layout. Versions 1 to 4 have a header block at byte 0, with a checksum, a journal of one store and the tables behind it; version 1
 * has no parents, versions 1 and 2 have F among the sizes, version 4 has the highest number. filedisk_sizes and filedisk_read know all five, the others
 * the last alone (make convert makes it of the older ones). */
#ifndef FILEDISK_H
#define FILEDISK_H

#include "keeper_disk.h"

#ifdef __cplusplus
extern "C" {
#endif

enum { FILEDISK_VERSION = 5, FILEDISK_BLOCK = DISK_BYTES, FILEDISK_MOST_PIECES = 8 };

/* The byte where the header is: home sector 0. */
enum { FILEDISK_HEADER = (1 + 2 * DISK_MOST) * FILEDISK_BLOCK };

/* A device of bytes. Each answers 0, or -1 if it failed; a read also FILEDISK_PAST_END, where the device ends before the last byte. What was written is safe
 * once a later sync has answered 0. Sectors are read and written whole. */
enum { FILEDISK_PAST_END = 1 };
typedef struct {
    void *self;
    int (*read)(void *self, uint64_t at, void *to, size_t bytes);
    int (*write)(void *self, uint64_t at, const void *from, size_t bytes);
    int (*sync)(void *self);
} FileBlocks;

typedef struct {
    FileBlocks blocks;
    KeeperDisk sectors; /* the disk on them, once it is open */
    uint32_t version;   /* of the layout that is on the device */
    uint64_t table_at[KEEPER_DISK_COUNT]; /* the byte where each table begins */
    uint64_t end;       /* how long the device must be */
    int dead;           /* refused, or the device failed: open it anew */
    char line[240];     /* why */
} FileDisk;

/* What file, format, open, sizes, read and make answer; `line` of the disk says it in words. */
enum {
    FILEDISK_GOOD = 0,
    FILEDISK_DEVICE = 1,        /* the device failed, cannot be opened, or is shorter than its tables */
    FILEDISK_NO_DISK = 2,       /* nothing stands where the header is to be: never formatted, or a cut fell in the format */
    FILEDISK_OTHER_VERSION = 3, /* another version of this layout */
    FILEDISK_OTHER_SIZES = 4,   /* formatted with other sizes, or for other tables */
    FILEDISK_RESTART = 5,       /* the keeper's restart refused it */
    FILEDISK_PARENTS = 6,       /* format: a wanted parent is not a lower account; the device is untouched */
    FILEDISK_DAMAGED = 7,       /* something stands there that is no disk: it is damaged, or the file is another program's */
    FILEDISK_IN_USE = 8,        /* file: another program has it open */
    FILEDISK_THERE = 9          /* file, FILEDISK_NEW: it is there already */
};

/* How a file is opened: one that is there; one that is made, and was not there; one that is there, to be read alone. */
enum { FILEDISK_OPEN = 0, FILEDISK_NEW = 1, FILEDISK_READ = 2 };

/* A file as a device. Two programs at once would destroy it, so it is locked until it is closed or its process ends; to be read alone, several may
 * have it. The file is closed by filedisk_close. filedisk_bytes is its length, UINT64_MAX for what has none. */
int filedisk_file(FileDisk *disk, FileBlocks *blocks, const char *path, int how);
uint64_t filedisk_bytes(const FileBlocks *blocks);
void filedisk_close(FileBlocks *blocks);

/* A new file, or a new name of one, is safe only once its folder is synced: that is done. 0, or -1, and errno says why. */
int filedisk_folder(const char *path);

/* A new disk: all zeros but the parents, and the header last. What stood there is gone. The keeper is formatted and restarted too. `wanted`: the
 * parent of each account, or NULL for account 0 everywhere. Nothing but this and filedisk_make formats, so it is for the caller to ask first. */
int filedisk_format(FileDisk *disk, FileBlocks blocks, Keeper *keeper, const uint16_t *wanted);

/* A disk after a cut or a reset: the header is looked at, and that the device is as long as it says. Up to there nothing is written. Then the newest store is
 * brought home, the disk part read, the keeper restarted; and if that changed the highest number, it is stored. */
int filedisk_open(FileDisk *disk, FileBlocks blocks, Keeper *keeper);

/* The sizes that a disk of this or an older version was formatted with, by its header; it must be as long as that says. The frames and the
 * chip's places are 1. */
int filedisk_sizes(FileDisk *disk, FileBlocks blocks, KeeperSizes *sizes);

/* The disk part of this or an older version into the keeper's, with the newest store in its places; tables that it lacks are zeros. Writes nothing to the
 * device, and does not restart. The keeper must have the disk's sizes. */
int filedisk_read(FileDisk *disk, FileBlocks blocks, Keeper *keeper);

/* A new disk, in the place of all that was on the device, with the keeper's disk part. The header comes last: a cut within it leaves no disk. It is not open
 * then. */
int filedisk_make(FileDisk *disk, FileBlocks blocks, const Keeper *keeper);

/* Entries of a table that a store changes, and what they become. */
typedef struct {
    size_t table, first, count;
    const void *from;
} FilePiece;

/* One store, whole or not at all: 0 once it is safe, or -1, and the disk is dead. Also -1, and nothing has happened, if a piece is no part of a
 * table or all of them touch more sectors than a store takes. The other entries of their rows stay as the device has them. */
int filedisk_store(FileDisk *disk, const FilePiece *pieces, size_t count);

/* The byte where an entry of a table stands, in four bytes. */
uint64_t filedisk_place(const FileDisk *disk, size_t table, size_t entry);

/* The refusal that tells that the disk is dead: the keeper has carried it out, but nobody knows whether its store will land. */
#define FILEDISK_DIED KEEPER_DISK_DIED

/* The events that store by themselves: the call, then its store. The keeper's answer, or FILEDISK_DIED. */
KeeperAnswer filedisk_limit(FileDisk *disk, Keeper *keeper, uint32_t account, uint32_t pages);
KeeperAnswer filedisk_move(FileDisk *disk, Keeper *keeper, uint32_t giver, uint32_t taker, uint32_t pages);
KeeperAnswer filedisk_create(FileDisk *disk, Keeper *keeper, uint32_t slot, uint32_t account, uint32_t number);
KeeperAnswer filedisk_delete(FileDisk *disk, Keeper *keeper, uint32_t slot);

/* An import: the call, then the highest number, then each record that it has filled as a store of its own, pages rising, then the slot as one store:
 * number, account, map. If a cut comes before the last, the slot is empty, the records are free, and the number is skipped, if it came to the
 * device. An export stores nothing: keeper_easy_export. */
KeeperAnswer filedisk_import(FileDisk *disk, Keeper *keeper, uint32_t slot, uint32_t account, uint32_t number, const uint8_t *sheet, size_t bytes);

/* What a step asks for: the store or the read, and then the report. 0, or -1, and the disk is dead. */
int filedisk_transfer(FileDisk *disk, Keeper *keeper, KeeperTransfer transfer);
int filedisk_map(FileDisk *disk, Keeper *keeper, uint32_t slot);

/* All writes that are open, of any design, as one store, or as many as fit, and then their reports. 0, or -1, and the disk is dead. */
int filedisk_writes(FileDisk *disk, Keeper *keeper);

/* A page into a frame, and a design to the disk, all steps of them; its pages and its map are one store, if they fit. 0, the keeper's refusal, or FILEDISK_DIED. */
uint32_t filedisk_bring(FileDisk *disk, Keeper *keeper, uint32_t slot, uint32_t page);
uint32_t filedisk_save(FileDisk *disk, Keeper *keeper, uint32_t slot, uint32_t *left);

#ifdef __cplusplus
}
#endif

#endif
