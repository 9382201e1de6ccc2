/* Not proved: what the parts of the file disk share and no firmware needs: refusals, and what is read of older layouts. */
#ifndef FILEDISK_INSIDE_H
#define FILEDISK_INSIDE_H

#include "filedisk.h"

/* Why a disk is refused: it is dead then. Answers `answer`. */
int filedisk_refused(FileDisk *disk, int answer, const char *line);

/* The disk on sectors over its blocks. Dead, if this one is. */
KeeperDisk *filedisk_sectors(FileDisk *disk);

/* Whether a block is empty. */
int filedisk_is_empty(const unsigned char *block);

/* ── versions 1 to 4, which are only read ── */

/* Whether a device's first block is the header block of one, damaged or not. */
int filedisk_is_old(const unsigned char *block);

/* The version and the sizes by such a block, and how long the device must be. */
int filedisk_old_header(FileDisk *disk, const unsigned char *block, KeeperSizes *sizes);

/* The disk part, with the journal's store in its places, after the header was read. 0, or -1 if the device failed. */
int filedisk_old_read(FileDisk *disk, Keeper *keeper);

#endif
