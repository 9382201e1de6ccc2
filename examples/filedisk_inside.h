/* Not proved: what the parts of the file disk share and no firmware needs: the byte order, the checksum, the journal. */
#ifndef FILEDISK_INSIDE_H
#define FILEDISK_INSIDE_H

#include "filedisk.h"

/* A number on the device, low byte first. */
static inline uint64_t filedisk_get(const unsigned char *at, size_t width)
{
    uint64_t value = 0;
    for (size_t byte = width; byte > 0; byte--)
        value = value << 8 | at[byte - 1];
    return value;
}

static inline void filedisk_put(unsigned char *at, size_t width, uint64_t value)
{
    for (size_t byte = 0; byte < width; byte++)
        at[byte] = (unsigned char)(value >> 8 * byte);
}

static inline uint64_t filedisk_whole_blocks(uint64_t bytes)
{
    return (bytes + FILEDISK_BLOCK - 1) / FILEDISK_BLOCK * FILEDISK_BLOCK;
}

/* Entries of 1, 2 or 4 bytes as the machine has them, and as the device has them; `to` and `from` may be one. */
void filedisk_pack(unsigned char *to, const void *from, size_t width, size_t count);
void filedisk_unpack(void *to, const unsigned char *from, size_t width, size_t count);

uint32_t filedisk_checksum(const unsigned char *bytes, size_t count);

/* Why a disk is refused: it is dead then. Answers `answer`. */
int filedisk_refused(FileDisk *disk, int answer, const char *line);

/* The highest number as a store of its own. 0, or -1, and the disk is dead. */
int filedisk_store_highest(FileDisk *disk, const Keeper *keeper);

/* The journal's entry as read; 1 if a whole store stands in it, with places that are the tables', 0 if none does, -1 if the device failed. */
int filedisk_journal_read(const FileDisk *disk, unsigned char entry[FILEDISK_JOURNAL]);

/* The journal's store made safe and brought to its places, or the journal emptied. 0, or -1. */
int filedisk_journal_recover(FileDisk *disk);

/* Lays what a whole store has of a part of the device over what was read from there. */
void filedisk_journal_over(const unsigned char *entry, uint64_t at, unsigned char *bytes, uint64_t count);

#endif
