/* Not proved, tested by tests/sectordisk/convert.sh: the layouts 1 to 4 of the file disk, which are only read, to be converted: a header block with a checksum, a journal
 * of one store with another, and the tables, each entry in its own width, low byte first. */
#include <stdio.h>
#include "filedisk_inside.h"

enum { JOURNAL = 8192, MOST_PIECES = 8, LAST = 4 };
static const char MAGIC[8] = {'K', 'E', 'E', 'P', 'D', 'I', 'S', 'K'};

/* Where the header's numbers are, 4 bytes each; the widths follow the sizes, the lengths the widths; the checksum of all before ends the block. */
enum { STORED_SIZES = 6, VERSION = 8, SIZE_COUNT = 12, TABLE_COUNT = 16, SIZES = 20, WIDTHS = SIZES + 4 * STORED_SIZES, SUM = FILEDISK_BLOCK - 4 };

/* How many tables each version has, the first of those that there are now; versions before FRAMELESS have F among their sizes. */
enum { FRAMELESS = 3, FRAMES = 2 };
static const uint32_t TABLES[LAST + 1] = {0, 5, 6, 6, 7};
KEEPER_ASSERT(KEEPER_SIZE_COUNT == STORED_SIZES + 1, "the older layouts have all sizes but B");

/* A number on the device, low byte first. */
static uint64_t get(const unsigned char *at, size_t width)
{
    uint64_t value = 0;
    for (size_t byte = width; byte > 0; byte--)
        value = value << 8 | at[byte - 1];
    return value;
}

static uint32_t field(const unsigned char *block, size_t at)
{
    return (uint32_t)get(block + at, 4);
}

static uint32_t checksum(const unsigned char *bytes, size_t count)
{
    uint32_t sum = 0xFFFFFFFFu;
    for (size_t at = 0; at < count; at++) {
        sum ^= bytes[at];
        for (int bit = 0; bit < 8; bit++)
            sum = (sum >> 1) ^ (0xEDB88320u & (0u - (sum & 1u)));
    }
    return ~sum;
}

/* ── the header ── */
int filedisk_is_old(const unsigned char *block)
{
    return memcmp(block, MAGIC, sizeof MAGIC) == 0;
}

/* A table of the layout of now by its number, without a keeper. */
static KeeperTable described(KeeperSizes sizes, size_t table)
{
    Keeper none;
    memset(&none, 0, sizeof none);
    none.sizes = sizes;
    return keeper_table(&none, table);
}

/* The sizes that stand there; versions that have no F have a 0 for it. */
static KeeperSizes sizes_in(const unsigned char *block)
{
    uint32_t values[KEEPER_SIZE_COUNT] = {0};
    for (size_t size = 0; size < STORED_SIZES; size++)
        values[size] = field(block, SIZES + 4 * size);
    if (field(block, VERSION) >= FRAMELESS && values[FRAMES] == 0)
        values[FRAMES] = 1;
    values[STORED_SIZES] = 1;
    return keeper_sizes_of(values);
}

/* Where the tables are, and whether the block says so: with their widths and lengths, and zeros behind them. */
static int plan(FileDisk *disk, const unsigned char *block, KeeperSizes sizes)
{
    const uint32_t tables = TABLES[disk->version];
    int same = field(block, SIZE_COUNT) == STORED_SIZES && field(block, TABLE_COUNT) == tables;
    disk->end = FILEDISK_BLOCK + JOURNAL;
    for (size_t table = 0; table < tables; table++) {
        const KeeperTable lent = described(sizes, table);
        disk->table_at[table] = disk->end;
        disk->end += (lent.width * lent.count + FILEDISK_BLOCK - 1) / FILEDISK_BLOCK * FILEDISK_BLOCK;
        same = same && field(block, WIDTHS + 4 * table) == lent.width && field(block, WIDTHS + 4 * (tables + table)) == lent.count;
    }
    for (size_t at = WIDTHS + 8 * tables; at < SUM; at++)
        same = same && block[at] == 0;
    return same && (disk->version < FRAMELESS || field(block, SIZES + 4 * FRAMES) == 0);
}

int filedisk_old_header(FileDisk *disk, const unsigned char *block, KeeperSizes *sizes)
{
    char line[sizeof disk->line];
    const uint32_t version = field(block, VERSION);
    if (field(block, SUM) != checksum(block, SUM))
        return filedisk_refused(disk, FILEDISK_DAMAGED, "the header block is damaged: its checksum is wrong");
    if (version == 0 || version > LAST) {
        snprintf(line, sizeof line, "the disk has version %u of the layout, which no program has written there", (unsigned)version);
        return filedisk_refused(disk, FILEDISK_OTHER_VERSION, line);
    }
    *sizes = sizes_in(block);
    disk->version = version;
    if (!keeper_sizes_fit(*sizes))
        return filedisk_refused(disk, FILEDISK_OTHER_SIZES, "the disk was formatted by a keeper with other sizes than this one can have");
    return plan(disk, block, *sizes) ? FILEDISK_GOOD : filedisk_refused(disk, FILEDISK_OTHER_SIZES, "the disk was formatted by a keeper with other tables");
}

/* ── the journal's store ── */

/* Where the parts of an entry are: the sum is of all behind it; a piece is its place and its length, 8 bytes each; the pieces' bytes follow. */
enum { ENTRY_SUM = 0, ENTRY_MAGIC = 4, PIECES = 12, BYTES = 16, LENGTH = 20, PIECE = 24, PIECE_SIZE = 16, HEAD = PIECE + PIECE_SIZE * MOST_PIECES };
enum { ENTRY = 0x4A524E4C };

static uint64_t piece_at(const unsigned char *entry, size_t piece)
{
    return get(entry + PIECE + piece * PIECE_SIZE, 8);
}

static uint64_t piece_bytes(const unsigned char *entry, size_t piece)
{
    return get(entry + PIECE + piece * PIECE_SIZE + 8, 8);
}

/* Whether a whole store stands in the journal, with places that are the tables'. */
static int is_whole(const FileDisk *disk, const unsigned char *entry)
{
    const uint32_t pieces = field(entry, PIECES), length = field(entry, LENGTH);
    uint64_t bytes = 0;
    if (field(entry, ENTRY_MAGIC) != ENTRY || pieces > MOST_PIECES || length < HEAD || length > JOURNAL)
        return 0;
    if (field(entry, ENTRY_SUM) != checksum(entry + ENTRY_MAGIC, length - ENTRY_MAGIC))
        return 0;
    for (size_t piece = 0; piece < pieces; piece++) {
        const uint64_t at = piece_at(entry, piece), more = piece_bytes(entry, piece);
        if (at < disk->table_at[0] || at > disk->end || more > disk->end - at || more > JOURNAL)
            return 0;
        bytes += more;
    }
    return bytes == field(entry, BYTES) && length == HEAD + bytes;
}

/* Lays what a whole store has of a part of the device over what was read from there. */
static void lay_over(const unsigned char *entry, uint64_t at, unsigned char *bytes, uint64_t count)
{
    const unsigned char *from = entry + HEAD;
    for (size_t piece = 0; piece < field(entry, PIECES); piece++) {
        const uint64_t start = piece_at(entry, piece), more = piece_bytes(entry, piece), end = start + more;
        const uint64_t first = start > at ? start : at, last = end < at + count ? end : at + count;
        if (first < last)
            memcpy(bytes + (first - at), from + (first - start), (size_t)(last - first));
        from += more;
    }
}

/* ── the tables ── */

/* Entries of 2 or 4 bytes as the machine has them, in the place of those that the device has. */
static void unpack(KeeperTable table)
{
    unsigned char *at = table.at;
    for (size_t entry = 0; entry < table.count; entry++, at += table.width) {
        const uint32_t whole = (uint32_t)get(at, table.width);
        const uint16_t half = (uint16_t)whole;
        memcpy(at, table.width == sizeof half ? (const void *)&half : (const void *)&whole, table.width);
    }
}

int filedisk_old_read(FileDisk *disk, Keeper *keeper)
{
    unsigned char entry[JOURNAL];
    if (disk->blocks.read(disk->blocks.self, FILEDISK_BLOCK, entry, JOURNAL) != 0)
        return -1;
    const int whole = is_whole(disk, entry);
    for (size_t number = 0; number < KEEPER_DISK_COUNT; number++) {
        const KeeperTable table = keeper_table(keeper, number);
        memset(table.at, 0, table.width * table.count);
        if (number >= TABLES[disk->version])
            continue;
        if (disk->blocks.read(disk->blocks.self, disk->table_at[number], table.at, table.width * table.count) != 0)
            return -1;
        if (whole)
            lay_over(entry, disk->table_at[number], table.at, table.width * table.count);
        unpack(table);
    }
    return 0;
}
