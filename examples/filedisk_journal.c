/* Not proved, tested by make plug: the journal of filedisk.h. A store is journalled, synced, brought to its places and synced again. */
#include "filedisk_inside.h"

/* Where the parts of an entry are: the sum is of all behind it; a piece is its place and its length, 8 bytes each; the pieces' bytes follow. */
enum { SUM = 0, MAGIC = 4, SEQUENCE = 8, PIECES = 12, BYTES = 16, LENGTH = 20, PIECE = 24, PIECE_SIZE = 16, HEAD = PIECE + PIECE_SIZE * FILEDISK_MOST_PIECES };
enum { ENTRY_MAGIC = 0x4A524E4C };

static uint32_t field(const unsigned char *entry, size_t at)
{
    return (uint32_t)filedisk_get(entry + at, 4);
}

static uint64_t piece_at(const unsigned char *entry, size_t piece)
{
    return filedisk_get(entry + PIECE + piece * PIECE_SIZE, 8);
}

static uint64_t piece_bytes(const unsigned char *entry, size_t piece)
{
    return filedisk_get(entry + PIECE + piece * PIECE_SIZE + 8, 8);
}

static uint32_t entry_sum(const unsigned char *entry)
{
    return filedisk_checksum(entry + MAGIC, field(entry, LENGTH) - MAGIC);
}

/* Whether a whole store stands in the journal, with places that are the tables'. */
static int is_whole(const FileDisk *disk, const unsigned char *entry)
{
    const uint32_t pieces = field(entry, PIECES), length = field(entry, LENGTH);
    uint64_t bytes = 0;
    if (field(entry, MAGIC) != ENTRY_MAGIC || pieces > FILEDISK_MOST_PIECES || length < HEAD || length > FILEDISK_JOURNAL)
        return 0;
    if (field(entry, SUM) != entry_sum(entry))
        return 0;
    for (size_t piece = 0; piece < pieces; piece++) {
        const uint64_t at = piece_at(entry, piece), more = piece_bytes(entry, piece);
        if (at < disk->table_at[0] || at > disk->end || more > disk->end - at || more > FILEDISK_JOURNAL)
            return 0;
        bytes += more;
    }
    return bytes == field(entry, BYTES) && length == HEAD + bytes;
}

int filedisk_journal_read(const FileDisk *disk, unsigned char entry[FILEDISK_JOURNAL])
{
    if (disk->blocks.read(disk->blocks.self, FILEDISK_BLOCK, entry, FILEDISK_JOURNAL) != 0)
        return -1;
    return is_whole(disk, entry);
}

void filedisk_journal_over(const unsigned char *entry, uint64_t at, unsigned char *bytes, uint64_t count)
{
    const unsigned char *from = entry + HEAD;
    for (size_t piece = 0; piece < field(entry, PIECES); piece++) {
        const uint64_t start = piece_at(entry, piece), more = piece_bytes(entry, piece), end = start + more;
        const uint64_t first = start > at ? start : at, last = end < at + count ? end : at + count;
        if (first < last)
            memcpy(bytes + (first - at), from + (first - start), (size_t)(last - first));
        from += more;
    }
}

/* The entry in the journal, and safe there. */
static int put_journal(FileDisk *disk, const unsigned char *entry)
{
    const size_t bytes = (size_t)filedisk_whole_blocks(field(entry, LENGTH));
    if (disk->blocks.write(disk->blocks.self, FILEDISK_BLOCK, entry, bytes) != 0)
        return -1;
    return disk->blocks.sync(disk->blocks.self);
}

/* Brings a whole store to its places; it must be safe in the journal. */
static int bring_home(FileDisk *disk, const unsigned char *entry)
{
    const unsigned char *from = entry + HEAD;
    for (size_t piece = 0; piece < field(entry, PIECES); piece++) {
        const size_t bytes = (size_t)piece_bytes(entry, piece);
        if (disk->blocks.write(disk->blocks.self, piece_at(entry, piece), from, bytes) != 0)
            return -1;
        from += bytes;
    }
    return disk->blocks.sync(disk->blocks.self);
}

/* Nothing of a store that is not whole may be completed by a later one: its head goes. */
static int empty_journal(FileDisk *disk)
{
    static const unsigned char nothing[FILEDISK_BLOCK];
    if (disk->blocks.write(disk->blocks.self, FILEDISK_BLOCK, nothing, sizeof nothing) != 0)
        return -1;
    return disk->blocks.sync(disk->blocks.self);
}

int filedisk_journal_recover(FileDisk *disk)
{
    unsigned char entry[FILEDISK_JOURNAL];
    const int whole = filedisk_journal_read(disk, entry);
    if (whole <= 0)
        return whole < 0 ? -1 : empty_journal(disk);
    disk->sequence = field(entry, SEQUENCE) + 1;
    /* what was read may stand in the device's cache alone, after a reset or a sync that failed */
    return put_journal(disk, entry) != 0 ? -1 : bring_home(disk, entry);
}

/* ── a store ── */
static int fits(const FileDisk *disk, const FilePiece *piece, size_t room)
{
    if (piece->table >= disk->tables || piece->first > disk->count[piece->table] || piece->count > disk->count[piece->table] - piece->first)
        return 0;
    return piece->count <= room / disk->width[piece->table];
}

/* The pieces and their bytes; how long the entry is, or 0 if they do not fit. */
static size_t put_pieces(const FileDisk *disk, const FilePiece *pieces, size_t count, unsigned char *entry)
{
    size_t at = HEAD;
    for (size_t number = 0; number < count; number++) {
        const FilePiece *piece = pieces + number;
        if (!fits(disk, piece, FILEDISK_JOURNAL - at))
            return 0;
        const size_t width = disk->width[piece->table], bytes = width * piece->count;
        filedisk_put(entry + PIECE + number * PIECE_SIZE, 8, disk->table_at[piece->table] + width * piece->first);
        filedisk_put(entry + PIECE + number * PIECE_SIZE + 8, 8, bytes);
        filedisk_pack(entry + at, piece->from, width, piece->count);
        at += bytes;
    }
    return at;
}

static int make_entry(const FileDisk *disk, const FilePiece *pieces, size_t count, unsigned char *entry)
{
    memset(entry, 0, FILEDISK_JOURNAL);
    const size_t length = count <= FILEDISK_MOST_PIECES ? put_pieces(disk, pieces, count, entry) : 0;
    if (length == 0)
        return -1;
    filedisk_put(entry + MAGIC, 4, ENTRY_MAGIC);
    filedisk_put(entry + SEQUENCE, 4, disk->sequence);
    filedisk_put(entry + PIECES, 4, count);
    filedisk_put(entry + BYTES, 4, length - HEAD);
    filedisk_put(entry + LENGTH, 4, length);
    filedisk_put(entry + SUM, 4, entry_sum(entry));
    return 0;
}

int filedisk_store(FileDisk *disk, const FilePiece *pieces, size_t count)
{
    unsigned char entry[FILEDISK_JOURNAL];
    if (disk->dead || make_entry(disk, pieces, count, entry) != 0)
        return -1;
    disk->sequence++;
    if (put_journal(disk, entry) != 0 || bring_home(disk, entry) != 0) {
        filedisk_refused(disk, FILEDISK_DEVICE, "the device failed in a store: open it anew");
        return -1;
    }
    return 0;
}
