/* Not proved, tested by make plug: the disk of filedisk.h: its header block and its tables, format and open. */
#include <stdio.h>
#include "filedisk_inside.h"

int filedisk_refused(FileDisk *disk, int answer, const char *line)
{
    snprintf(disk->line, sizeof disk->line, "%s", line);
    disk->dead = 1;
    return answer;
}

/* ── the header block ── */
static const char MAGIC[8] = {'K', 'E', 'E', 'P', 'D', 'I', 'S', 'K'};

/* Where its numbers are, 4 bytes each; the widths follow the sizes, the lengths the widths; the checksum of all before ends the block. The sizes are the
 * first of the keeper's: B stands in no header. */
enum { STORED_SIZES = 6, VERSION = 8, SIZE_COUNT = 12, TABLE_COUNT = 16, SIZES = 20, WIDTHS = SIZES + 4 * STORED_SIZES, SUM = FILEDISK_BLOCK - 4 };

/* How many tables each version has, the first of those that there are now; versions before FRAMELESS have F among their sizes. */
enum { FRAMELESS = 3 };
static const uint32_t TABLES[FILEDISK_VERSION + 1] = {0, 5, 6, 6, KEEPER_DISK_COUNT};
KEEPER_ASSERT(FILEDISK_VERSION == 4 && KEEPER_DISK_COUNT == 7, "another table is another version of the layout");
KEEPER_ASSERT(KEEPER_SIZE_COUNT == STORED_SIZES + 1, "another size is part of a disk, or not");

static uint32_t field(const unsigned char *block, size_t at)
{
    return (uint32_t)filedisk_get(block + at, 4);
}

/* F and B: no table of the disk part has its length by them. */
static int is_memory(size_t size)
{
    const char letter = keeper_size((KeeperSizes){0, 0, 0, 0, 0, 0, 0}, size).letter;
    return letter == 'F' || letter == 'B';
}

/* Where the tables are for these sizes. */
static void plan(FileDisk *disk, FileBlocks blocks, KeeperSizes sizes, uint32_t version)
{
    Keeper keeper;
    memset(disk, 0, sizeof *disk);
    memset(&keeper, 0, sizeof keeper);
    keeper.sizes = sizes;
    disk->blocks = blocks;
    disk->version = version;
    disk->tables = TABLES[version];
    disk->end = FILEDISK_BLOCK + FILEDISK_JOURNAL;
    for (size_t table = 0; table < disk->tables; table++) {
        const KeeperTable described = keeper_table(&keeper, table);
        disk->width[table] = (uint32_t)described.width;
        disk->count[table] = (uint32_t)described.count;
        disk->table_at[table] = disk->end;
        disk->end += filedisk_whole_blocks((uint64_t)described.width * described.count);
    }
}

static void put_sizes(unsigned char *block, KeeperSizes sizes, uint32_t version)
{
    for (size_t size = 0; size < STORED_SIZES; size++)
        filedisk_put(block + SIZES + 4 * size, 4, version >= FRAMELESS && is_memory(size) ? 0 : keeper_size(sizes, size).value);
}

static KeeperSizes get_sizes(const unsigned char *block)
{
    uint32_t values[KEEPER_SIZE_COUNT];
    for (size_t size = 0; size < KEEPER_SIZE_COUNT; size++) {
        values[size] = size < STORED_SIZES ? field(block, SIZES + 4 * size) : 0;
        if (values[size] == 0 && is_memory(size))
            values[size] = 1;
    }
    return keeper_sizes_of(values);
}

/* The header that says where the tables are. */
static void put_header(const FileDisk *disk, KeeperSizes sizes, unsigned char *block)
{
    memset(block, 0, FILEDISK_BLOCK);
    memcpy(block, MAGIC, sizeof MAGIC);
    filedisk_put(block + VERSION, 4, disk->version);
    filedisk_put(block + SIZE_COUNT, 4, STORED_SIZES);
    filedisk_put(block + TABLE_COUNT, 4, disk->tables);
    put_sizes(block, sizes, disk->version);
    for (size_t table = 0; table < disk->tables; table++) {
        filedisk_put(block + WIDTHS + 4 * table, 4, disk->width[table]);
        filedisk_put(block + WIDTHS + 4 * (disk->tables + table), 4, disk->count[table]);
    }
    filedisk_put(block + SUM, 4, filedisk_checksum(block, SUM));
}

static int is_empty(const unsigned char *block)
{
    size_t at = 0;
    while (at < FILEDISK_BLOCK && block[at] == 0)
        at++;
    return at == FILEDISK_BLOCK;
}

/* Whether a block is a header, and of which version. */
static int recognise(FileDisk *disk, const unsigned char *block)
{
    char line[sizeof disk->line];
    if (is_empty(block))
        return filedisk_refused(disk, FILEDISK_NO_DISK, "no disk of the keeper: never formatted, or a cut fell in the format");
    if (memcmp(block, MAGIC, sizeof MAGIC) != 0)
        return filedisk_refused(disk, FILEDISK_DAMAGED, "no disk of the keeper: another program's file, or its header block is damaged");
    if (field(block, SUM) != filedisk_checksum(block, SUM))
        return filedisk_refused(disk, FILEDISK_DAMAGED, "the header block is damaged: its checksum is wrong");
    if (field(block, VERSION) == 0 || field(block, VERSION) > FILEDISK_VERSION) {
        snprintf(line, sizeof line, "the disk has version %u of the layout, this program knows those up to %u: a later one wrote it",
                 (unsigned)field(block, VERSION), FILEDISK_VERSION);
        return filedisk_refused(disk, FILEDISK_OTHER_VERSION, line);
    }
    return FILEDISK_GOOD;
}

/* The header of a device: the disk is planned as it says, and the device is as long as that. A file that was cut short is not lengthened by a
 * store, nor read as zeros. */
static int read_header(FileDisk *disk, FileBlocks blocks, KeeperSizes *sizes)
{
    unsigned char found[FILEDISK_BLOCK], wanted[FILEDISK_BLOCK], last;
    memset(disk, 0, sizeof *disk);
    if (blocks.read(blocks.self, 0, found, FILEDISK_BLOCK) != 0)
        return filedisk_refused(disk, FILEDISK_DEVICE, "the device failed: the header block cannot be read");
    const int answer = recognise(disk, found);
    if (answer != FILEDISK_GOOD)
        return answer;
    *sizes = get_sizes(found);
    if (!keeper_sizes_fit(*sizes))
        return filedisk_refused(disk, FILEDISK_OTHER_SIZES, "the disk was formatted by a keeper with other sizes than this one can have");
    plan(disk, blocks, *sizes, field(found, VERSION));
    put_header(disk, *sizes, wanted);
    if (memcmp(found, wanted, FILEDISK_BLOCK) != 0)
        return filedisk_refused(disk, FILEDISK_OTHER_SIZES, "the disk was formatted by a keeper with other tables");
    if (blocks.read(blocks.self, disk->end - 1, &last, 1) != 0)
        return filedisk_refused(disk, FILEDISK_DEVICE, "the device failed: it is shorter than its tables");
    return FILEDISK_GOOD;
}

int filedisk_sizes(FileDisk *disk, FileBlocks blocks, KeeperSizes *sizes)
{
    const int answer = read_header(disk, blocks, sizes);
    if (answer == FILEDISK_GOOD)
        sizes->frames = sizes->chip = 1;
    return answer;
}

static void name_sizes(char *text, size_t room, KeeperSizes sizes)
{
    size_t used = 0;
    for (size_t size = 0; size < KEEPER_SIZE_COUNT && used < room; size++)
        if (!is_memory(size))
            used += (size_t)snprintf(text + used, room - used, " %c %u", keeper_size(sizes, size).letter, (unsigned)keeper_size(sizes, size).value);
}

/* The header, if this keeper has the disk's sizes: all but F and B, which are no part of a disk. */
static int matches(FileDisk *disk, FileBlocks blocks, const Keeper *keeper)
{
    char line[sizeof disk->line], here[80], there[80];
    KeeperSizes found;
    const int answer = read_header(disk, blocks, &found);
    if (answer != FILEDISK_GOOD)
        return answer;
    name_sizes(here, sizeof here, keeper->sizes);
    name_sizes(there, sizeof there, found);
    snprintf(line, sizeof line, "the disk was formatted with%s, this keeper has%s", there, here);
    return strcmp(here, there) == 0 ? FILEDISK_GOOD : filedisk_refused(disk, FILEDISK_OTHER_SIZES, line);
}

/* ── the tables ── */
static int zeros(FileDisk *disk, uint64_t from, uint64_t to)
{
    static const unsigned char nothing[FILEDISK_BLOCK];
    while (from < to) {
        if (disk->blocks.write(disk->blocks.self, from, nothing, sizeof nothing) != 0)
            return -1;
        from += sizeof nothing;
    }
    return disk->blocks.sync(disk->blocks.self);
}

/* A table in its place, with zeros up to the next block. */
static int put_table(FileDisk *disk, const Keeper *keeper, size_t number)
{
    unsigned char chunk[4096];
    const KeeperTable table = keeper_table(keeper, number);
    const size_t most = sizeof chunk / table.width;
    for (size_t first = 0; first < table.count; first += most) {
        const size_t count = table.count - first < most ? table.count - first : most;
        memset(chunk, 0, sizeof chunk);
        filedisk_pack(chunk, (const unsigned char *)table.at + first * table.width, table.width, count);
        if (disk->blocks.write(disk->blocks.self, disk->table_at[number] + first * table.width, chunk, (size_t)filedisk_whole_blocks(count * table.width)) != 0)
            return -1;
    }
    return 0;
}

static int put_tables(FileDisk *disk, const Keeper *keeper)
{
    int failed = 0;
    for (size_t number = 0; number < disk->tables && !failed; number++)
        failed = put_table(disk, keeper, number);
    return failed ? -1 : disk->blocks.sync(disk->blocks.self);
}

/* All tables into the keeper's, with a store of the journal in its places if there is one. */
static int get_tables(FileDisk *disk, const Keeper *keeper, const unsigned char *entry)
{
    for (size_t number = 0; number < KEEPER_DISK_COUNT; number++) {
        const KeeperTable table = keeper_table(keeper, number);
        if (number >= disk->tables) {
            memset(table.at, 0, table.width * table.count);
            continue;
        }
        if (disk->blocks.read(disk->blocks.self, disk->table_at[number], table.at, table.width * table.count) != 0)
            return -1;
        if (entry)
            filedisk_journal_over(entry, disk->table_at[number], table.at, table.width * table.count);
        filedisk_unpack(table.at, table.at, table.width, table.count);
    }
    return 0;
}

/* ── format and open ── */
int filedisk_make(FileDisk *disk, FileBlocks blocks, const Keeper *keeper)
{
    unsigned char block[FILEDISK_BLOCK];
    plan(disk, blocks, keeper->sizes, FILEDISK_VERSION);
    put_header(disk, keeper->sizes, block);
    /* the old header goes first, so that no cut leaves it before half a new disk; the new one comes last */
    if (zeros(disk, 0, FILEDISK_BLOCK) != 0 || zeros(disk, FILEDISK_BLOCK, FILEDISK_BLOCK + FILEDISK_JOURNAL) != 0 || put_tables(disk, keeper) != 0
        || blocks.write(blocks.self, 0, block, FILEDISK_BLOCK) != 0 || blocks.sync(blocks.self) != 0)
        return filedisk_refused(disk, FILEDISK_DEVICE, "the device failed in the format: format again");
    return FILEDISK_GOOD;
}

int filedisk_format(FileDisk *disk, FileBlocks blocks, Keeper *keeper, const uint16_t *wanted)
{
    memset(disk, 0, sizeof *disk);
    const uint32_t refusal = keeper_easy_format(keeper, wanted).refusal;
    if (refusal == KEEPER_NO_RANGE)
        return filedisk_refused(disk, FILEDISK_PARENTS, "an account's parent is to be a lower account");
    if (refusal != KEEPER_DONE || keeper_easy_restart(keeper).refusal != KEEPER_DONE)
        return filedisk_refused(disk, FILEDISK_RESTART, "the keeper refused the format");
    return filedisk_make(disk, blocks, keeper);
}

int filedisk_read(FileDisk *disk, FileBlocks blocks, Keeper *keeper)
{
    unsigned char entry[FILEDISK_JOURNAL];
    const int answer = matches(disk, blocks, keeper);
    if (answer != FILEDISK_GOOD)
        return answer;
    const int whole = filedisk_journal_read(disk, entry);
    if (whole < 0 || get_tables(disk, keeper, whole ? entry : NULL) != 0)
        return filedisk_refused(disk, FILEDISK_DEVICE, "the device failed: the disk part cannot be read");
    return FILEDISK_GOOD;
}

int filedisk_store_highest(FileDisk *disk, const Keeper *keeper)
{
    const FilePiece piece = {KEEPER_TABLE_HIGHEST, 0, 1, keeper->highest};
    return filedisk_store(disk, &piece, 1);
}

/* The restart, with its own one store: the highest number, where an older pack has a lower one. */
static int restarted(FileDisk *disk, Keeper *keeper)
{
    const uint32_t highest = keeper->highest[0], refusal = keeper_easy_restart(keeper).refusal;
    if (refusal != KEEPER_DONE)
        return filedisk_refused(disk, FILEDISK_RESTART, keeper_text(refusal));
    return keeper->highest[0] == highest || filedisk_store_highest(disk, keeper) == 0 ? FILEDISK_GOOD : FILEDISK_DEVICE;
}

int filedisk_open(FileDisk *disk, FileBlocks blocks, Keeper *keeper)
{
    unsigned char block[FILEDISK_BLOCK];
    char line[sizeof disk->line];
    const int answer = matches(disk, blocks, keeper);
    if (disk->version != 0 && disk->version < FILEDISK_VERSION) {
        snprintf(line, sizeof line, "the disk has version %u of the layout, this program knows version %u: make convert OLD=.. NEW=.. makes a new file of it",
                 (unsigned)disk->version, FILEDISK_VERSION);
        return filedisk_refused(disk, FILEDISK_OTHER_VERSION, line);
    }
    if (answer != FILEDISK_GOOD)
        return answer;
    /* the header too may stand in the device's cache alone, if the format's last sync failed: the first sync of the journal makes it safe */
    put_header(disk, keeper->sizes, block);
    if (blocks.write(blocks.self, 0, block, FILEDISK_BLOCK) != 0 || filedisk_journal_recover(disk) != 0)
        return filedisk_refused(disk, FILEDISK_DEVICE, "the device failed: the journal cannot be read, or its store not brought to its places");
    if (get_tables(disk, keeper, NULL) != 0)
        return filedisk_refused(disk, FILEDISK_DEVICE, "the device failed: the disk part cannot be read");
    return restarted(disk, keeper);
}
