/* Not proved, tested by tests/sectordisk: the disk of filedisk.h: which layout and which sizes a device has, format and open. */
#include <stdio.h>
#include "filedisk_inside.h"

int filedisk_refused(FileDisk *disk, int answer, const char *line)
{
    snprintf(disk->line, sizeof disk->line, "%s", line);
    disk->dead = 1;
    return answer;
}

int filedisk_is_empty(const unsigned char *block)
{
    size_t at = 0;
    while (at < FILEDISK_BLOCK && block[at] == 0)
        at++;
    return at == FILEDISK_BLOCK;
}

/* ── sectors over blocks ── */
static int read_sector(void *self, uint32_t sector, uint8_t *bytes)
{
    const FileBlocks *blocks = self;
    return blocks->read(blocks->self, (uint64_t)sector * FILEDISK_BLOCK, bytes, FILEDISK_BLOCK);
}

static int write_sector(void *self, uint32_t sector, const uint8_t *bytes)
{
    const FileBlocks *blocks = self;
    return blocks->write(blocks->self, (uint64_t)sector * FILEDISK_BLOCK, bytes, FILEDISK_BLOCK);
}

static int sync_sectors(void *self)
{
    const FileBlocks *blocks = self;
    return blocks->sync(blocks->self);
}

static KeeperDevice device_of(FileDisk *disk)
{
    const KeeperDevice device = {&disk->blocks, read_sector, write_sector, sync_sectors};
    return device;
}

KeeperDisk *filedisk_sectors(FileDisk *disk)
{
    disk->sectors.device = device_of(disk);
    if (disk->dead && !disk->sectors.dead)
        disk->sectors.dead = KEEPER_DISK_CLOSED;
    return &disk->sectors;
}

/* ── where things are ── */
static void plan(FileDisk *disk, FileBlocks blocks, KeeperSizes sizes)
{
    memset(disk, 0, sizeof *disk);
    disk->blocks = blocks;
    disk->version = FILEDISK_VERSION;
    disk->sectors.sizes = sizes;
    for (size_t table = 0; table < KEEPER_DISK_COUNT; table++)
        disk->table_at[table] = (uint64_t)disk_home(keeper_disk_place(sizes, table).begins) * FILEDISK_BLOCK;
    disk->end = (uint64_t)keeper_disk_sectors(sizes) * FILEDISK_BLOCK;
}

uint64_t filedisk_place(const FileDisk *disk, size_t table, size_t entry)
{
    const DiskPlace place = keeper_disk_place(disk->sectors.sizes, table);
    const size_t row = entry / place.width, at = entry % place.width;
    return disk->table_at[table] + (row * place.sectors + at / DISK_WORDS) * FILEDISK_BLOCK + 4 * (at % DISK_WORDS);
}

/* ── the header ── */

/* Whether a first block is one that this layout has: none yet, or a commit sector. */
static int is_ours(const unsigned char *block)
{
    uint32_t words[DISK_WORDS];
    disk_from_bytes(block, words);
    return filedisk_is_empty(block) || disk_look_commit(words, UINT32_MAX).what != DISK_NO_JOURNAL;
}

/* A header sector that is not this layout's. */
static int other_header(FileDisk *disk, uint32_t why, uint32_t version, const unsigned char *first)
{
    char line[sizeof disk->line];
    if (why == DISK_BLANK && is_ours(first))
        return filedisk_refused(disk, FILEDISK_NO_DISK, "no disk of the keeper: never formatted, or a cut fell in the format");
    if (why == DISK_OUT_OF_LIMITS)
        return filedisk_refused(disk, FILEDISK_OTHER_SIZES, "the disk was formatted by a keeper with other sizes than this one can have");
    if (why == DISK_OTHER_VERSION && version > FILEDISK_VERSION) {
        snprintf(line, sizeof line, "the disk has version %u of the layout, this program knows those up to %u: a later one wrote it", (unsigned)version, FILEDISK_VERSION);
        return filedisk_refused(disk, FILEDISK_OTHER_VERSION, line);
    }
    return filedisk_refused(disk, FILEDISK_DAMAGED, "no disk of the keeper: another program's file, or its header block is damaged");
}

/* The header of this layout; `first` is the device's first block. */
static int new_header(FileDisk *disk, FileBlocks blocks, const unsigned char *first, KeeperSizes *sizes)
{
    unsigned char header[FILEDISK_BLOCK];
    uint32_t words[DISK_WORDS];
    const int got = blocks.read(blocks.self, FILEDISK_HEADER, header, FILEDISK_BLOCK);
    if (got == FILEDISK_PAST_END)
        return other_header(disk, filedisk_is_empty(first) ? DISK_BLANK : DISK_FOREIGN, 0, first);
    if (got != 0)
        return filedisk_refused(disk, FILEDISK_DEVICE, "the device failed: the header block cannot be read");
    disk_from_bytes(header, words);
    const DiskSaid said = disk_header_sizes(words);
    if (said.refusal != DISK_OURS)
        return other_header(disk, said.refusal, words[2], first);
    const KeeperSizes found = {.words = said.words, .records = said.records, .frames = 1, .slots = said.slots, .pages = said.pages, .accounts = said.accounts, .chip = 1};
    *sizes = found;
    plan(disk, blocks, found);
    return FILEDISK_GOOD;
}

/* The header of a device, of any layout, and that the device is as long as it says. A file that was cut short is not lengthened by a store, nor read as
 * zeros. */
static int read_header(FileDisk *disk, FileBlocks blocks, KeeperSizes *sizes)
{
    unsigned char first[FILEDISK_BLOCK], last;
    memset(disk, 0, sizeof *disk);
    disk->blocks = blocks;
    if (blocks.read(blocks.self, 0, first, FILEDISK_BLOCK) != 0)
        return filedisk_refused(disk, FILEDISK_DEVICE, "the device failed: its first block cannot be read");
    const int answer = filedisk_is_old(first) ? filedisk_old_header(disk, first, sizes) : new_header(disk, blocks, first, sizes);
    if (answer == FILEDISK_GOOD && blocks.read(blocks.self, disk->end - 1, &last, 1) != 0)
        return filedisk_refused(disk, FILEDISK_DEVICE, "the device failed: it is shorter than its tables");
    return answer;
}

int filedisk_sizes(FileDisk *disk, FileBlocks blocks, KeeperSizes *sizes)
{
    const int answer = read_header(disk, blocks, sizes);
    if (answer == FILEDISK_GOOD)
        sizes->frames = sizes->chip = 1;
    return answer;
}

static void name_sizes(char *text, size_t room, KeeperSizes sizes)
{
    snprintf(text, room, "W %u R %u S %u N %u Q %u", (unsigned)sizes.words, (unsigned)sizes.records, (unsigned)sizes.slots, (unsigned)sizes.pages, (unsigned)sizes.accounts);
}

/* The header, if this keeper has the disk's sizes: all but F and B, which are no part of a disk. */
static int matches(FileDisk *disk, FileBlocks blocks, const Keeper *keeper)
{
    char line[sizeof disk->line], here[80], there[80];
    KeeperSizes found;
    const int answer = read_header(disk, blocks, &found);
    if (answer != FILEDISK_GOOD)
        return answer;
    name_sizes(here, sizeof here, keeper->sizes);
    name_sizes(there, sizeof there, found);
    snprintf(line, sizeof line, "the disk was formatted with %s, this keeper has %s", there, here);
    return strcmp(here, there) == 0 ? FILEDISK_GOOD : filedisk_refused(disk, FILEDISK_OTHER_SIZES, line);
}

/* ── format ── */
static int zeros(FileDisk *disk, uint32_t from, uint32_t to)
{
    static const unsigned char nothing[FILEDISK_BLOCK];
    for (uint32_t sector = from; sector < to; sector++)
        if (write_sector(&disk->blocks, sector, nothing) != 0)
            return -1;
    return 0;
}

/* The header that stands there goes first, so that no cut leaves it before half a new disk; then the areas take their room. */
static int clear(FileDisk *disk)
{
    unsigned char first[FILEDISK_BLOCK];
    const int got = read_sector(&disk->blocks, 0, first);
    if (got == 0 && filedisk_is_old(first) && (zeros(disk, 0, 1) != 0 || sync_sectors(&disk->blocks) != 0))
        return -1;
    if (zeros(disk, disk_home(0), disk_home(1)) != 0 || sync_sectors(&disk->blocks) != 0)
        return -1;
    return zeros(disk, KEEPER_DISK_COMMIT, disk_home(0));
}

int filedisk_make(FileDisk *disk, FileBlocks blocks, const Keeper *keeper)
{
    plan(disk, blocks, keeper->sizes);
    if (disk->end == 0)
        return filedisk_refused(disk, FILEDISK_RESTART, "the keeper refused the format");
    if (clear(disk) != 0 || keeper_disk_make(&disk->sectors, device_of(disk), keeper) != KEEPER_DISK_GOOD)
        return filedisk_refused(disk, FILEDISK_DEVICE, "the device failed in the format: format again");
    return FILEDISK_GOOD;
}

int filedisk_format(FileDisk *disk, FileBlocks blocks, Keeper *keeper, const uint16_t *wanted)
{
    memset(disk, 0, sizeof *disk);
    const uint32_t refusal = keeper_easy_format(keeper, wanted).refusal;
    if (refusal == KEEPER_NO_RANGE)
        return filedisk_refused(disk, FILEDISK_PARENTS, "an account's parent is to be a lower account");
    if (refusal != KEEPER_DONE)
        return filedisk_refused(disk, FILEDISK_RESTART, "the keeper refused the format");
    const int answer = filedisk_make(disk, blocks, keeper);
    if (answer == FILEDISK_GOOD && keeper_disk_open(&disk->sectors, device_of(disk), keeper) != KEEPER_DISK_GOOD)
        return filedisk_refused(disk, FILEDISK_DEVICE, "the device failed in the format: format again");
    return answer;
}

/* ── open ── */

/* What the disk on sectors answered, in this one's answers and words. */
static int answered(FileDisk *disk, int answer, Keeper *keeper)
{
    switch (answer) {
    case KEEPER_DISK_GOOD: return FILEDISK_GOOD;
    case KEEPER_DISK_RESTART: return filedisk_refused(disk, FILEDISK_RESTART, keeper_text(keeper_easy_restart(keeper).refusal));
    case KEEPER_DISK_JOURNAL: return filedisk_refused(disk, FILEDISK_DAMAGED, "the disk is damaged: its commit sector is none that the journal writes");
    case KEEPER_DISK_DAMAGED: return filedisk_refused(disk, FILEDISK_DAMAGED, "the disk is damaged: a sector holds what its table cannot have");
    default: return filedisk_refused(disk, FILEDISK_DEVICE, "the device failed: the disk part cannot be read, or the newest store not brought home");
    }
}

int filedisk_read(FileDisk *disk, FileBlocks blocks, Keeper *keeper)
{
    const int answer = matches(disk, blocks, keeper);
    if (answer != FILEDISK_GOOD)
        return answer;
    if (disk->version == FILEDISK_VERSION)
        return answered(disk, keeper_disk_read(&disk->sectors, device_of(disk), keeper), keeper);
    return filedisk_old_read(disk, keeper) == 0 ? FILEDISK_GOOD : filedisk_refused(disk, FILEDISK_DEVICE, "the device failed: the disk part cannot be read");
}

/* What stands in a file's cache alone, after a sync that failed, is read, and no later sync stores it. So whatever the newest store stands on is written
 * again as it is: its contents, the commit sector, the header. A commit sector that is none is left for the open to refuse. */
static int freshen(FileDisk *disk, const Keeper *keeper)
{
    uint32_t commit[DISK_WORDS];
    DiskFound found;
    KeeperDisk *sectors = &disk->sectors;
    if (keeper_disk_begin(sectors, device_of(disk), keeper) != KEEPER_DISK_GOOD || keeper_disk_look(sectors, commit, &found) != KEEPER_DISK_GOOD)
        return sectors->dead ? -1 : 0;
    for (uint32_t content = 0; content < found.count; content++)
        if (keeper_disk_copy(sectors, disk_area(found.sequence, content), disk_area(found.sequence, content)) != 0)
            return -1;
    return keeper_disk_copy(sectors, KEEPER_DISK_COMMIT, KEEPER_DISK_COMMIT) != 0 ? -1 : keeper_disk_copy(sectors, disk_home(0), disk_home(0));
}

int filedisk_open(FileDisk *disk, FileBlocks blocks, Keeper *keeper)
{
    char line[sizeof disk->line];
    const int answer = matches(disk, blocks, keeper);
    if (disk->version != 0 && disk->version < FILEDISK_VERSION) {
        snprintf(line, sizeof line, "the disk has version %u of the layout, this program knows version %u: make convert OLD=.. NEW=.. makes a new file of it",
                 (unsigned)disk->version, FILEDISK_VERSION);
        return filedisk_refused(disk, FILEDISK_OTHER_VERSION, line);
    }
    if (answer != FILEDISK_GOOD)
        return answer;
    if (freshen(disk, keeper) != 0)
        return answered(disk, KEEPER_DISK_DEVICE, keeper);
    return answered(disk, keeper_disk_open(&disk->sectors, device_of(disk), keeper), keeper);
}
