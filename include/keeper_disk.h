/* Not proved, tested by tests/keeper_disk.sh: a disk for the keeper on a device of sectors that tears, for C99 and C++, header only. Proved below it, in Rattle,
 * and called by it through keeper_disk_inside.h: the journal's steps (two areas, one commit sector, two syncs a store), the places of the tables in sectors, a
 * sector's words and bytes, the header, and every look at what a device holds. Proved too, of the definitions: that a driver which takes these steps in
 * this order keeps demand 3 over every list of calls, cuts and kills. Link libkeeper.a and libdisk.a (tools/prove.py --lib disk).
 *
 *   KeeperDevice device = {self, read, write, sync};       three functions of yours, of sectors of 512 bytes
 *   KeeperDisk disk;
 *   keeper_disk_format(&disk, device, &keeper, NULL);       a new disk of the keeper's sizes; once
 *   keeper_disk_open(&disk, device, &keeper);               after every power-on: it recovers, reads, restarts
 *   keeper_disk_limit(&disk, &keeper, 0, 8); keeper_disk_create(&disk, &keeper, 0, 0, 101); ..
 *   keeper_disk_bring(&disk, &keeper, 0, 3); .. keeper_disk_save(&disk, &keeper, 0, &left);
 *
 * Each call's stores are on the device before it returns; nothing is told of it before. What is asked of the device: a sector lands whole or
 * not at all, a read finds what was written last, and after a sync that has answered 0 everything written before it is safe. Nothing else: what was not
 * synced may be lost or land, sector by sector, in any order. Where a write, a sync or a read fails, the disk is dead: nothing is reported, nothing tried
 * again, and it is opened anew, which counts as a cut. No heap, and no memory of its own. */
#ifndef KEEPER_DISK_H
#define KEEPER_DISK_H

#include "keeper_disk_inside.h"
#include "keeper_easy.h"

enum {
    KEEPER_DISK_COMMIT = 0, /* the sector that says which entry counts */
    KEEPER_DISK_NAMED = 3   /* its words from here on are the home sectors that it names */
};

/* A device of sectors. Each answers 0, or anything else if it failed. */
typedef struct {
    void *self;
    int (*read)(void *self, uint32_t sector, uint8_t *bytes);
    int (*write)(void *self, uint32_t sector, const uint8_t *bytes);
    int (*sync)(void *self);
} KeeperDevice;

/* What sizes, read, make, format and open answer. Where it is BLANK to PARENTS nothing was written. */
enum {
    KEEPER_DISK_GOOD = 0,
    KEEPER_DISK_BLANK = 1,         /* zeros where the header is to be: never formatted, or a cut fell in the format */
    KEEPER_DISK_FOREIGN = 2,       /* no header of the keeper's, or a damaged one */
    KEEPER_DISK_OTHER_VERSION = 3, /* the header of another version of this layout */
    KEEPER_DISK_OTHER_SIZES = 4,   /* the header of a disk of other sizes */
    KEEPER_DISK_BAD_SIZES = 5,     /* sizes out of limits */
    KEEPER_DISK_JOURNAL = 6,       /* the commit sector is damaged or foreign */
    KEEPER_DISK_PARENTS = 7,       /* format: a wanted parent is not a lower account */
    KEEPER_DISK_RESTART = 8,       /* the keeper's restart refused what was read */
    KEEPER_DISK_DAMAGED = 9,       /* a sector holds numbers that its table cannot have */
    KEEPER_DISK_DEVICE = 10,       /* the device failed, or is shorter than its tables */
    KEEPER_DISK_CLOSED = 11        /* it was made or only read: open it */
};

typedef struct {
    KeeperDevice device;
    KeeperSizes sizes;
    uint32_t room;     /* how many home sectors it has */
    uint32_t sequence; /* of the newest entry */
    int dead;          /* why it is not to be used any more: KEEPER_DISK_..; open it anew */
} KeeperDisk;

/* An answer in words. */
static inline const char *keeper_disk_text(int answer)
{
    switch (answer) {
    case KEEPER_DISK_GOOD: return "good";
    case KEEPER_DISK_BLANK: return "no disk of the keeper: never formatted, or a cut fell in the format";
    case KEEPER_DISK_FOREIGN: return "no disk of the keeper: another program's, or its header is damaged";
    case KEEPER_DISK_OTHER_VERSION: return "another version of the layout";
    case KEEPER_DISK_OTHER_SIZES: return "the disk was formatted with other sizes";
    case KEEPER_DISK_BAD_SIZES: return "sizes that no keeper has";
    case KEEPER_DISK_JOURNAL: return "the commit sector is damaged";
    case KEEPER_DISK_PARENTS: return "an account's parent is to be a lower account";
    case KEEPER_DISK_RESTART: return "restart turns the disk part away";
    case KEEPER_DISK_DAMAGED: return "a sector holds what its table cannot have";
    case KEEPER_DISK_DEVICE: return "the device failed";
    case KEEPER_DISK_CLOSED: return "the disk is not open";
    default: return "no answer of this driver";
    }
}

/* ── sectors ── */

static inline int keeper_disk_dies(KeeperDisk *disk, int why)
{
    disk->dead = why;
    return -1;
}

static inline int keeper_disk_sync(KeeperDisk *disk)
{
    return disk->device.sync(disk->device.self) == 0 ? 0 : keeper_disk_dies(disk, KEEPER_DISK_DEVICE);
}

static inline int keeper_disk_put(KeeperDisk *disk, uint32_t sector, const uint32_t *words)
{
    uint8_t bytes[DISK_BYTES];
    disk_to_bytes(words, bytes);
    return disk->device.write(disk->device.self, sector, bytes) == 0 ? 0 : keeper_disk_dies(disk, KEEPER_DISK_DEVICE);
}

static inline int keeper_disk_get(KeeperDisk *disk, uint32_t sector, uint32_t *words)
{
    uint8_t bytes[DISK_BYTES];
    if (disk->device.read(disk->device.self, sector, bytes) != 0)
        return keeper_disk_dies(disk, KEEPER_DISK_DEVICE);
    disk_from_bytes(bytes, words);
    return 0;
}

static inline int keeper_disk_copy(KeeperDisk *disk, uint32_t from, uint32_t to)
{
    uint8_t bytes[DISK_BYTES];
    if (disk->device.read(disk->device.self, from, bytes) != 0 || disk->device.write(disk->device.self, to, bytes) != 0)
        return keeper_disk_dies(disk, KEEPER_DISK_DEVICE);
    return 0;
}

/* How many sectors a device must have for a disk of these sizes; 0 for sizes out of limits. */
static inline uint32_t keeper_disk_sectors(KeeperSizes sizes)
{
    return disk_room(sizes) == 0 ? 0 : disk_home(disk_room(sizes));
}

/* ── tables: each row begins a sector of its own ── */

KEEPER_ASSERT((int)KEEPER_DISK_COUNT == (int)DISK_TABLES, "another table is another layout");

/* Where a table of the disk part is, by its number in keeper_easy.h; nowhere for any other. On the disk the maps come before the numbers. */
static inline DiskPlace keeper_disk_place(KeeperSizes sizes, size_t table)
{
    static const uint8_t order[KEEPER_DISK_COUNT] = {DISK_RECORDS, DISK_NUMBERS, DISK_ACCOUNTS, DISK_MAPS, DISK_LIMITS, DISK_PARENTS, DISK_HIGHEST};
    return disk_table(sizes, table < KEEPER_DISK_COUNT ? order[table] : (uint32_t)DISK_TABLES);
}

/* Whether its entries have 32 bits, and not 16. */
static inline int keeper_disk_is_wide(size_t table)
{
    return table == KEEPER_TABLE_RECORDS || table == KEEPER_TABLE_NUMBERS || table == KEEPER_TABLE_HIGHEST;
}

/* The content of a sector, counted from where `from` begins: a row of a table, or all of it. */
static inline void keeper_disk_fill(size_t table, uint32_t width, const void *from, size_t count, uint32_t sector, uint32_t *words)
{
    if (keeper_disk_is_wide(table))
        disk_fill_u32(width, (const uint32_t *)from, count, sector, words);
    else
        disk_fill_u16(width, (const uint16_t *)from, count, sector, words);
}

/* .. and back into the lent table; -1 if it holds what the table cannot have. */
static inline int keeper_disk_take(KeeperTable lent, uint32_t width, uint32_t sector, const uint32_t *words)
{
    if (lent.width != sizeof(uint32_t))
        return disk_take_u16(width, sector, words, (uint16_t *)lent.at, lent.count) == 0 ? 0 : -1;
    disk_take_u32(width, sector, words, (uint32_t *)lent.at, lent.count);
    return 0;
}

/* ── a store ── */

/* A row of a table of the disk part, and what it becomes: its entries, as the lent table would have them. For a table but records and maps the row is 0 and
 * has all its entries. */
typedef struct {
    size_t table, row;
    const void *from;
} KeeperRow;

/* An entry of the journal: home sectors, and where the content of each is. */
typedef struct {
    uint32_t count;
    uint32_t homes[DISK_MOST];
    const KeeperRow *rows[DISK_MOST];
    uint8_t pieces[DISK_MOST];
} KeeperEntry;

static inline KeeperRow keeper_row(size_t table, size_t row, const void *from)
{
    KeeperRow made;
    made.table = table;
    made.row = row;
    made.from = from;
    return made;
}

/* One row more: 0, or -1 if it is no row of the disk part, or too much. */
static inline int keeper_entry_add(const KeeperDisk *disk, KeeperEntry *entry, const KeeperRow *row)
{
    const DiskPlace place = keeper_disk_place(disk->sizes, row->table);
    if (row->row >= place.rows || place.sectors > DISK_MOST - entry->count)
        return -1;
    for (uint32_t piece = 0; piece < place.sectors; piece++) {
        entry->homes[entry->count] = place.begins + (uint32_t)row->row * place.sectors + piece;
        entry->rows[entry->count] = row;
        entry->pieces[entry->count++] = (uint8_t)piece;
    }
    return 0;
}

/* A content of an entry to a sector of the device. */
static inline int keeper_entry_write(KeeperDisk *disk, const KeeperEntry *entry, uint32_t content, uint32_t sector)
{
    uint32_t words[DISK_WORDS];
    const KeeperRow *row = entry->rows[content];
    const uint32_t width = keeper_disk_place(disk->sizes, row->table).width;
    keeper_disk_fill(row->table, width, row->from, width, entry->pieces[content], words);
    return keeper_disk_put(disk, sector, words);
}

/* What the journal asks for next. */
static inline int keeper_entry_step(KeeperDisk *disk, const KeeperEntry *entry, uint32_t sequence, DiskStep ask)
{
    uint32_t words[DISK_WORDS];
    switch (ask.what) {
    case DISK_CONTENT: return keeper_entry_write(disk, entry, ask.number, disk_area(sequence, ask.number));
    case DISK_TO_HOME: return keeper_entry_write(disk, entry, ask.number, disk_home(entry->homes[ask.number]));
    case DISK_COMMIT:
        disk_fill_commit(sequence, entry->homes, entry->count, words);
        return keeper_disk_put(disk, KEEPER_DISK_COMMIT, words);
    default: return keeper_disk_sync(disk); /* DISK_SYNC: no other is asked */
    }
}

/* One store: these rows, whole or not at all. 0 once it is safe, or -1, and the disk is dead. Also -1, and nothing has happened, if one is no row of the
 * disk part or all of them are more than 125 sectors. */
static inline int keeper_disk_store(KeeperDisk *disk, const KeeperRow *rows, size_t count)
{
    KeeperEntry entry;
    entry.count = 0;
    if (disk->dead)
        return -1;
    for (size_t row = 0; row < count; row++)
        if (keeper_entry_add(disk, &entry, rows + row) != 0)
            return -1;
    const uint32_t sequence = disk_next_sequence(disk->sequence);
    uint32_t done = 0;
    for (DiskStep ask = disk_ask(entry.count, 0); ask.what != DISK_DONE; ask = disk_ask(entry.count, ++done))
        if (keeper_entry_step(disk, &entry, sequence, ask) != 0)
            return -1;
    disk->sequence = sequence;
    return 0;
}

/* ── what a device holds ── */

/* The look at the header; nothing is written. */
static inline int keeper_disk_header(KeeperDisk *disk)
{
    uint32_t words[DISK_WORDS];
    if (keeper_disk_get(disk, disk_home(0), words) != 0)
        return disk->dead;
    return (int)disk_look_header(disk->sizes, words);
}

/* The sizes that a disk was formatted with, for those who do not know them; the frames and the chip's places are 1. Nothing is written. */
static inline int keeper_disk_sizes(KeeperDevice device, KeeperSizes *sizes)
{
    uint32_t words[DISK_WORDS];
    KeeperDisk disk;
    memset(&disk, 0, sizeof disk);
    disk.device = device;
    if (keeper_disk_get(&disk, disk_home(0), words) != 0)
        return disk.dead;
    const DiskSaid said = disk_header_sizes(words);
    sizes->words = said.words;
    sizes->records = said.records;
    sizes->slots = said.slots;
    sizes->pages = said.pages;
    sizes->accounts = said.accounts;
    sizes->frames = sizes->chip = 1;
    return (int)said.refusal;
}

/* Whether a commit sector names the header: no entry of this driver's does. */
static inline int keeper_disk_names_header(const uint32_t *commit, uint32_t count)
{
    uint32_t at = 0;
    while (at < count && commit[KEEPER_DISK_NAMED + at] != 0)
        at++;
    return at < count;
}

/* The look at the commit sector. That the last home sector can be read tells that the device is long enough. */
static inline int keeper_disk_look(KeeperDisk *disk, uint32_t *commit, DiskFound *found)
{
    uint32_t last[DISK_WORDS];
    memset(found, 0, sizeof *found);
    if (keeper_disk_get(disk, disk_home(disk->room - 1), last) != 0 || keeper_disk_get(disk, KEEPER_DISK_COMMIT, commit) != 0)
        return disk->dead;
    *found = disk_look_commit(commit, disk->room);
    return found->what != 0 || keeper_disk_names_header(commit, found->count) ? KEEPER_DISK_JOURNAL : KEEPER_DISK_GOOD;
}

/* The disk of a device for this keeper; what it holds was not looked at. */
static inline int keeper_disk_begin(KeeperDisk *disk, KeeperDevice device, const Keeper *keeper)
{
    memset(disk, 0, sizeof *disk);
    disk->device = device;
    disk->sizes = keeper->sizes;
    disk->room = disk_room(keeper->sizes);
    return disk->dead = disk->room != 0 && keeper_sizes_fit(keeper->sizes) ? KEEPER_DISK_GOOD : KEEPER_DISK_BAD_SIZES;
}

/* A recovery: a sync, so that what is found is safe; the looks; then the newest entry is brought home once more. */
static inline int keeper_disk_recover(KeeperDisk *disk)
{
    uint32_t commit[DISK_WORDS];
    DiskFound found = {0, 0, 0};
    if (keeper_disk_sync(disk) != 0)
        return disk->dead;
    int answer = keeper_disk_header(disk);
    if (answer == KEEPER_DISK_GOOD)
        answer = keeper_disk_look(disk, commit, &found);
    if (answer != KEEPER_DISK_GOOD)
        return disk->dead = answer;
    uint32_t done = 0;
    for (DiskStep ask = disk_recover(found.count, 0); ask.what != DISK_DONE; ask = disk_recover(found.count, ++done))
        if (keeper_disk_copy(disk, disk_area(found.sequence, ask.number), disk_home(commit[KEEPER_DISK_NAMED + ask.number])) != 0)
            return disk->dead;
    disk->sequence = found.sequence;
    return KEEPER_DISK_GOOD;
}

/* ── the disk part from the device, and onto it ── */

/* The sector where a home sector's content is: its own, or that of its newest content in the area of an entry that may not be home. */
static inline uint32_t keeper_disk_newest(const uint32_t *commit, DiskFound found, uint32_t home)
{
    for (uint32_t at = found.count; at > 0; at--)
        if (commit[KEEPER_DISK_NAMED + at - 1] == home)
            return disk_area(found.sequence, at - 1);
    return disk_home(home);
}

static inline int keeper_disk_load_table(KeeperDisk *disk, const Keeper *keeper, size_t table, const uint32_t *commit, DiskFound found)
{
    uint32_t words[DISK_WORDS];
    const DiskPlace place = keeper_disk_place(disk->sizes, table);
    for (uint32_t sector = 0; sector < place.rows * place.sectors; sector++) {
        if (keeper_disk_get(disk, keeper_disk_newest(commit, found, place.begins + sector), words) != 0)
            return -1;
        if (keeper_disk_take(keeper_table(keeper, table), place.width, sector, words) != 0)
            return keeper_disk_dies(disk, KEEPER_DISK_DAMAGED);
    }
    return 0;
}

/* All tables; `found` says which entry may not be home. */
static inline int keeper_disk_load(KeeperDisk *disk, const Keeper *keeper, const uint32_t *commit, DiskFound found)
{
    for (size_t table = 0; table < KEEPER_DISK_COUNT; table++)
        if (keeper_disk_load_table(disk, keeper, table, commit, found) != 0)
            return disk->dead;
    return KEEPER_DISK_GOOD;
}

/* The disk part into the keeper's, as an open would find it, for those who only look: nothing is written, synced or restarted. The disk is dead after it. */
static inline int keeper_disk_read(KeeperDisk *disk, KeeperDevice device, Keeper *keeper)
{
    uint32_t commit[DISK_WORDS];
    DiskFound found = {0, 0, 0};
    int answer = keeper_disk_begin(disk, device, keeper);
    if (answer == KEEPER_DISK_GOOD)
        answer = keeper_disk_header(disk);
    if (answer == KEEPER_DISK_GOOD)
        answer = keeper_disk_look(disk, commit, &found);
    if (answer == KEEPER_DISK_GOOD)
        answer = keeper_disk_load(disk, keeper, commit, found);
    disk->dead = answer == KEEPER_DISK_GOOD ? KEEPER_DISK_CLOSED : answer;
    return answer;
}

/* All tables in their home sectors. */
static inline int keeper_disk_lay(KeeperDisk *disk, const Keeper *keeper)
{
    uint32_t words[DISK_WORDS];
    for (size_t table = 0; table < KEEPER_DISK_COUNT; table++) {
        const DiskPlace place = keeper_disk_place(disk->sizes, table);
        const KeeperTable lent = keeper_table(keeper, table);
        for (uint32_t sector = 0; sector < place.rows * place.sectors; sector++) {
            keeper_disk_fill(table, place.width, lent.at, lent.count, sector, words);
            if (keeper_disk_put(disk, disk_home(place.begins + sector), words) != 0)
                return -1;
        }
    }
    return 0;
}

/* A new disk with the keeper's disk part, in the place of all that was on the device. The old header goes first and the new one comes last, each safe before
 * anything else: a cut within leaves no disk. Open it then. */
static inline int keeper_disk_make(KeeperDisk *disk, KeeperDevice device, const Keeper *keeper)
{
    uint32_t words[DISK_WORDS], none = 0;
    if (keeper_disk_begin(disk, device, keeper) != KEEPER_DISK_GOOD)
        return disk->dead;
    memset(words, 0, sizeof words);
    if (keeper_disk_put(disk, disk_home(0), words) != 0 || keeper_disk_sync(disk) != 0 || keeper_disk_lay(disk, keeper) != 0)
        return disk->dead;
    disk_fill_commit(0, &none, 0, words);
    if (keeper_disk_put(disk, KEEPER_DISK_COMMIT, words) != 0 || keeper_disk_sync(disk) != 0)
        return disk->dead;
    disk_fill_header(disk->sizes, words);
    if (keeper_disk_put(disk, disk_home(0), words) != 0 || keeper_disk_sync(disk) != 0)
        return disk->dead;
    disk->dead = KEEPER_DISK_CLOSED;
    return KEEPER_DISK_GOOD;
}

/* ── format and open ── */

/* The highest number as a store of its own. */
static inline int keeper_disk_highest(KeeperDisk *disk, const Keeper *keeper)
{
    const KeeperRow row = keeper_row(KEEPER_TABLE_HIGHEST, 0, keeper->highest);
    return keeper_disk_store(disk, &row, 1);
}

/* The restart, with its own one store: the highest number, where it has raised it. */
static inline int keeper_disk_restart(KeeperDisk *disk, Keeper *keeper)
{
    const uint32_t highest = keeper->highest[0];
    if (keeper_easy_restart(keeper).refusal != KEEPER_DONE)
        return disk->dead = KEEPER_DISK_RESTART;
    return keeper->highest[0] == highest || keeper_disk_highest(disk, keeper) == 0 ? KEEPER_DISK_GOOD : disk->dead;
}

/* A disk after a power-on, a cut, a reset or a failure: it recovers, reads the disk part and restarts the keeper. */
static inline int keeper_disk_open(KeeperDisk *disk, KeeperDevice device, Keeper *keeper)
{
    const DiskFound home = {0, 0, 0};
    int answer = keeper_disk_begin(disk, device, keeper);
    if (answer == KEEPER_DISK_GOOD)
        answer = keeper_disk_recover(disk);
    if (answer == KEEPER_DISK_GOOD)
        answer = keeper_disk_load(disk, keeper, NULL, home);
    return answer == KEEPER_DISK_GOOD ? keeper_disk_restart(disk, keeper) : answer;
}

/* A new disk, opened: all zeros but the parents. `wanted`: the parent of each account, or NULL for account 0 everywhere. What stood there is gone; nothing but
 * this and keeper_disk_make formats. */
static inline int keeper_disk_format(KeeperDisk *disk, KeeperDevice device, Keeper *keeper, const uint16_t *wanted)
{
    int answer = keeper_disk_begin(disk, device, keeper);
    if (answer != KEEPER_DISK_GOOD)
        return answer;
    if (keeper_easy_format(keeper, wanted).refusal != KEEPER_DONE)
        return disk->dead = KEEPER_DISK_PARENTS;
    answer = keeper_disk_make(disk, device, keeper);
    return answer == KEEPER_DISK_GOOD ? keeper_disk_open(disk, device, keeper) : answer;
}

/* ── the driver: each call's stores are safe before it is reported ── */

/* The refusal that tells that the disk is dead: the keeper has carried the call out, but nobody knows whether its store will land. */
#define KEEPER_DISK_DIED UINT32_MAX

/* These rows as one store. A row that is none comes from tables that something else has changed. */
static inline int keeper_disk_rows(KeeperDisk *disk, const KeeperRow *rows, size_t count)
{
    if (keeper_disk_store(disk, rows, count) == 0)
        return 0;
    return disk->dead ? -1 : keeper_disk_dies(disk, KEEPER_DISK_RESTART);
}

/* The keeper's answer to a call whose stores have ended so. */
static inline KeeperAnswer keeper_disk_answer(KeeperAnswer answer, int failed)
{
    if (failed) {
        answer.refusal = KEEPER_DISK_DIED;
        answer.result = 0;
    }
    return answer;
}

static inline int keeper_disk_limits(KeeperDisk *disk, const Keeper *keeper)
{
    const KeeperRow row = keeper_row(KEEPER_TABLE_LIMITS, 0, keeper->limits);
    return keeper_disk_rows(disk, &row, 1);
}

static inline KeeperAnswer keeper_disk_limit(KeeperDisk *disk, Keeper *keeper, uint32_t account, uint32_t pages)
{
    const KeeperAnswer answer = keeper_limit(keeper, account, pages);
    return keeper_disk_answer(answer, answer.refusal == KEEPER_DONE && keeper_disk_limits(disk, keeper) != 0);
}

static inline KeeperAnswer keeper_disk_move(KeeperDisk *disk, Keeper *keeper, uint32_t giver, uint32_t taker, uint32_t pages)
{
    const KeeperAnswer answer = keeper_move(keeper, giver, taker, pages);
    return keeper_disk_answer(answer, answer.refusal == KEEPER_DONE && keeper_disk_limits(disk, keeper) != 0);
}

/* A create's two stores are one entry: the highest number and the slot. */
static inline KeeperAnswer keeper_disk_create(KeeperDisk *disk, Keeper *keeper, uint32_t slot, uint32_t account, uint32_t number)
{
    const KeeperAnswer answer = keeper_create(keeper, slot, account, number);
    const KeeperRow rows[3] = {
        keeper_row(KEEPER_TABLE_HIGHEST, 0, keeper->highest),
        keeper_row(KEEPER_TABLE_NUMBERS, 0, keeper->numbers),
        keeper_row(KEEPER_TABLE_ACCOUNTS, 0, keeper->accounts),
    };
    return keeper_disk_answer(answer, answer.refusal == KEEPER_DONE && keeper_disk_rows(disk, rows, 3) != 0);
}

static inline KeeperAnswer keeper_disk_delete(KeeperDisk *disk, Keeper *keeper, uint32_t slot)
{
    const KeeperAnswer answer = keeper_delete(keeper, slot);
    const KeeperRow rows[2] = {
        keeper_row(KEEPER_TABLE_NUMBERS, 0, keeper->numbers),
        keeper_row(KEEPER_TABLE_ACCOUNTS, 0, keeper->accounts),
    };
    return keeper_disk_answer(answer, answer.refusal == KEEPER_DONE && keeper_disk_rows(disk, rows, 2) != 0);
}

/* The stores of an import that was carried out, an entry each: the highest number, each record, pages rising, and the slot as the last. */
static inline int keeper_disk_import_stores(KeeperDisk *disk, const Keeper *keeper, uint32_t slot)
{
    const uint16_t *map = keeper->maps + slot * keeper->sizes.pages;
    const KeeperRow rows[3] = {
        keeper_row(KEEPER_TABLE_NUMBERS, 0, keeper->numbers),
        keeper_row(KEEPER_TABLE_ACCOUNTS, 0, keeper->accounts),
        keeper_row(KEEPER_TABLE_MAPS, slot, map),
    };
    if (keeper_disk_highest(disk, keeper) != 0)
        return -1;
    for (size_t page = 0; page < keeper->sizes.pages; page++) {
        const size_t record = map[page] - 1u;
        const KeeperRow row = keeper_row(KEEPER_TABLE_RECORDS, record, keeper->records + (map[page] ? record * keeper->sizes.words : 0));
        if (map[page] != 0 && keeper_disk_rows(disk, &row, 1) != 0)
            return -1;
    }
    return keeper_disk_rows(disk, rows, 3);
}

/* If a cut comes before the last of them, the slot is empty, the records are free, and the number is skipped, if it came to the device. */
static inline KeeperAnswer keeper_disk_import(KeeperDisk *disk, Keeper *keeper, uint32_t slot, uint32_t account, uint32_t number, const uint8_t *sheet, size_t bytes)
{
    const KeeperAnswer answer = keeper_easy_import(keeper, slot, account, number, sheet, bytes);
    return keeper_disk_answer(answer, answer.refusal == KEEPER_DONE && keeper_disk_import_stores(disk, keeper, slot) != 0);
}

/* ── transfers ── */

/* Whether the device has a record as the lent copy has it. */
static inline int keeper_disk_confirms(KeeperDisk *disk, const Keeper *keeper, uint32_t record)
{
    uint32_t found[DISK_WORDS], wanted[DISK_WORDS];
    const DiskPlace place = keeper_disk_place(disk->sizes, KEEPER_TABLE_RECORDS);
    for (uint32_t piece = 0; piece < place.sectors; piece++) {
        if (record >= place.rows || keeper_disk_get(disk, disk_home(place.begins + record * place.sectors + piece), found) != 0)
            return 0;
        keeper_disk_fill(KEEPER_TABLE_RECORDS, place.width, keeper->records + (size_t)record * place.width, place.width, piece, wanted);
        if (memcmp(found, wanted, sizeof found) != 0)
            return 0;
    }
    return 1;
}

/* A read: the device has the record, and then it is reported. 0, or -1, and the disk is dead; the read has failed then. */
static inline int keeper_disk_reads(KeeperDisk *disk, Keeper *keeper, KeeperTransfer transfer)
{
    if (disk->dead)
        return -1;
    const int good = keeper_disk_confirms(disk, keeper, transfer.record);
    if (!good && !disk->dead)
        keeper_disk_dies(disk, KEEPER_DISK_DAMAGED);
    if (keeper_page_done(keeper, transfer.frame, (uint32_t)good).refusal != KEEPER_DONE && good)
        return keeper_disk_dies(disk, KEEPER_DISK_RESTART);
    return good ? 0 : -1;
}

/* Good reports of these frames' writes, in one call. */
static inline int keeper_disk_report(KeeperDisk *disk, Keeper *keeper, const uint32_t *frames, size_t count)
{
    KeeperRequest requests[KEEPER_MOST_FRAMES];
    KeeperAnswer answers[KEEPER_MOST_FRAMES];
    memset(requests, 0, sizeof requests);
    for (size_t at = 0; at < count; at++) {
        requests[at].kind = KEEPER_PAGE_DONE;
        requests[at].first = frames[at];
        requests[at].second = 1;
    }
    keeper_easy_apply_all(keeper, requests, answers, count);
    for (size_t at = 0; at < count; at++)
        if (answers[at].refusal != KEEPER_DONE)
            return keeper_disk_dies(disk, KEEPER_DISK_RESTART);
    return 0;
}

/* All writes that are open, of any design, in one entry, or as many as fit, lowest frames first; then their reports. 0, or -1, and the disk is dead. */
static inline int keeper_disk_writes(KeeperDisk *disk, Keeper *keeper)
{
    KeeperRow rows[KEEPER_MOST_FRAMES];
    uint32_t frames[KEEPER_MOST_FRAMES];
    const size_t most = DISK_MOST / keeper_disk_place(disk->sizes, KEEPER_TABLE_RECORDS).sectors;
    size_t count = 0;
    for (KeeperTransfer open = keeper_next_transfer(keeper, 0); open.way && count < most; open = keeper_next_transfer(keeper, open.frame + 1))
        if (open.way == KEEPER_WRITING) {
            rows[count] = keeper_row(KEEPER_TABLE_RECORDS, open.record, open.words);
            frames[count++] = open.frame;
        }
    if (count == 0)
        return disk->dead ? -1 : 0;
    return keeper_disk_rows(disk, rows, count) == 0 ? keeper_disk_report(disk, keeper, frames, count) : -1;
}

/* One transfer: the store or the read, and then the report. 0, or -1, and the disk is dead. */
static inline int keeper_disk_transfer(KeeperDisk *disk, Keeper *keeper, KeeperTransfer transfer)
{
    const KeeperRow row = keeper_row(KEEPER_TABLE_RECORDS, transfer.record, transfer.words);
    if (transfer.way != KEEPER_WRITING)
        return keeper_disk_reads(disk, keeper, transfer);
    return keeper_disk_rows(disk, &row, 1) == 0 ? keeper_disk_report(disk, keeper, &transfer.frame, 1) : -1;
}

/* The map of an update under way, and then its report. 0, or -1, and the disk is dead. */
static inline int keeper_disk_map(KeeperDisk *disk, Keeper *keeper, uint32_t slot)
{
    const KeeperRow row = keeper_row(KEEPER_TABLE_MAPS, slot, keeper_image(keeper, slot));
    if (keeper_disk_rows(disk, &row, 1) != 0)
        return -1;
    return keeper_map_done(keeper, slot, 1).refusal == KEEPER_DONE ? 0 : keeper_disk_dies(disk, KEEPER_DISK_RESTART);
}

/* What a step asks for; of writes, all that are open. */
static inline int keeper_disk_step(KeeperDisk *disk, Keeper *keeper, KeeperStep step)
{
    if (step.what == KEEPER_STEP_MAP)
        return keeper_disk_map(disk, keeper, step.slot);
    if (step.what != KEEPER_STEP_TRANSFER)
        return 0;
    return step.transfer.way == KEEPER_WRITING ? keeper_disk_writes(disk, keeper) : keeper_disk_reads(disk, keeper, step.transfer);
}

/* A page into a frame, all steps of it. 0, the keeper's refusal, or KEEPER_DISK_DIED. */
static inline uint32_t keeper_disk_bring(KeeperDisk *disk, Keeper *keeper, uint32_t slot, uint32_t page)
{
    for (;;) {
        const KeeperStep step = keeper_bring(keeper, slot, page);
        if (step.what != KEEPER_STEP_TRANSFER)
            return step.refusal;
        if (keeper_disk_step(disk, keeper, step) != 0)
            return KEEPER_DISK_DIED;
    }
}

/* ── a save: its pages and its map are one store, as far as they fit ── */

/* Rows that wait for their store. Their events were carried out in the lent tables, and nobody is told before the store is safe: so they are calls whose stores
 * are one entry. */
typedef struct {
    size_t count, sectors;
    KeeperRow rows[DISK_MOST];
} KeeperBatch;

static inline int keeper_batch_store(KeeperDisk *disk, KeeperBatch *batch)
{
    const size_t count = batch->count;
    batch->count = batch->sectors = 0;
    return count == 0 ? 0 : keeper_disk_rows(disk, batch->rows, count);
}

/* One row more; where it does not fit, those before it are stored first. */
static inline int keeper_batch_add(KeeperDisk *disk, KeeperBatch *batch, KeeperRow row)
{
    const size_t sectors = keeper_disk_place(disk->sizes, row.table).sectors;
    if (batch->sectors + sectors > DISK_MOST && keeper_batch_store(disk, batch) != 0)
        return -1;
    batch->sectors += sectors;
    batch->rows[batch->count++] = row;
    return 0;
}

/* All writes that are open: carried out in the lent copy, and their records wait. */
static inline int keeper_batch_writes(KeeperDisk *disk, Keeper *keeper, KeeperBatch *batch)
{
    uint32_t frames[KEEPER_MOST_FRAMES], records[KEEPER_MOST_FRAMES];
    size_t count = 0;
    for (KeeperTransfer open = keeper_next_transfer(keeper, 0); open.way; open = keeper_next_transfer(keeper, open.frame + 1))
        if (open.way == KEEPER_WRITING) {
            records[count] = open.record;
            frames[count++] = open.frame;
        }
    if (keeper_disk_report(disk, keeper, frames, count) != 0)
        return -1;
    for (size_t at = 0; at < count; at++)
        if (keeper_batch_add(disk, batch, keeper_row(KEEPER_TABLE_RECORDS, records[at], keeper->records + records[at] * keeper->sizes.words)) != 0)
            return -1;
    return 0;
}

/* What a step of a save asks for. The map goes with the records that wait. */
static inline int keeper_batch_step(KeeperDisk *disk, Keeper *keeper, KeeperBatch *batch, KeeperStep step)
{
    if (step.what == KEEPER_STEP_TRANSFER && step.transfer.way == KEEPER_WRITING)
        return keeper_batch_writes(disk, keeper, batch);
    if (step.what != KEEPER_STEP_MAP)
        return keeper_batch_store(disk, batch) != 0 ? -1 : keeper_disk_step(disk, keeper, step);
    if (keeper_batch_add(disk, batch, keeper_row(KEEPER_TABLE_MAPS, step.slot, keeper_image(keeper, step.slot))) != 0 || keeper_batch_store(disk, batch) != 0)
        return -1;
    return keeper_map_done(keeper, step.slot, 1).refusal == KEEPER_DONE ? 0 : keeper_disk_dies(disk, KEEPER_DISK_RESTART);
}

/* A design to the disk, all steps of it. `left`: how many pages stay unsaved. 0, the keeper's refusal, or KEEPER_DISK_DIED. */
static inline uint32_t keeper_disk_save(KeeperDisk *disk, Keeper *keeper, uint32_t slot, uint32_t *left)
{
    KeeperSave save = keeper_save_begin(slot);
    KeeperBatch batch;
    batch.count = batch.sectors = 0;
    *left = 0;
    while (!disk->dead) {
        const KeeperStep step = keeper_save(keeper, &save);
        *left = save.left;
        if (step.what == KEEPER_STEP_DONE || step.what == KEEPER_STEP_REFUSED)
            return keeper_batch_store(disk, &batch) == 0 ? step.refusal : KEEPER_DISK_DIED;
        if (keeper_batch_step(disk, keeper, &batch, step) != 0)
            break;
    }
    return KEEPER_DISK_DIED;
}

#endif
