/* Not proved, tested by make plug: the driver over the disk of filedisk.h. Each event's store is on the device before it is reported. */
#include "filedisk_inside.h"

/* The keeper's answer to an event whose store has ended so. */
static KeeperAnswer stored(KeeperAnswer answer, int failed)
{
    if (failed) {
        answer.refusal = FILEDISK_DIED;
        answer.result = 0;
    }
    return answer;
}

static int store_slot(FileDisk *disk, const Keeper *keeper, uint32_t slot)
{
    const FilePiece pieces[2] = {
        {KEEPER_TABLE_NUMBERS, slot, 1, keeper->numbers + slot},
        {KEEPER_TABLE_ACCOUNTS, slot, 1, keeper->accounts + slot},
    };
    return filedisk_store(disk, pieces, 2);
}

KeeperAnswer filedisk_limit(FileDisk *disk, Keeper *keeper, uint32_t account, uint32_t pages)
{
    const KeeperAnswer answer = keeper_limit(keeper, account, pages);
    const FilePiece piece = {KEEPER_TABLE_LIMITS, account, 1, keeper->limits + account};
    return stored(answer, answer.refusal == KEEPER_DONE && filedisk_store(disk, &piece, 1) != 0);
}

/* The limits table is one store: both limits land, or neither. */
KeeperAnswer filedisk_move(FileDisk *disk, Keeper *keeper, uint32_t giver, uint32_t taker, uint32_t pages)
{
    const KeeperAnswer answer = keeper_move(keeper, giver, taker, pages);
    const FilePiece piece = {KEEPER_TABLE_LIMITS, 0, keeper->sizes.accounts, keeper->limits};
    return stored(answer, answer.refusal == KEEPER_DONE && filedisk_store(disk, &piece, 1) != 0);
}

/* The highest number first: a number that is in a slot on the device was never lower than it. */
KeeperAnswer filedisk_create(FileDisk *disk, Keeper *keeper, uint32_t slot, uint32_t account, uint32_t number)
{
    const KeeperAnswer answer = keeper_create(keeper, slot, account, number);
    return stored(answer, answer.refusal == KEEPER_DONE && (filedisk_store_highest(disk, keeper) != 0 || store_slot(disk, keeper, slot) != 0));
}

KeeperAnswer filedisk_delete(FileDisk *disk, Keeper *keeper, uint32_t slot)
{
    const KeeperAnswer answer = keeper_delete(keeper, slot);
    return stored(answer, answer.refusal == KEEPER_DONE && store_slot(disk, keeper, slot) != 0);
}

/* The record that an entry of a map names: its words as one store. */
static int store_record(FileDisk *disk, const Keeper *keeper, uint16_t entry)
{
    const size_t count = keeper->sizes.words, first = (entry - 1u) * count;
    const FilePiece piece = {KEEPER_TABLE_RECORDS, first, count, keeper->records + first};
    return filedisk_store(disk, &piece, 1);
}

/* The slot with its map: three places, one store. */
static int store_design(FileDisk *disk, const Keeper *keeper, uint32_t slot)
{
    const size_t count = keeper->sizes.pages, first = slot * count;
    const FilePiece pieces[3] = {
        {KEEPER_TABLE_NUMBERS, slot, 1, keeper->numbers + slot},
        {KEEPER_TABLE_ACCOUNTS, slot, 1, keeper->accounts + slot},
        {KEEPER_TABLE_MAPS, first, count, keeper->maps + first},
    };
    return filedisk_store(disk, pieces, 3);
}

/* The stores of an import that was carried out, in their order; the slot is the last. */
static int store_import(FileDisk *disk, const Keeper *keeper, uint32_t slot)
{
    const uint16_t *map = keeper->maps + slot * keeper->sizes.pages;
    if (filedisk_store_highest(disk, keeper) != 0)
        return -1;
    for (size_t page = 0; page < keeper->sizes.pages; page++)
        if (map[page] != 0 && store_record(disk, keeper, map[page]) != 0)
            return -1;
    return store_design(disk, keeper, slot);
}

KeeperAnswer filedisk_import(FileDisk *disk, Keeper *keeper, uint32_t slot, uint32_t account, uint32_t number, const uint8_t *sheet, size_t bytes)
{
    const KeeperAnswer answer = keeper_easy_import(keeper, slot, account, number, sheet, bytes);
    return stored(answer, answer.refusal == KEEPER_DONE && store_import(disk, keeper, slot) != 0);
}

/* Whether the device still has the record as the lent copy has it. */
static int confirmed(FileDisk *disk, const Keeper *keeper, uint32_t record)
{
    uint32_t words[KEEPER_MOST_WORDS];
    const size_t count = keeper->sizes.words, first = record * count;
    if (disk->blocks.read(disk->blocks.self, disk->table_at[KEEPER_TABLE_RECORDS] + first * sizeof *words, words, count * sizeof *words) != 0)
        return 0;
    filedisk_unpack(words, (const unsigned char *)words, sizeof *words, count);
    return memcmp(words, keeper->records + first, count * sizeof *words) == 0;
}

int filedisk_transfer(FileDisk *disk, Keeper *keeper, KeeperTransfer transfer)
{
    uint32_t good = 1;
    if (transfer.way == KEEPER_WRITING) {
        const size_t count = keeper->sizes.words;
        const FilePiece piece = {KEEPER_TABLE_RECORDS, transfer.record * count, count, transfer.words};
        if (filedisk_store(disk, &piece, 1) != 0)
            return -1;
    } else {
        good = (uint32_t)confirmed(disk, keeper, transfer.record);
    }
    keeper_page_done(keeper, transfer.frame, good);
    if (!good)
        filedisk_refused(disk, FILEDISK_DEVICE, "the device failed: a record cannot be read, or is not as it was stored");
    return disk->dead ? -1 : 0;
}

int filedisk_map(FileDisk *disk, Keeper *keeper, uint32_t slot)
{
    const size_t count = keeper->sizes.pages;
    const FilePiece piece = {KEEPER_TABLE_MAPS, slot * count, count, keeper_image(keeper, slot)};
    if (filedisk_store(disk, &piece, 1) != 0)
        return -1;
    keeper_map_done(keeper, slot, 1);
    return 0;
}

uint32_t filedisk_bring(FileDisk *disk, Keeper *keeper, uint32_t slot, uint32_t page)
{
    for (;;) {
        KeeperStep step = keeper_bring(keeper, slot, page);
        if (step.what != KEEPER_STEP_TRANSFER)
            return step.refusal;
        if (filedisk_transfer(disk, keeper, step.transfer) != 0)
            return FILEDISK_DIED;
    }
}

uint32_t filedisk_save(FileDisk *disk, Keeper *keeper, uint32_t slot, uint32_t *left)
{
    KeeperSave save = keeper_save_begin(slot);
    for (;;) {
        KeeperStep step = keeper_save(keeper, &save);
        *left = save.left;
        if (step.what == KEEPER_STEP_DONE || step.what == KEEPER_STEP_REFUSED)
            return step.refusal;
        if (step.what == KEEPER_STEP_TRANSFER && filedisk_transfer(disk, keeper, step.transfer) != 0)
            return FILEDISK_DIED;
        if (step.what == KEEPER_STEP_MAP && filedisk_map(disk, keeper, step.slot) != 0)
            return FILEDISK_DIED;
    }
}
