/* Not proved: a device that passes over some of what is written or synced, as under a driver that leaves it out; and an import with its stores in a
 * wrong order. */
#include "without.h"

static int in_journal(uint64_t at)
{
    return at >= FILEDISK_BLOCK && at < FILEDISK_BLOCK + FILEDISK_JOURNAL;
}

/* The header and the journal are read by an open alone, whose next writes to them are those that make them safe, or empty the journal. */
static int read_of(void *self, uint64_t at, void *to, size_t bytes)
{
    Without *device = self;
    device->heading = at == 0 || device->heading;
    device->opening = in_journal(at);
    return device->inner.read(device->inner.self, at, to, bytes);
}

static int write_of(void *self, uint64_t at, const void *from, size_t bytes)
{
    static const unsigned char nothing[8];
    Without *device = self;
    const int opening = device->opening && in_journal(at), empties = bytes >= sizeof nothing && memcmp(from, nothing, sizeof nothing) == 0;
    const int heading = device->heading && at == 0 && !empties;
    if (in_journal(at))
        device->opening = 0;
    if (at == 0)
        device->heading = 0;
    if (heading && device->wrong == WRONG_HEADER_STAYS)
        return 0;
    if (device->wrong == WRONG_NO_JOURNAL && in_journal(at))
        return 0;
    if (opening && device->wrong == (empties ? WRONG_TORN_STAYS : WRONG_HOME_FIRST)) {
        device->skip = 1;
        return 0;
    }
    if (opening && device->wrong == WRONG_SYNC_ALONE && !empties)
        return 0;
    return device->inner.write(device->inner.self, at, from, bytes);
}

static int sync_of(void *self)
{
    Without *device = self;
    const int skip = device->skip || device->wrong == WRONG_NO_SYNC;
    device->skip = 0;
    return skip ? 0 : device->inner.sync(device->inner.self);
}

FileBlocks without_on(Without *device, FileBlocks inner, int wrong)
{
    const FileBlocks blocks = {device, read_of, write_of, sync_of};
    memset(device, 0, sizeof *device);
    device->inner = inner;
    device->wrong = wrong;
    return blocks;
}

static int store_records(FileDisk *disk, const Keeper *keeper, uint32_t slot)
{
    const size_t words = keeper->sizes.words;
    int bad = 0;
    for (size_t page = slot * keeper->sizes.pages; page < (slot + 1) * keeper->sizes.pages && !bad; page++) {
        const size_t first = (keeper->maps[page] - 1u) * words;
        const FilePiece piece = {KEEPER_TABLE_RECORDS, first, words, keeper->records + first};
        bad = keeper->maps[page] != 0 && filedisk_store(disk, &piece, 1) != 0;
    }
    return bad;
}

/* The highest number, and then: the slot first, then the records; or the records, then number and account, then the map. */
KeeperAnswer without_import(FileDisk *disk, Keeper *keeper, int wrong, uint32_t slot, uint32_t account, uint32_t number, const uint8_t *sheet, size_t bytes)
{
    const size_t pages = keeper->sizes.pages;
    const FilePiece highest = {KEEPER_TABLE_HIGHEST, 0, 1, keeper->highest};
    const FilePiece pieces[3] = {
        {KEEPER_TABLE_NUMBERS, slot, 1, keeper->numbers + slot},
        {KEEPER_TABLE_ACCOUNTS, slot, 1, keeper->accounts + slot},
        {KEEPER_TABLE_MAPS, slot * pages, pages, keeper->maps + slot * pages},
    };
    if (wrong != WRONG_SLOT_FIRST && wrong != WRONG_SLOT_IN_TWO)
        return filedisk_import(disk, keeper, slot, account, number, sheet, bytes);
    KeeperAnswer answer = keeper_easy_import(keeper, slot, account, number, sheet, bytes);
    if (answer.refusal != KEEPER_DONE)
        return answer;
    const int bad = filedisk_store(disk, &highest, 1) != 0 ? 1
                    : wrong == WRONG_SLOT_FIRST ? filedisk_store(disk, pieces, 3) != 0 || store_records(disk, keeper, slot)
                                                : store_records(disk, keeper, slot) || filedisk_store(disk, pieces, 2) != 0 || filedisk_store(disk, pieces + 2, 1) != 0;
    answer.refusal = bad ? FILEDISK_DIED : KEEPER_DONE;
    return answer;
}
