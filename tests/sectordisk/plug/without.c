/* Not proved: a device that passes over some of what is written or synced, as under a driver that leaves it out; and an import with its stores in a
 * wrong order. */
#include "without.h"

/* The byte from which on the second area is. */
enum { SECOND_AREA = (1 + DISK_MOST) * FILEDISK_BLOCK };

static int in_area(uint64_t at)
{
    return at >= FILEDISK_BLOCK && at < FILEDISK_HEADER;
}

/* Of a wrong driver that has one area. */
static uint64_t place_of(const Without *device, uint64_t at)
{
    return device->wrong == WRONG_ONE_AREA && at >= SECOND_AREA && at < FILEDISK_HEADER ? at - SECOND_AREA + FILEDISK_BLOCK : at;
}

/* A commit sector that names something: an empty one is a format's. */
static int is_commit(uint64_t at, const unsigned char *bytes)
{
    static const unsigned char nothing[4];
    return at == 0 && memcmp(bytes + 8, nothing, sizeof nothing) != 0;
}

/* A single byte, the device's last, is read by an open alone, whose next writes are those of what is there already, up to its sync. */
static int read_of(void *self, uint64_t at, void *to, size_t bytes)
{
    Without *device = self;
    device->opening = bytes == 1 || device->opening;
    return device->inner.read(device->inner.self, place_of(device, at), to, bytes);
}

static int write_of(void *self, uint64_t at, const void *from, size_t bytes)
{
    Without *device = self;
    device->contents = device->contents || (in_area(at) && !device->opening);
    if (device->opening && at == FILEDISK_HEADER && device->wrong == WRONG_HEADER_STAYS)
        return 0;
    if (device->opening && (at == 0 || in_area(at)) && device->wrong == WRONG_SYNC_ALONE)
        return 0;
    if (device->wrong == WRONG_NO_JOURNAL && (is_commit(at, from) || in_area(at)))
        return 0;
    return device->inner.write(device->inner.self, place_of(device, at), from, bytes);
}

static int sync_of(void *self)
{
    Without *device = self;
    const int opening = device->opening, contents = device->contents;
    device->opening = device->contents = 0;
    if (device->wrong == WRONG_NO_SYNC || (opening && device->wrong == WRONG_OPEN_SYNC) || (contents && device->wrong == WRONG_NO_FIRST_SYNC))
        return 0;
    return device->inner.sync(device->inner.self);
}

FileBlocks without_on(Without *device, FileBlocks inner, int wrong)
{
    const FileBlocks blocks = {device, read_of, write_of, sync_of};
    memset(device, 0, sizeof *device);
    device->inner = inner;
    device->wrong = wrong;
    return blocks;
}

static int store_records(FileDisk *disk, const Keeper *keeper, uint32_t slot)
{
    const size_t words = keeper->sizes.words;
    int bad = 0;
    for (size_t page = slot * keeper->sizes.pages; page < (slot + 1) * keeper->sizes.pages && !bad; page++) {
        const size_t first = (keeper->maps[page] - 1u) * words;
        const FilePiece piece = {KEEPER_TABLE_RECORDS, first, words, keeper->records + first};
        bad = keeper->maps[page] != 0 && filedisk_store(disk, &piece, 1) != 0;
    }
    return bad;
}

/* The highest number, and then: the slot first, then the records; or the records, then number and account, then the map. */
KeeperAnswer without_import(FileDisk *disk, Keeper *keeper, int wrong, uint32_t slot, uint32_t account, uint32_t number, const uint8_t *sheet, size_t bytes)
{
    const size_t pages = keeper->sizes.pages;
    const FilePiece highest = {KEEPER_TABLE_HIGHEST, 0, 1, keeper->highest};
    const FilePiece pieces[3] = {
        {KEEPER_TABLE_NUMBERS, slot, 1, keeper->numbers + slot},
        {KEEPER_TABLE_ACCOUNTS, slot, 1, keeper->accounts + slot},
        {KEEPER_TABLE_MAPS, slot * pages, pages, keeper->maps + slot * pages},
    };
    if (wrong != WRONG_SLOT_FIRST && wrong != WRONG_SLOT_IN_TWO)
        return filedisk_import(disk, keeper, slot, account, number, sheet, bytes);
    KeeperAnswer answer = keeper_easy_import(keeper, slot, account, number, sheet, bytes);
    if (answer.refusal != KEEPER_DONE)
        return answer;
    const int bad = filedisk_store(disk, &highest, 1) != 0 ? 1
                    : wrong == WRONG_SLOT_FIRST ? filedisk_store(disk, pieces, 3) != 0 || store_records(disk, keeper, slot)
                                                : store_records(disk, keeper, slot) || filedisk_store(disk, pieces, 2) != 0 || filedisk_store(disk, pieces + 2, 1) != 0;
    answer.refusal = bad ? FILEDISK_DIED : KEEPER_DONE;
    return answer;
}
