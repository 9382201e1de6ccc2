/* Not proved, tested by tests/sectordisk: the driver over the disk of filedisk.h: the calls of include/keeper_disk.h, and stores of single entries. */
#include "filedisk_inside.h"

/* Once the disk on sectors is dead, so is this one. */
static int failed(FileDisk *disk, int answer)
{
    if (disk->sectors.dead && !disk->dead)
        filedisk_refused(disk, FILEDISK_DEVICE, disk->sectors.dead == KEEPER_DISK_DAMAGED ? "the device failed: a record is not as it was stored"
                                                                                          : "the device failed in a store or a read: open it anew");
    return answer;
}

static KeeperAnswer told(FileDisk *disk, KeeperAnswer answer)
{
    failed(disk, 0);
    return answer;
}

KeeperAnswer filedisk_limit(FileDisk *disk, Keeper *keeper, uint32_t account, uint32_t pages)
{
    return told(disk, keeper_disk_limit(filedisk_sectors(disk), keeper, account, pages));
}

KeeperAnswer filedisk_move(FileDisk *disk, Keeper *keeper, uint32_t giver, uint32_t taker, uint32_t pages)
{
    return told(disk, keeper_disk_move(filedisk_sectors(disk), keeper, giver, taker, pages));
}

KeeperAnswer filedisk_create(FileDisk *disk, Keeper *keeper, uint32_t slot, uint32_t account, uint32_t number)
{
    return told(disk, keeper_disk_create(filedisk_sectors(disk), keeper, slot, account, number));
}

KeeperAnswer filedisk_delete(FileDisk *disk, Keeper *keeper, uint32_t slot)
{
    return told(disk, keeper_disk_delete(filedisk_sectors(disk), keeper, slot));
}

KeeperAnswer filedisk_import(FileDisk *disk, Keeper *keeper, uint32_t slot, uint32_t account, uint32_t number, const uint8_t *sheet, size_t bytes)
{
    return told(disk, keeper_disk_import(filedisk_sectors(disk), keeper, slot, account, number, sheet, bytes));
}

int filedisk_transfer(FileDisk *disk, Keeper *keeper, KeeperTransfer transfer)
{
    return failed(disk, keeper_disk_transfer(filedisk_sectors(disk), keeper, transfer));
}

int filedisk_writes(FileDisk *disk, Keeper *keeper)
{
    return failed(disk, keeper_disk_writes(filedisk_sectors(disk), keeper));
}

int filedisk_map(FileDisk *disk, Keeper *keeper, uint32_t slot)
{
    return failed(disk, keeper_disk_map(filedisk_sectors(disk), keeper, slot));
}

uint32_t filedisk_bring(FileDisk *disk, Keeper *keeper, uint32_t slot, uint32_t page)
{
    const uint32_t refusal = keeper_disk_bring(filedisk_sectors(disk), keeper, slot, page);
    failed(disk, 0);
    return refusal;
}

uint32_t filedisk_save(FileDisk *disk, Keeper *keeper, uint32_t slot, uint32_t *left)
{
    const uint32_t refusal = keeper_disk_save(filedisk_sectors(disk), keeper, slot, left);
    failed(disk, 0);
    return refusal;
}

/* ── entries: the rows that they are in, as the device has them, with these entries in them ── */
typedef struct {
    size_t count, used;
    KeeperRow rows[DISK_MOST];
    uint32_t entries[DISK_MOST * DISK_WORDS]; /* the rows' entries, each row from a word on */
} Rows;

/* A row as the device has it, or as it was changed here; none if there is no room for one more. */
static void *row_of(FileDisk *disk, Rows *rows, size_t table, size_t row)
{
    uint32_t words[DISK_WORDS];
    const DiskPlace place = keeper_disk_place(disk->sectors.sizes, table);
    const KeeperTable lent = {"", rows->entries + rows->used, keeper_disk_is_wide(table) ? sizeof(uint32_t) : sizeof(uint16_t), place.width};
    for (size_t at = 0; at < rows->count; at++)
        if (rows->rows[at].table == table && rows->rows[at].row == row)
            return rows->entries + ((const uint32_t *)rows->rows[at].from - rows->entries);
    if (rows->count == DISK_MOST || place.width > sizeof rows->entries / sizeof *rows->entries - rows->used)
        return NULL;
    for (uint32_t sector = 0; sector < place.sectors; sector++)
        if (keeper_disk_get(&disk->sectors, disk_home(place.begins + (uint32_t)row * place.sectors + sector), words) != 0 || keeper_disk_take(lent, place.width, sector, words) != 0)
            return NULL;
    rows->rows[rows->count++] = keeper_row(table, row, lent.at);
    rows->used += place.width;
    return lent.at;
}

static int put_piece(FileDisk *disk, Rows *rows, const FilePiece *piece)
{
    const DiskPlace place = keeper_disk_place(disk->sectors.sizes, piece->table);
    const size_t all = (size_t)place.rows * place.width, width = keeper_disk_is_wide(piece->table) ? sizeof(uint32_t) : sizeof(uint16_t);
    if (piece->first > all || piece->count > all - piece->first || piece->table >= KEEPER_DISK_COUNT)
        return -1;
    for (size_t entry = 0; entry < piece->count; entry++) {
        const size_t at = piece->first + entry;
        unsigned char *row = row_of(disk, rows, piece->table, at / place.width);
        if (!row)
            return -1;
        memcpy(row + at % place.width * width, (const unsigned char *)piece->from + entry * width, width);
    }
    return 0;
}

int filedisk_store(FileDisk *disk, const FilePiece *pieces, size_t count)
{
    Rows rows;
    rows.count = rows.used = 0;
    if (filedisk_sectors(disk)->dead || count > FILEDISK_MOST_PIECES)
        return -1;
    for (size_t piece = 0; piece < count; piece++)
        if (put_piece(disk, &rows, pieces + piece) != 0)
            return failed(disk, -1);
    return failed(disk, keeper_disk_store(&disk->sectors, rows.rows, rows.count));
}
