/* Not proved: the test of the file disk's header, journal and refusals, over a file. Kills and cuts are those of tests/sectordisk/plug and tests/sectordisk/resets. */
#define _POSIX_C_SOURCE 200809L
#include <stdlib.h>
#include <unistd.h>
#include "check.h"
#include "filedisk.h"

static const KeeperSizes sizes = {.words = 16, .records = 8, .frames = 3, .slots = 2, .pages = 4, .accounts = 3, .chip = 2};
static const KeeperSizes alike = {.words = 8, .records = 16, .frames = 3, .slots = 2, .pages = 4, .accounts = 3, .chip = 2};
static const KeeperSizes roomy = {.words = 16, .records = 8, .frames = 64, .slots = 2, .pages = 4, .accounts = 3, .chip = 7};
static const uint16_t chain[3] = {9, 0, 1}, higher[3] = {0, 0, 2};

static Keeper placed(KeeperSizes wanted)
{
    Keeper keeper;
    const size_t bytes = keeper_workspace(wanted);
    CHECK(keeper_place(&keeper, wanted, malloc(bytes), bytes) == KEEPER_PLACED);
    return keeper;
}

static void weave(FileDisk *disk, Keeper *keeper, uint32_t slot, uint32_t page, uint32_t value)
{
    uint32_t left;
    CHECK(filedisk_bring(disk, keeper, slot, page) == KEEPER_DONE);
    for (uint32_t word = 0; word < keeper->sizes.words; word++)
        CHECK(keeper_write(keeper, slot, page, word, value).refusal == KEEPER_DONE);
    CHECK(filedisk_save(disk, keeper, slot, &left) == KEEPER_DONE && left == 0);
}

static int opened_with(FileBlocks blocks, KeeperSizes wanted, char *line)
{
    FileDisk disk;
    Keeper keeper = placed(wanted);
    int answer = filedisk_open(&disk, blocks, &keeper);
    strcpy(line, disk.line);
    free(keeper.records);
    return answer;
}

/* One byte of the device is other while the disk is opened; then all before the tables is as it was. */
static int opened_with_byte(FileBlocks blocks, uint64_t at, char *line)
{
    static unsigned char old[FILEDISK_HEADER + FILEDISK_BLOCK];
    CHECK(blocks.read(blocks.self, 0, old, sizeof old) == 0);
    const unsigned char other = old[at] ^ 1;
    CHECK(blocks.write(blocks.self, at, &other, 1) == 0);
    const int answer = opened_with(blocks, sizes, line);
    CHECK(blocks.write(blocks.self, 0, old, sizeof old) == 0);
    return answer;
}

static uint32_t sum_of(const unsigned char *bytes, size_t count)
{
    uint32_t sum = 0xFFFFFFFFu;
    for (size_t bit = 0; bit < 8 * count; bit++) {
        sum ^= bytes[bit / 8] >> bit % 8 & 1u;
        sum = sum & 1 ? (sum >> 1) ^ 0xEDB88320u : sum >> 1;
    }
    return ~sum;
}

static void put(unsigned char *to, uint64_t value, size_t width)
{
    for (size_t byte = 0; byte < width; byte++)
        to[byte] = (unsigned char)(value >> 8 * byte);
}

/* A number of a sector. */
static void put_number(FileBlocks blocks, uint64_t at, uint32_t value)
{
    unsigned char bytes[4];
    put(bytes, value, 4);
    CHECK(blocks.write(blocks.self, at, bytes, 4) == 0);
}

static void test_header(FileBlocks blocks)
{
    unsigned char old[FILEDISK_BLOCK], nothing[FILEDISK_BLOCK] = {0};
    char line[240];
    CHECK(opened_with(blocks, sizes, line) == FILEDISK_GOOD);
    CHECK(opened_with(blocks, roomy, line) == FILEDISK_GOOD); /* F and B are no part of a disk */
    CHECK(opened_with(blocks, alike, line) == FILEDISK_OTHER_SIZES);
    CHECK(strcmp(line, "the disk was formatted with W 16 R 8 S 2 N 4 Q 3, this keeper has W 8 R 16 S 2 N 4 Q 3") == 0);
    CHECK(opened_with_byte(blocks, FILEDISK_HEADER, line) == FILEDISK_DAMAGED && strstr(line, "another program's"));
    CHECK(opened_with_byte(blocks, FILEDISK_HEADER + 511, line) == FILEDISK_DAMAGED && strstr(line, "another program's"));
    CHECK(opened_with_byte(blocks, FILEDISK_HEADER + 12, line) == FILEDISK_OTHER_SIZES && strstr(line, "formatted with W 17 R 8"));
    CHECK(opened_with_byte(blocks, 0, line) == FILEDISK_DAMAGED && strstr(line, "commit sector"));
    CHECK(blocks.read(blocks.self, FILEDISK_HEADER, old, sizeof old) == 0 && blocks.write(blocks.self, FILEDISK_HEADER, nothing, sizeof nothing) == 0);
    CHECK(opened_with(blocks, sizes, line) == FILEDISK_NO_DISK);
    CHECK(opened_with_byte(blocks, 0, line) == FILEDISK_DAMAGED); /* no header, and no commit sector of a format */
    CHECK(blocks.write(blocks.self, FILEDISK_HEADER, old, sizeof old) == 0);
}

/* A header block of an older version, its checksum right, with these in the places of F and of the first table's width. */
static void put_older(FileBlocks blocks, uint32_t version, uint32_t frames, uint32_t width)
{
    static const uint32_t tables[] = {0, 5, 6, 6, 7, 7}, widths[] = {4, 4, 2, 2, 2, 2, 4}, counts[] = {128, 2, 2, 8, 3, 3, 1};
    unsigned char block[FILEDISK_BLOCK] = {'K', 'E', 'E', 'P', 'D', 'I', 'S', 'K'};
    const uint32_t numbers[] = {version, 6, tables[version], 16, 8, frames, 2, 4, 3};
    for (size_t at = 0; at < sizeof numbers / sizeof *numbers; at++)
        put(block + 8 + 4 * at, numbers[at], 4);
    for (size_t table = 0; table < tables[version]; table++) {
        put(block + 44 + 4 * table, table == 0 ? width : widths[table], 4);
        put(block + 44 + 4 * (tables[version] + table), counts[table], 4);
    }
    put(block + sizeof block - 4, sum_of(block, sizeof block - 4), 4);
    CHECK(blocks.write(blocks.self, 0, block, sizeof block) == 0);
}

/* Headers that are whole, and another program's or an older one's. */
static void test_sealed(FileBlocks blocks)
{
    unsigned char old[FILEDISK_BLOCK];
    char line[240];
    CHECK(blocks.read(blocks.self, 0, old, sizeof old) == 0);
    for (uint32_t version = 1; version < FILEDISK_VERSION; version++) { /* without parents; with F; without the highest number; with it */
        put_older(blocks, version, version < 3 ? 3 : 0, 4);
        CHECK(opened_with(blocks, sizes, line) == FILEDISK_OTHER_VERSION && line[21] == (char)('0' + version) && strstr(line, "make convert"));
    }
    put_older(blocks, FILEDISK_VERSION, 0, 4);
    CHECK(opened_with(blocks, sizes, line) == FILEDISK_OTHER_VERSION && strstr(line, "no program"));
    KeeperSizes found;
    FileDisk disk;
    put_older(blocks, 4, 3, 4); /* F in a version that has none */
    CHECK(filedisk_sizes(&disk, blocks, &found) == FILEDISK_OTHER_SIZES && strstr(disk.line, "other tables"));
    put_older(blocks, 4, 0, UINT32_MAX); /* the width of an entry */
    CHECK(filedisk_sizes(&disk, blocks, &found) == FILEDISK_OTHER_SIZES && strstr(disk.line, "other tables"));
    put_older(blocks, 4, 0, 4);
    CHECK(filedisk_sizes(&disk, blocks, &found) == FILEDISK_GOOD && found.records == 8 && disk.version == 4);
    CHECK(blocks.write(blocks.self, 0, old, sizeof old) == 0 && opened_with(blocks, sizes, line) == FILEDISK_GOOD);
    put_number(blocks, FILEDISK_HEADER + 8, FILEDISK_VERSION + 1);
    CHECK(opened_with(blocks, sizes, line) == FILEDISK_OTHER_VERSION && strstr(line, "a later one"));
    put_number(blocks, FILEDISK_HEADER + 8, FILEDISK_VERSION);
    put_number(blocks, FILEDISK_HEADER + 12, 4000000000u); /* sizes that no keeper has */
    CHECK(opened_with(blocks, sizes, line) == FILEDISK_OTHER_SIZES);
    put_number(blocks, FILEDISK_HEADER + 12, 16);
    CHECK(opened_with(blocks, sizes, line) == FILEDISK_GOOD);
}

/* A file is open once; to be read alone, more than once. */
static void test_in_use(const char *path)
{
    FileDisk disk;
    FileBlocks one, two, three;
    CHECK(filedisk_file(&disk, &one, path, FILEDISK_OPEN) == FILEDISK_GOOD);
    CHECK(filedisk_file(&disk, &two, path, FILEDISK_OPEN) == FILEDISK_IN_USE && disk.dead && strstr(disk.line, "in use"));
    CHECK(filedisk_file(&disk, &two, path, FILEDISK_READ) == FILEDISK_IN_USE);
    CHECK(filedisk_file(&disk, &two, path, FILEDISK_NEW) == FILEDISK_THERE && strstr(disk.line, "there already"));
    filedisk_close(&one);
    CHECK(filedisk_file(&disk, &two, path, FILEDISK_READ) == FILEDISK_GOOD && filedisk_file(&disk, &three, path, FILEDISK_READ) == FILEDISK_GOOD);
    CHECK(filedisk_file(&disk, &one, path, FILEDISK_OPEN) == FILEDISK_IN_USE);
    CHECK(filedisk_bytes(&two) > FILEDISK_BLOCK && two.write(two.self, 0, path, 1) != 0); /* only read */
    filedisk_close(&two);
    filedisk_close(&three);
}

static uint32_t word_of(FileDisk *disk, Keeper *keeper, uint32_t slot, uint32_t page)
{
    CHECK(filedisk_bring(disk, keeper, slot, page) == KEEPER_DONE);
    const uint32_t *words = keeper_words(keeper, slot, page);
    return words ? words[keeper->sizes.words - 1] : UINT32_MAX;
}

/* The newest store is brought home at the open, and is not if one byte of the commit sector is other. */
static void test_journal(FileBlocks blocks, FileDisk *disk, Keeper *keeper)
{
    unsigned char found[4], zeros[4] = {0};
    char line[240];
    const uint64_t limit = filedisk_place(disk, KEEPER_TABLE_LIMITS, 1);
    CHECK(filedisk_limit(disk, keeper, 1, 3).refusal == KEEPER_DONE && !disk->dead);
    CHECK(blocks.write(blocks.self, limit, zeros, 4) == 0); /* as if the cut had come before it was home */
    CHECK(opened_with_byte(blocks, 3, line) == FILEDISK_DAMAGED);
    CHECK(blocks.read(blocks.self, limit, found, 4) == 0 && found[0] == 0);
    CHECK(opened_with(blocks, sizes, line) == FILEDISK_GOOD);
    CHECK(blocks.read(blocks.self, limit, found, 4) == 0 && found[0] == 3);
}

/* A move is one store of the whole limits table: both limits come home, or neither. */
static void test_move(FileBlocks blocks, FileDisk *disk, Keeper *keeper)
{
    const uint64_t limits = disk->table_at[KEEPER_TABLE_LIMITS];
    unsigned char old[12], new[12], found[12];
    char line[240];
    CHECK(filedisk_limit(disk, keeper, 1, 5).refusal == KEEPER_DONE && blocks.read(blocks.self, limits, old, 12) == 0);
    CHECK(filedisk_move(disk, keeper, 2, 1, 1).refusal == KEEPER_NO_MOVE && filedisk_move(disk, keeper, 0, 2, 1).refusal == KEEPER_NO_MOVE);
    CHECK(blocks.read(blocks.self, limits, found, 12) == 0 && memcmp(found, old, 12) == 0);
    CHECK(filedisk_move(disk, keeper, 1, 2, 3).refusal == KEEPER_DONE && keeper->limits[1] == 2 && keeper->limits[2] == 3);
    CHECK(blocks.read(blocks.self, limits, new, 12) == 0 && new[4] == 2 && new[8] == 3);
    CHECK(blocks.write(blocks.self, limits, old, 12) == 0); /* as if the cut had come before it was home */
    CHECK(opened_with_byte(blocks, 3, line) == FILEDISK_DAMAGED);
    CHECK(blocks.read(blocks.self, limits, found, 12) == 0 && memcmp(found, old, 12) == 0);
    CHECK(opened_with(blocks, sizes, line) == FILEDISK_GOOD);
    CHECK(blocks.read(blocks.self, limits, found, 12) == 0 && memcmp(found, new, 12) == 0);
}

/* A commit sector that names a home sector that is not there, or the header, or too many: it is refused, and the file stays as it is. */
static void test_far_place(FileBlocks blocks, uint64_t end)
{
    static unsigned char before[200 * 1024], after[sizeof before];
    unsigned char old[FILEDISK_BLOCK];
    char line[240];
    const uint32_t room = (uint32_t)(end - FILEDISK_HEADER) / FILEDISK_BLOCK, places[] = {room, UINT32_MAX, 0, UINT32_MAX / 2, 1, 1}, counts[] = {1, 1, 1, 1, 126, UINT32_MAX};
    CHECK(blocks.read(blocks.self, 0, old, sizeof old) == 0 && end <= sizeof before);
    for (size_t at = 0; at < sizeof places / sizeof *places; at++) {
        unsigned char commit[FILEDISK_BLOCK] = {0};
        put(commit, 0x4A524E4C, 4), put(commit + 4, 7, 4), put(commit + 8, counts[at], 4), put(commit + 12, places[at], 4);
        CHECK(blocks.write(blocks.self, 0, commit, sizeof commit) == 0 && blocks.read(blocks.self, 0, before, (size_t)end) == 0);
        CHECK(opened_with(blocks, sizes, line) == FILEDISK_DAMAGED && strstr(line, "commit sector"));
        CHECK(blocks.read(blocks.self, 0, after, (size_t)end) == 0 && memcmp(before, after, (size_t)end) == 0);
        CHECK(blocks.read(blocks.self, end, after, 1) != 0);
    }
    CHECK(blocks.write(blocks.self, 0, old, sizeof old) == 0);
}

/* A file that was cut short, at many lengths, is refused and left as it is, though the newest store would lengthen it. */
static void test_short(FileBlocks blocks, const char *path, uint64_t end)
{
    char line[240];
    unsigned lengthened = 0, other = 0;
    for (uint64_t length = end; length > 0;) {
        length -= length > FILEDISK_HEADER - 100 || length < 600 ? 1 : 101;
        if (truncate(path, (off_t)length) != 0)
            CHECK(0);
        const int answer = opened_with(blocks, sizes, line);
        other += answer != (length == 0 ? FILEDISK_NO_DISK : length < FILEDISK_HEADER + FILEDISK_BLOCK ? FILEDISK_DAMAGED : FILEDISK_DEVICE) || line[0] == 0;
        lengthened += filedisk_bytes(&blocks) != length;
    }
    CHECK(other == 0);
    CHECK(lengthened == 0);
}

static void test_pieces(FileDisk *disk, Keeper *keeper)
{
    const FilePiece past = {KEEPER_TABLE_LIMITS, sizes.accounts, 1, keeper->limits}, far = {KEEPER_TABLE_LIMITS, SIZE_MAX, 1, keeper->limits};
    const FilePiece many = {KEEPER_TABLE_LIMITS, 1, SIZE_MAX, keeper->limits}, none = {KEEPER_DISK_COUNT, 0, 1, keeper->limits};
    const FilePiece whole = {KEEPER_TABLE_NUMBERS, 0, 1, keeper->numbers}, most = {KEEPER_TABLE_RECORDS, 0, 128, keeper->records};
    const FilePiece over[FILEDISK_MOST_PIECES + 1] = {whole, whole, whole, whole, whole, whole, whole, whole, whole};
    const FilePiece *wrong[] = {&past, &far, &many, &none};
    for (size_t at = 0; at < sizeof wrong / sizeof *wrong; at++)
        CHECK(filedisk_store(disk, wrong[at], 1) != 0 && !disk->dead);
    CHECK(filedisk_store(disk, over, FILEDISK_MOST_PIECES + 1) != 0 && !disk->dead);
    CHECK(filedisk_store(disk, &most, 1) == 0 && filedisk_store(disk, &whole, 1) == 0);
}

static int fails(void *self, uint64_t at, const void *from, size_t bytes)
{
    (void)self, (void)at, (void)from, (void)bytes;
    return -1;
}

/* An event whose store fails says so in its answer. */
static void test_dies(FileBlocks blocks, FileDisk *disk, Keeper *keeper)
{
    FileBlocks dying = blocks;
    uint8_t sheet[KEEPER_SHEET_BYTES(4, 16)];
    CHECK(filedisk_open(disk, blocks, keeper) == FILEDISK_GOOD);
    const size_t bytes = keeper_easy_export(keeper, 1, sheet, sizeof sheet).result;
    CHECK(bytes >= 17);
    for (int event = 0; event < 5; event++) {
        CHECK(filedisk_open(disk, blocks, keeper) == FILEDISK_GOOD);
        dying.write = fails;
        disk->blocks = dying;
        const KeeperAnswer answer = event == 0 ? filedisk_limit(disk, keeper, 0, 1)
                                  : event == 1 ? filedisk_move(disk, keeper, 1, 2, 1)
                                  : event == 2 ? filedisk_create(disk, keeper, 0, 0, 70)
                                  : event == 3 ? filedisk_import(disk, keeper, 0, 0, 71, sheet, bytes)
                                               : filedisk_delete(disk, keeper, 1);
        CHECK(answer.refusal == FILEDISK_DIED && answer.result == 0 && disk->dead && strstr(disk->line, "device failed"));
        CHECK(filedisk_limit(disk, keeper, 2, 4).refusal == FILEDISK_DIED); /* dead until it is opened anew */
    }
    CHECK(filedisk_limit(disk, keeper, 99, 4).refusal == KEEPER_NO_RANGE); /* the keeper's own refusal comes first */
    CHECK(filedisk_open(disk, blocks, keeper) == FILEDISK_GOOD && keeper->numbers[1] == 8 && keeper->numbers[0] == 0);
}

/* A disk with two designs, woven and read back after a restart. */
static void test_weaving(FileBlocks *blocks, FileDisk *disk, Keeper *keeper, const char *path)
{
    for (uint32_t slot = 0; slot < 2; slot++) {
        CHECK(filedisk_limit(disk, keeper, slot, 4).refusal == KEEPER_DONE);
        CHECK(filedisk_create(disk, keeper, slot, slot, 7 + slot).refusal == KEEPER_DONE);
        CHECK(keeper_activate(keeper, slot).refusal == KEEPER_DONE);
    }
    for (uint32_t page = 0; page < 4; page++)
        weave(disk, keeper, page % 2, page, 50 + page);
    test_pieces(disk, keeper);
    filedisk_close(blocks);
    test_in_use(path);
    CHECK(filedisk_file(disk, blocks, path, FILEDISK_OPEN) == FILEDISK_GOOD && filedisk_open(disk, *blocks, keeper) == FILEDISK_GOOD);
    for (uint32_t slot = 0; slot < 2; slot++)
        CHECK(keeper_activate(keeper, slot).refusal == KEEPER_DONE);
    for (uint32_t page = 0; page < 4; page++)
        CHECK(word_of(disk, keeper, page % 2, page) == 50 + page && word_of(disk, keeper, (page + 1) % 2, page) == 0);
}

int main(int count, char **words)
{
    FileBlocks blocks;
    FileDisk disk;
    Keeper keeper = placed(sizes);
    if (count != 2)
        return 2;
    remove(words[1]);
    CHECK(filedisk_file(&disk, &blocks, words[1], FILEDISK_OPEN) == FILEDISK_DEVICE && disk.dead && strstr(disk.line, "cannot be opened: "));
    CHECK(filedisk_file(&disk, &blocks, "/", FILEDISK_OPEN) == FILEDISK_DEVICE && strstr(disk.line, "cannot be opened: "));
    CHECK(filedisk_file(&disk, &blocks, "/no/such/folder", FILEDISK_NEW) == FILEDISK_DEVICE && strstr(disk.line, "cannot be made: "));
    CHECK(filedisk_file(&disk, &blocks, words[1], FILEDISK_NEW) == FILEDISK_GOOD && filedisk_bytes(&blocks) == 0);
    CHECK(filedisk_open(&disk, blocks, &keeper) == FILEDISK_NO_DISK && disk.dead);
    CHECK(filedisk_format(&disk, blocks, &keeper, higher) == FILEDISK_PARENTS && disk.dead && strstr(disk.line, "lower account"));
    CHECK(filedisk_open(&disk, blocks, &keeper) == FILEDISK_NO_DISK && filedisk_bytes(&blocks) == 0); /* refused, it has written nothing */
    CHECK(filedisk_format(&disk, blocks, &keeper, chain) == FILEDISK_GOOD && !disk.dead);
    CHECK(filedisk_open(&disk, blocks, &keeper) == FILEDISK_GOOD && keeper.parents[0] == 0 && keeper.parents[1] == 0 && keeper.parents[2] == 1);
    test_header(blocks);
    test_sealed(blocks);
    test_weaving(&blocks, &disk, &keeper, words[1]);
    test_journal(blocks, &disk, &keeper);
    test_move(blocks, &disk, &keeper);
    CHECK(filedisk_open(&disk, blocks, &keeper) == FILEDISK_GOOD && keeper_activate(&keeper, 0).refusal == KEEPER_DONE);
    CHECK(keeper_truncate(&keeper, 0, 0).refusal == KEEPER_DONE && keeper_update(&keeper, 0).refusal == KEEPER_DONE);
    CHECK(filedisk_map(&disk, &keeper, 0) == 0 && keeper_deactivate(&keeper, 0).refusal == KEEPER_DONE);
    CHECK(filedisk_delete(&disk, &keeper, 0).refusal == KEEPER_DONE && filedisk_open(&disk, blocks, &keeper) == FILEDISK_GOOD);
    CHECK(keeper.numbers[0] == 0 && keeper.numbers[1] == 8);
    CHECK(keeper_activate(&keeper, 1).refusal == KEEPER_DONE && keeper_truncate(&keeper, 1, 0).refusal == KEEPER_DONE);
    CHECK(keeper_update(&keeper, 1).refusal == KEEPER_DONE && filedisk_map(&disk, &keeper, 1) == 0);
    test_dies(blocks, &disk, &keeper);
    test_far_place(blocks, disk.end);
    CHECK(filedisk_open(&disk, blocks, &keeper) == FILEDISK_GOOD && filedisk_limit(&disk, &keeper, 2, 4).refusal == KEEPER_DONE);
    test_short(blocks, words[1], disk.end);
    filedisk_close(&blocks);
    remove(words[1]);
    free(keeper.records);
    return counted();
}
