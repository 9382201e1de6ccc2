/* Not proved: plain tests of include/keeper_disk.h: what is refused and what for, what a store takes, how many syncs a save costs, how a disk dies. */
#include <stdlib.h>
#include "board.h"

static const KeeperSizes small = {.words = 130, .records = 6, .frames = 4, .slots = 2, .pages = 3, .accounts = 2, .chip = 1};
static const KeeperSizes other = {.words = 65, .records = 12, .frames = 4, .slots = 2, .pages = 3, .accounts = 2, .chip = 1};

#define CHECK(holds) ((holds) ? (void)0 : broken(#holds))

static int opens_as(const Board *board, KeeperSizes sizes, unsigned long *touched)
{
    Board opened;
    KeeperSizes said;
    board_new(&opened, sizes);
    opened.device = board->device;
    opened.device.writes = 0;
    const int answer = board_open(&opened);
    *touched = opened.device.writes;
    CHECK(answer != KEEPER_DISK_GOOD || (keeper_disk_sizes(device_on(&opened.device), &said) == KEEPER_DISK_GOOD && said.records == sizes.records));
    board_free(&opened);
    return answer;
}

static int opens_with(const Board *board, uint32_t sector, size_t byte, uint8_t value, unsigned long *touched)
{
    Board changed;
    uint8_t bytes[DISK_BYTES];
    board_like(&changed, board);
    memcpy(bytes, device_peek(&board->device, sector), sizeof bytes);
    bytes[byte] = value;
    device_poke(&changed.device, sector, bytes);
    const int answer = opens_as(&changed, board->keeper.sizes, touched);
    board_free(&changed);
    return answer;
}

/* ── refusals ── */
static void test_refusals(void)
{
    Board board;
    unsigned long touched;
    KeeperSizes sizes = small;
    const uint16_t higher[2] = {0, 1};
    board_new(&board, small);
    CHECK(board_open(&board) == KEEPER_DISK_BLANK && board.device.writes == 0);
    CHECK(keeper_disk_sizes(device_on(&board.device), &sizes) == KEEPER_DISK_BLANK);
    CHECK(keeper_disk_format(&board.disk, device_on(&board.device), &board.keeper, higher) == KEEPER_DISK_PARENTS && board.device.writes == 0 && board.disk.dead);
    kinds[0].prepare(&board);
    keeper_disk_sync(&board.disk);
    CHECK(opens_as(&board, small, &touched) == KEEPER_DISK_GOOD);
    CHECK(opens_as(&board, other, &touched) == KEEPER_DISK_OTHER_SIZES && touched == 0);
    CHECK(opens_with(&board, disk_home(0), 0, 'x', &touched) == KEEPER_DISK_FOREIGN && touched == 0);
    CHECK(opens_with(&board, disk_home(0), 511, 1, &touched) == KEEPER_DISK_FOREIGN && touched == 0);
    CHECK(opens_with(&board, disk_home(0), 8, 4, &touched) == KEEPER_DISK_OTHER_VERSION && touched == 0);
    CHECK(opens_with(&board, KEEPER_DISK_COMMIT, 0, 0, &touched) == KEEPER_DISK_JOURNAL && touched == 0);
    CHECK(opens_with(&board, KEEPER_DISK_COMMIT, 8, 100, &touched) == KEEPER_DISK_JOURNAL && touched == 0); /* it would name the header */
    CHECK(opens_with(&board, disk_home(keeper_disk_place(small, KEEPER_TABLE_LIMITS).begins), 3, 1, &touched) == KEEPER_DISK_DAMAGED);
    CHECK(opens_with(&board, disk_home(keeper_disk_place(small, KEEPER_TABLE_ACCOUNTS).begins), 0, 9, &touched) == KEEPER_DISK_RESTART);
    board.device.sectors--;
    CHECK(opens_as(&board, small, &touched) == KEEPER_DISK_DEVICE && touched == 0); /* too short by a sector */
    board.keeper.sizes.words = 1025;
    CHECK(keeper_disk_open(&board.disk, device_on(&board.device), &board.keeper) == KEEPER_DISK_BAD_SIZES && keeper_disk_sectors(board.keeper.sizes) == 0);
    for (int answer = 0; answer <= KEEPER_DISK_CLOSED + 1; answer++)
        CHECK(keeper_disk_text(answer)[0] != 0);
    board_free(&board);
}

/* ── stores ── */
static void test_stores(void)
{
    Board board;
    States states = {0, 0, {NULL}};
    KeeperRow rows[64];
    board_new(&board, small);
    kinds[0].prepare(&board);
    states_add(&states, &board);
    const unsigned long writes = board.device.writes, syncs = board.device.syncs;
    const KeeperRow wrong_rows[] = {keeper_row(KEEPER_DISK_COUNT, 0, board.block), keeper_row(KEEPER_TABLE_RECORDS, 6, board.block), keeper_row(KEEPER_TABLE_LIMITS, 1, board.block),
                                    keeper_row(KEEPER_TABLE_MAPS, SIZE_MAX, board.block), keeper_row(SIZE_MAX, 0, board.block)};
    for (size_t row = 0; row < sizeof wrong_rows / sizeof *wrong_rows; row++)
        CHECK(keeper_disk_store(&board.disk, wrong_rows + row, 1) != 0 && !board.disk.dead);
    for (size_t row = 0; row < 64; row++)
        rows[row] = keeper_row(KEEPER_TABLE_RECORDS, row % 6, board.keeper.records + row % 6 * small.words);
    CHECK(keeper_disk_store(&board.disk, rows, 63) != 0 && !board.disk.dead && board.device.writes == writes && board.device.syncs == syncs); /* 126 sectors */
    rows[62] = keeper_row(KEEPER_TABLE_MAPS, 1, board.keeper.maps + small.pages);
    CHECK(keeper_disk_store(&board.disk, rows, 63) == 0 && board.device.syncs == syncs + 2 && board.device.writes == writes + 251); /* 125 */
    CHECK(board_open(&board) == KEEPER_DISK_GOOD && states_find(&states, &board) == 0);
    CHECK(keeper_disk_store(&board.disk, rows, 0) == 0); /* an entry with nothing in it */
    board.disk.sequence = UINT32_MAX - 1; /* the number begins again at 0 */
    for (uint32_t limit = 10; limit < 14; limit++)
        CHECK(keeper_disk_limit(&board.disk, &board.keeper, 0, limit).refusal == KEEPER_DONE);
    CHECK(board.disk.sequence == 2 && board_open(&board) == KEEPER_DISK_GOOD && board.keeper.limits[0] == 13 && board.disk.sequence == 2);
    states_free(&states);
    board_free(&board);
}

/* ── a save: its pages and its map are one store; more than a store takes: as many stores as that is ── */
static void save_takes(KeeperSizes sizes, uint32_t pages, unsigned long wanted_syncs, unsigned long wanted_writes)
{
    Board board;
    uint32_t left;
    board_new(&board, sizes);
    CHECK(keeper_disk_format(&board.disk, device_on(&board.device), &board.keeper, NULL) == KEEPER_DISK_GOOD);
    CHECK(make_limit(&board, 0, 100) == 0 && keeper_disk_create(&board.disk, &board.keeper, 0, 0, 1).refusal == KEEPER_DONE);
    CHECK(keeper_activate(&board.keeper, 0).refusal == KEEPER_DONE);
    for (uint32_t page = 0; page < pages; page++)
        CHECK(weave(&board, 0, page, page + 1) == 0);
    const unsigned long syncs = board.device.syncs, writes = board.device.writes;
    CHECK(keeper_disk_save(&board.disk, &board.keeper, 0, &left) == KEEPER_DONE && left == 0);
    CHECK(board.device.syncs - syncs == wanted_syncs && board.device.writes - writes == wanted_writes);
    CHECK(board_open(&board) == KEEPER_DISK_GOOD && keeper_activate(&board.keeper, 0).refusal == KEEPER_DONE);
    for (uint32_t page = 0; page < pages; page++) {
        CHECK(keeper_disk_bring(&board.disk, &board.keeper, 0, page) == KEEPER_DONE);
        const uint32_t *words = keeper_words(&board.keeper, 0, page);
        CHECK(words && words[0] == 4096 * (page + 1) && words[sizes.words - 1] == 4096 * (page + 1) + sizes.words - 1);
    }
    board_free(&board);
}

static void test_saves(void)
{
    const KeeperSizes ten = {.words = 256, .records = 30, .frames = 12, .slots = 2, .pages = 12, .accounts = 1, .chip = 1};
    const KeeperSizes long_pages = {.words = 1024, .records = 24, .frames = 20, .slots = 1, .pages = 20, .accounts = 1, .chip = 1};
    save_takes(ten, 10, 2, 2 * 21 + 1);
    save_takes(long_pages, 20, 4, 2 * 120 + 1 + 2 * 41 + 1); /* 15 pages of 8 sectors, then 5 and the map */
}

/* ── a disk that dies, or is only read ── */
static void test_dies(void)
{
    Board board;
    uint32_t left;
    board_new(&board, small);
    kinds[5].prepare(&board); /* two writes are open */
    device_end_at(&board.device, 2, WAY_NOT_DONE);
    CHECK(keeper_disk_writes(&board.disk, &board.keeper) != 0 && board.disk.dead == KEEPER_DISK_DEVICE && keeper_next_transfer(&board.keeper, 0).way == KEEPER_WRITING);
    board.device.ended = 0; /* the device is well again: nothing is tried again before it was opened anew */
    const unsigned long writes = board.device.writes;
    CHECK(keeper_disk_limit(&board.disk, &board.keeper, 0, 3).refusal == KEEPER_DISK_DIED && keeper_disk_save(&board.disk, &board.keeper, 0, &left) == KEEPER_DISK_DIED);
    CHECK(keeper_disk_limit(&board.disk, &board.keeper, 9, 3).refusal == KEEPER_NO_RANGE); /* the keeper's own refusal comes first */
    CHECK(keeper_disk_bring(&board.disk, &board.keeper, 0, 0) == KEEPER_DISK_DIED && board.device.writes == writes);
    CHECK(board_open(&board) == KEEPER_DISK_GOOD && keeper_activate(&board.keeper, 0).refusal == KEEPER_DONE);
    uint8_t bytes[DISK_BYTES];
    const uint32_t sector = disk_home(keeper_disk_place(small, KEEPER_TABLE_RECORDS).begins + 1); /* page 0's second */
    memcpy(bytes, device_peek(&board.device, sector), sizeof bytes);
    bytes[0] ^= 1;
    device_poke(&board.device, sector, bytes);
    CHECK(keeper_disk_bring(&board.disk, &board.keeper, 0, 0) == KEEPER_DISK_DIED && board.disk.dead == KEEPER_DISK_DAMAGED);
    board_free(&board);
}

/* What is only read is what an open would find, also where the newest entry is not home; nothing is written. */
static void test_read(void)
{
    Board board;
    States states = {0, 0, {NULL}};
    const uint8_t none[DEVICE_OPEN] = {0};
    board_new(&board, small);
    kinds[5].prepare(&board);
    CHECK(keeper_disk_writes(&board.disk, &board.keeper) == 0 && board.device.count == 4);
    states_add(&states, &board);
    device_cut(&board.device, none);
    const unsigned long writes = board.device.writes, syncs = board.device.syncs;
    memset(board.block, 0, board.part);
    CHECK(keeper_disk_read(&board.disk, device_on(&board.device), &board.keeper) == KEEPER_DISK_GOOD && states_find(&states, &board) == 0);
    CHECK(board.device.writes == writes && board.device.syncs == syncs && board.disk.dead == KEEPER_DISK_CLOSED);
    CHECK(keeper_disk_make(&board.disk, device_on(&board.device), &board.keeper) == KEEPER_DISK_GOOD && board.disk.dead == KEEPER_DISK_CLOSED);
    CHECK(board_open(&board) == KEEPER_DISK_GOOD && states_find(&states, &board) == 0);
    states_free(&states);
    board_free(&board);
}

void plain_tests(void)
{
    test_refusals();
    test_stores();
    test_saves();
    test_dies();
    test_read();
}
