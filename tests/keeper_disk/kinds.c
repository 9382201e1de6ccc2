/* Not proved: a store of each kind, for the attacks: a small board up to the call, the call, and what the disk part is after each of its entries. */
#include <stdlib.h>
#include "board.h"

/* ── calls ── */

/* Past the journal: the sector goes home at once, and is synced. */
static int limits_at_once(Board *board)
{
    uint32_t words[DISK_WORDS];
    const DiskPlace place = keeper_disk_place(board->keeper.sizes, KEEPER_TABLE_LIMITS);
    keeper_disk_fill(KEEPER_TABLE_LIMITS, place.width, board->keeper.limits, place.width, 0, words);
    return keeper_disk_put(&board->disk, disk_home(place.begins), words) != 0 || keeper_disk_sync(&board->disk) != 0;
}

int make_limit(Board *board, uint32_t account, uint32_t pages)
{
    if (wrong != WRONG_PAST_JOURNAL)
        return keeper_disk_limit(&board->disk, &board->keeper, account, pages).refusal != KEEPER_DONE;
    return keeper_limit(&board->keeper, account, pages).refusal != KEEPER_DONE || limits_at_once(board) != 0;
}

int make_writes(Board *board)
{
    if (wrong != WRONG_ENTRY_EACH)
        return keeper_disk_writes(&board->disk, &board->keeper);
    int failed = 0;
    for (KeeperTransfer open = keeper_next_transfer(&board->keeper, 0); open.way && !failed; open = keeper_next_transfer(&board->keeper, 0))
        failed = keeper_disk_transfer(&board->disk, &board->keeper, open);
    return failed;
}

int weave(Board *board, uint32_t slot, uint32_t page, uint32_t version)
{
    KeeperRequest requests[KEEPER_MOST_WORDS];
    KeeperAnswer answers[KEEPER_MOST_WORDS];
    const size_t count = board->keeper.sizes.words;
    if (keeper_disk_bring(&board->disk, &board->keeper, slot, page) != KEEPER_DONE)
        return -1;
    for (uint32_t word = 0; word < count; word++)
        requests[word] = (KeeperRequest){KEEPER_WRITE, slot, page, word, 4096 * version + word};
    return keeper_easy_apply_all(&board->keeper, requests, answers, count).refusal == KEEPER_DONE ? 0 : -1;
}

int claim_all(Board *board)
{
    KeeperSave save;
    size_t count, all = 0;
    for (uint32_t slot = 0; slot < board->keeper.sizes.slots; slot++) {
        save = keeper_save_begin(slot);
        if (keeper_save_claims(&board->keeper, &save, &count) != KEEPER_DONE)
            return -1;
        all += count;
    }
    return (int)all;
}

/* ── up to the call ── */
static void need(int holds)
{
    if (!holds && wrong == WRONG_NONE)
        abort();
}

static void to_limit(Board *board)
{
    uint32_t left;
    KeeperDisk *disk = &board->disk;
    Keeper *keeper = &board->keeper;
    need(keeper_disk_format(disk, device_on(&board->device), keeper, NULL) == KEEPER_DISK_GOOD);
    need(make_limit(board, 0, 6) == 0 && make_limit(board, 1, 4) == 0);
    need(keeper_disk_create(disk, keeper, 0, 0, 5).refusal == KEEPER_DONE && keeper_activate(keeper, 0).refusal == KEEPER_DONE);
    need(weave(board, 0, 0, 1) == 0 && weave(board, 0, 1, 2) == 0);
    need(keeper_disk_save(disk, keeper, 0, &left) == KEEPER_DONE && left == 0);
}

static void to_delete(Board *board)
{
    to_limit(board);
    need(keeper_disk_create(&board->disk, &board->keeper, 1, 1, 8).refusal == KEEPER_DONE);
}

static void to_write(Board *board)
{
    to_limit(board);
    need(weave(board, 0, 0, 3) == 0 && claim_all(board) == 1);
}

static void to_writes(Board *board)
{
    to_limit(board);
    need(weave(board, 0, 0, 3) == 0 && weave(board, 0, 1, 4) == 0 && claim_all(board) == 2);
}

static void to_map(Board *board)
{
    to_limit(board);
    need(weave(board, 0, 2, 3) == 0 && claim_all(board) == 1 && make_writes(board) == 0 && keeper_update(&board->keeper, 0).refusal == KEEPER_DONE);
}

static void to_save(Board *board)
{
    to_limit(board);
    need(weave(board, 0, 0, 3) == 0 && weave(board, 0, 2, 4) == 0);
}

static uint8_t sheet[KEEPER_SHEET_BYTES(3, 130)];
static size_t sheet_bytes;
static void to_import(Board *board)
{
    to_limit(board);
    need(keeper_deactivate(&board->keeper, 0).refusal == KEEPER_DONE);
    sheet_bytes = keeper_easy_export(&board->keeper, 0, sheet, sizeof sheet).result;
    need(sheet_bytes > 0 && make_limit(board, 1, 5) == 0);
}

/* As an older board leaves it: a slot has a higher number than the highest. */
static void to_restart(Board *board)
{
    const uint32_t low = 1;
    const KeeperRow row = keeper_row(KEEPER_TABLE_HIGHEST, 0, &low);
    to_limit(board);
    need(keeper_disk_store(&board->disk, &row, 1) == 0);
    board->keeper.highest[0] = low;
}

/* ── the call ── */
static int call_limit(Board *board) { return make_limit(board, 1, 9); }
static int call_move(Board *board) { return keeper_disk_move(&board->disk, &board->keeper, 0, 1, 2).refusal != KEEPER_DONE; }
static int call_create(Board *board) { return keeper_disk_create(&board->disk, &board->keeper, 1, 1, 9).refusal != KEEPER_DONE; }
static int call_delete(Board *board) { return keeper_disk_delete(&board->disk, &board->keeper, 1).refusal != KEEPER_DONE; }
static int call_transfer(Board *board) { return keeper_disk_transfer(&board->disk, &board->keeper, keeper_next_transfer(&board->keeper, 0)); }
static int call_map(Board *board) { return keeper_disk_map(&board->disk, &board->keeper, 0); }
static int call_import(Board *board) { return keeper_disk_import(&board->disk, &board->keeper, 1, 1, 9, sheet, sheet_bytes).refusal != KEEPER_DONE; }

static int call_save(Board *board)
{
    uint32_t left;
    return keeper_disk_save(&board->disk, &board->keeper, 0, &left) != KEEPER_DONE || left != 0;
}

/* ── what lies between ── */

/* Of an import: the highest number, then record after record; the slot is the last. */
static void between_import(States *states, const Board *before, const Board *after)
{
    Board half;
    const size_t words = before->keeper.sizes.words, pages = before->keeper.sizes.pages;
    board_like(&half, before);
    half.keeper.highest[0] = after->keeper.highest[0];
    states_add(states, &half);
    for (size_t page = 0; page < pages; page++) {
        const size_t entry = after->keeper.maps[pages + page];
        if (entry == 0)
            continue;
        memcpy(half.keeper.records + (entry - 1) * words, after->keeper.records + (entry - 1) * words, 4 * words);
        states_add(states, &half);
    }
    board_free(&half);
}

const Kind kinds[] = {
    {"limit", to_limit, call_limit, NULL},
    {"move", to_limit, call_move, NULL},
    {"create", to_limit, call_create, NULL},
    {"delete", to_delete, call_delete, NULL},
    {"page", to_write, call_transfer, NULL},
    {"two pages", to_writes, make_writes, NULL},
    {"map", to_map, call_map, NULL},
    {"restart", to_restart, board_open, NULL},
    {"save", to_save, call_save, NULL},
    {"import", to_import, call_import, between_import},
};
const size_t kinds_count = sizeof kinds / sizeof *kinds;
