/* Not proved: every path of an import through resets, cuts and failing syncs. A sheet of two pages becomes a design beside one that is there: it is
 * there whole or not at all, its records are free if it is not, and the other design is as it was. */
#include <stdlib.h>
#include "resets.h"

enum { OTHER = 3, OTHER_PAGES = 1, NEW = 5, NEW_PAGES = 2, NEW_SLOT = 1, ACCOUNT = 1, MOST_WORDS = 256 };

/* The most operations of an import: for the highest number and each record a write and a sync of the journal and of its place, for the slot the same
 * with three places; and one more, so that the end comes at rest. An open writes the header, the journal and three places, and syncs twice. */
enum { IMPORT_OPERATIONS = (1 + NEW_PAGES) * 4 + 6 + 1, OPEN_OPERATIONS = 7 };

/* No two words of two designs are alike. */
static uint32_t word_of(uint32_t number, size_t page, size_t word)
{
    return number << 16 | (uint32_t)page << 12 | ((uint32_t)word + 1);
}

/* ── the sheet ── */
static uint8_t *put(uint8_t *at, unsigned bytes, uint32_t value)
{
    for (unsigned byte = bytes; byte > 0; byte--, value >>= 8)
        at[byte - 1] = (uint8_t)value;
    return at + bytes;
}

static KeeperAnswer import(Board *board, uint32_t slot, uint32_t number, size_t pages)
{
    static uint8_t sheet[KEEPER_SHEET_BYTES(NEW_PAGES, MOST_WORDS)];
    Keeper *keeper = &board->keeper;
    const size_t words = keeper->sizes.words;
    uint8_t *at = put(put(put(put(sheet, 1, 3), 2, 4), 2, (uint32_t)words), 2, (uint32_t)keeper->sizes.pages);
    at = put(put(put(at, 1, 1), 2, 4), 4, number);
    for (size_t page = 0; page < pages; page++) {
        at = put(put(put(at, 1, 2), 2, (uint32_t)(2 + 4 * words)), 2, (uint32_t)page);
        for (size_t word = 0; word < words; word++)
            at = put(at, 4, word_of(number, page, word));
    }
    at = put(put(at, 1, 4), 2, 0);
    return without_import(&board->disk, keeper, board->wrong, slot, ACCOUNT, number, sheet, (size_t)(at - sheet));
}

/* ── what is found ── */

/* Whether a page is listed with its own words. */
static int page_whole(const Keeper *keeper, size_t slot, uint32_t number, size_t page)
{
    const uint16_t entry = keeper->maps[slot * keeper->sizes.pages + page];
    const size_t words = keeper->sizes.words;
    int whole = entry != 0;
    for (size_t word = 0; word < words && whole; word++)
        whole = keeper->records[(entry - 1u) * words + word] == word_of(number, page, word);
    return whole;
}

/* 1 if a slot has this design, whole, 0 if it is empty, or -1. */
static int design_found(const Keeper *keeper, size_t slot, uint32_t number, size_t pages)
{
    size_t listed = 0, whole = 0;
    for (size_t page = 0; page < keeper->sizes.pages; page++) {
        listed += keeper->maps[slot * keeper->sizes.pages + page] != 0;
        whole += page < pages && page_whole(keeper, slot, number, page);
    }
    if (keeper->numbers[slot] == 0)
        return keeper->accounts[slot] == 0 && listed == 0 ? 0 : -1;
    return keeper->numbers[slot] == number && keeper->accounts[slot] == ACCOUNT && listed == pages && whole == pages ? 1 : -1;
}

static int import_found(const Board *board)
{
    const Keeper *keeper = &board->keeper;
    const int other = design_found(keeper, 0, OTHER, OTHER_PAGES), found = design_found(keeper, NEW_SLOT, NEW, NEW_PAGES);
    const size_t taken = OTHER_PAGES + (found == 1 ? NEW_PAGES : 0u);
    return other == 1 && keeper->pool->free == keeper->sizes.records - taken ? found : -1;
}

/* ── the paths ── */
static int import_path(Board *board, int record, unsigned ends)
{
    (void)record;
    if (board_open(board, 0) != FILEDISK_GOOD) /* the tables in memory too are as at the start */
        abort();
    board->disk.blocks = without_on(&board->without, device_on(board->device, 1 + path_choose(IMPORT_OPERATIONS)), board->wrong);
    const int known = import(board, NEW_SLOT, NEW, NEW_PAGES).refusal == KEEPER_DONE ? 1 : -1;
    return opens_agree(board, known, ends, OPEN_OPERATIONS, import_found);
}

Found paths_of_import(int wrong, unsigned ends)
{
    Board board;
    board_new(&board, WRONG_NONE, FILEDISK_BLOCK, path_choose);
    if (board_open(&board, 0) != FILEDISK_GOOD || filedisk_limit(&board.disk, &board.keeper, 0, OTHER_PAGES + NEW_PAGES).refusal != KEEPER_DONE
        || import(&board, 0, OTHER, OTHER_PAGES).refusal != KEEPER_DONE || import_found(&board) != 0)
        abort();
    board.wrong = wrong;
    const Found found = all_paths(&board, import_path, 0, ends);
    board_free(&board);
    return found;
}
