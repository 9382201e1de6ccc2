/* Not proved: every path of a create, whose stores are two, and of the opens of an older pack, whose restart stores the highest number. */
#include <stdlib.h>
#include "resets.h"

enum { NUMBER = 5, SLOT = 1, ACCOUNT = 1 };
/* a create's operations: those of the highest number, and those of the slot; an open's with the store of the highest (paths.c) */
enum { CREATE_OPERATIONS = 4 + 5, OPEN_OPERATIONS = 10 };

/* What is there: nothing, the number skipped, the design; or -1 for what no cut leaves. */
static int number_found(const Board *board)
{
    const uint32_t highest = board->keeper.highest[0], number = board->keeper.numbers[SLOT], account = board->keeper.accounts[SLOT];
    if (number == 0 && account == 0)
        return highest == 0 ? 0 : highest == NUMBER ? 1 : -1;
    return highest == NUMBER && number == NUMBER && account == ACCOUNT ? 2 : -1;
}

/* A create that ends somewhere, and opens that do; what one has found stays, and a number that was skipped is refused. */
static int create_path(Board *board, int record, unsigned ends)
{
    int known = -1;
    (void)record;
    if (board_open(board, 0) != FILEDISK_GOOD || number_found(board) != 0)
        return 0;
    board->disk.blocks = without_on(&board->without, device_on(board->device, 1 + path_choose(CREATE_OPERATIONS)), board->wrong);
    if (filedisk_create(&board->disk, &board->keeper, SLOT, ACCOUNT, NUMBER).refusal == KEEPER_DONE)
        known = 2;
    for (unsigned end = 1; end <= ends; end++) {
        device_end(board->device);
        const int answer = board_open(board, end < ends ? path_choose(OPEN_OPERATIONS + 1) : 0);
        if (answer == FILEDISK_DEVICE && board->device->ended)
            continue;
        const int found = answer == FILEDISK_GOOD ? number_found(board) : -1;
        if (found < 0 || (known >= 0 && found != known))
            return 0;
        known = found;
        if (found == 1 && keeper_create(&board->keeper, 0, 0, NUMBER).refusal != KEEPER_NUMBER_GIVEN)
            return 0;
    }
    return 1;
}

/* Opens of a pack that has a design and no highest number, each ended somewhere or not: once one is good, the number is on the device. */
static int older_path(Board *board, int record, unsigned ends)
{
    FileDisk disk;
    (void)record;
    for (unsigned end = 1; end <= ends; end++) {
        const int answer = board_open(board, end < ends ? path_choose(OPEN_OPERATIONS + 1) : 0), cut = board->device->ended;
        device_end(board->device);
        if (answer == FILEDISK_DEVICE && cut)
            continue;
        if (answer != FILEDISK_GOOD || number_found(board) != 2)
            return 0;
        if (filedisk_read(&disk, device_on(board->device, 0), &board->keeper) != FILEDISK_GOOD || number_found(board) != 2)
            return 0;
    }
    return 1;
}

Found paths_of_create(int wrong, unsigned ends)
{
    Board board;
    board_new(&board, wrong, FILEDISK_BLOCK, path_choose);
    const Found found = all_paths(&board, create_path, 0, ends);
    board_free(&board);
    return found;
}

Found paths_of_older(int wrong, unsigned ends)
{
    Board board;
    const uint32_t number = NUMBER;
    const uint16_t account = ACCOUNT;
    const FilePiece pieces[2] = {{KEEPER_TABLE_NUMBERS, SLOT, 1, &number}, {KEEPER_TABLE_ACCOUNTS, SLOT, 1, &account}};
    board_new(&board, WRONG_NONE, FILEDISK_BLOCK, path_choose);
    if (board_open(&board, 0) != FILEDISK_GOOD || filedisk_store(&board.disk, pieces, 2) != 0)
        abort();
    board.wrong = wrong;
    const Found found = all_paths(&board, older_path, 0, ends);
    board_free(&board);
    return found;
}
