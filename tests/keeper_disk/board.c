/* Not proved: the board of board.h. */
#include <stdio.h>
#include <stdlib.h>
#include "board.h"

unsigned long broken_promises, opens, cuts;

void broken(const char *promise)
{
    broken_promises++;
    if (wrong == WRONG_NONE)
        printf("broken: %s\n", promise);
}

uint32_t chance(uint64_t *seed, uint32_t below)
{
    *seed = *seed * 6364136223846793005u + 1442695040888963407u;
    return (uint32_t)((*seed >> 33) % below);
}

static void board_place(Board *board, KeeperSizes sizes)
{
    memset(board, 0, sizeof *board);
    board->bytes = keeper_workspace(sizes);
    board->block = calloc(1, board->bytes);
    if (keeper_place(&board->keeper, sizes, board->block, board->bytes) != KEEPER_PLACED)
        abort();
    board->part = (size_t)((uint8_t *)board->keeper.frames - board->block);
}

void board_new(Board *board, KeeperSizes sizes)
{
    board_place(board, sizes);
    device_new(&board->device, keeper_disk_sectors(sizes));
}

void board_like(Board *to, const Board *from)
{
    board_place(to, from->keeper.sizes);
    board_copy(to, from);
}

void board_free(Board *board)
{
    free(board->block);
}

void board_copy(Board *to, const Board *from)
{
    memcpy(to->block, from->block, from->bytes);
    to->device = from->device;
    to->disk = from->disk;
    to->disk.device = device_on(&to->device);
}

/* A wrong recovery clears the commit sector. */
static void clear(Board *board)
{
    uint32_t words[DISK_WORDS], none = 0;
    disk_fill_commit(board->disk.sequence, &none, 0, words);
    keeper_disk_put(&board->disk, KEEPER_DISK_COMMIT, words);
}

int board_open(Board *board)
{
    memset(board->block + board->part, 0xA5, board->bytes - board->part);
    board->device.deaf = wrong == WRONG_NO_OPEN_SYNC;
    const int answer = keeper_disk_open(&board->disk, device_on(&board->device), &board->keeper);
    board->device.deaf = 0;
    if (answer == KEEPER_DISK_GOOD && wrong == WRONG_CLEARS)
        clear(board);
    opens++;
    return board->disk.dead ? board->disk.dead : answer;
}

/* ── states ── */
int states_find(const States *states, const Board *board)
{
    for (unsigned at = 0; at < states->count; at++)
        if (memcmp(states->state[at], board->block, board->part) == 0)
            return (int)at;
    return -1;
}

unsigned states_add(States *states, const Board *board)
{
    const int there = states_find(states, board);
    if (there >= 0)
        return (unsigned)there;
    if (states->count == MOST_STATES)
        abort();
    states->part = board->part;
    states->state[states->count] = malloc(board->part);
    memcpy(states->state[states->count], board->block, board->part);
    return states->count++;
}

void states_free(States *states)
{
    while (states->count > 0)
        free(states->state[--states->count]);
}
