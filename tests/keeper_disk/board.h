/* Not proved: a board for the tests of include/keeper_disk.h: a keeper, its disk, its device; what the disk part may be after a cut. */
#ifndef BOARD_H
#define BOARD_H

#include "device.h"

/* All of a board; a copy of it can be brought back. */
typedef struct {
    Keeper keeper;
    KeeperDisk disk;
    Device device;
    uint8_t *block;
    size_t bytes, part; /* of the block; the disk part is its first bytes */
} Board;

void board_new(Board *board, KeeperSizes sizes); /* with a new device: those before it are gone */
void board_like(Board *to, const Board *from);   /* a new copy */
void board_copy(Board *to, const Board *from);   /* into one of the same sizes */
void board_free(Board *board);

/* Memory is lost, and the disk is opened. */
int board_open(Board *board);

/* The next number of a row that is always the same for a seed, below `below`. */
uint32_t chance(uint64_t *seed, uint32_t below);

/* ── what the disk part may be: states, by number ── */
enum { MOST_STATES = 30 };
typedef struct {
    size_t part;
    unsigned count;
    uint8_t *state[MOST_STATES];
} States;

unsigned states_add(States *states, const Board *board); /* the disk part as it is now; a state that is there already is not added */
int states_find(const States *states, const Board *board); /* or -1 */
void states_free(States *states);

/* A promise that was not kept. While a wrong driver is tried, nothing is printed. */
extern unsigned long broken_promises, opens, cuts;
void broken(const char *promise);

/* A call whose entries are told by its states: those of the board before, and after each entry of the call. */
typedef struct {
    const char *name;
    void (*prepare)(Board *board); /* up to the call */
    int (*call)(Board *board);     /* 0 once it is reported */
    void (*between)(States *states, const Board *before, const Board *after); /* what lies between, if anything; NULL: nothing */
} Kind;
extern const Kind kinds[];
extern const size_t kinds_count;

/* The driver's calls, or the wrong driver's. */
int make_limit(Board *board, uint32_t account, uint32_t pages);
int make_writes(Board *board);
int weave(Board *board, uint32_t slot, uint32_t page, uint32_t version); /* a page's words, all told by a number; nothing is stored but for a frame */
int claim_all(Board *board); /* all changed pages are being written */

/* The tests. */
void attack(const Kind *kind, int depth);
void attack_format(void);
void flip_bits(void);
void run_lists(unsigned lists, uint64_t seed);
void plain_tests(void);

#endif
