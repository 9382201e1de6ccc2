/* Not proved: every path of one store of each kind: the device ends at each write and sync, heard or not; then the program alone is started again, or the
 * power fails and any mix of the open writes lands; the recovery ends so too, and the one after it, and a store after that. */
#include <stdlib.h>
#include "board.h"

static const KeeperSizes sizes = {.words = 130, .records = 6, .frames = 4, .slots = 2, .pages = 3, .accounts = 2, .chip = 1};
enum { SEEN = 1 << 20, ALL_MIXES = 10, SOME_MIXES = 300, OTHER_LIMIT = 77 };

static Board board; /* the one that is attacked */
static States states;
static unsigned half; /* state i + half is state i with another limit of account 0 */
static uint64_t *seen, mixes = 1;

/* ── where it was already ── */
static int was_here(const Device *device, unsigned allowed, int depth)
{
    const uint64_t sum = (device_sum(device) ^ (uint64_t)allowed * 0x9E3779B97F4A7C15u ^ (uint64_t)depth << 57) | 1;
    size_t slot = sum % SEEN;
    while (seen[slot] != 0 && seen[slot] != sum)
        slot = (slot + 1) % SEEN;
    const int is = seen[slot] == sum;
    seen[slot] = sum;
    return is;
}

static void explore(const Device *from, unsigned allowed, int depth);

/* One mix of the open writes. */
static void cut_and_explore(const Device *device, const uint8_t *lands, unsigned allowed, int depth)
{
    Device after = *device;
    device_cut(&after, lands);
    cuts++;
    explore(&after, allowed, depth);
}

/* What can follow: the program is started again, or the power fails. */
static void interrupt(const Device *device, unsigned allowed, int depth)
{
    uint8_t lands[DEVICE_OPEN];
    const uint32_t open = device->count, count = open <= ALL_MIXES ? 1u << open : SOME_MIXES;
    if (depth < 0 || (wrong && broken_promises))
        return;
    const Device now = *device;
    explore(&now, allowed, depth);
    for (uint32_t mix = 0; mix < count; mix++) {
        for (uint32_t write = 0; write < open; write++)
            lands[write] = (uint8_t)(open <= ALL_MIXES ? mix >> write & 1 : chance(&mixes, 2));
        cut_and_explore(&now, lands, allowed, depth);
    }
}

/* Another store after a recovery, ended at each of its operations. */
static void store_again(const Board *opened, unsigned found, int depth)
{
    for (uint32_t operation = 1;; operation++)
        for (int way = 0; way < WAYS; way++) {
            board_copy(&board, opened);
            device_end_at(&board.device, operation, way);
            const int told = make_limit(&board, 0, OTHER_LIMIT) == 0;
            const int ended = board.device.ended;
            board.device.ended = 0;
            interrupt(&board.device, told ? 1u << (found + half) : 1u << found | 1u << (found + half), depth);
            if (!ended)
                return;
        }
}

/* An open that nothing disturbs: what it finds is allowed, and from then on nothing else is. */
static void open_whole(const Device *from, unsigned allowed, int depth)
{
    Board opened;
    board.device = *from;
    device_end_at(&board.device, 0, 0);
    if (board_open(&board) != KEEPER_DISK_GOOD) {
        broken("the disk does not open");
        return;
    }
    const int found = states_find(&states, &board);
    if (found < 0 || !(allowed >> found & 1)) {
        broken(found < 0 ? "the disk part is none that the calls have left" : "a store is gone that was told, or one is back that was not there");
        return;
    }
    board_like(&opened, &board);
    interrupt(&opened.device, 1u << found, depth - 1);
    if (depth == 1 && (unsigned)found < half)
        store_again(&opened, (unsigned)found, 0);
    board_free(&opened);
}

/* A device after a cut or a reset: opened, and each of the open's operations ended. */
static void explore(const Device *from, unsigned allowed, int depth)
{
    if (was_here(from, allowed, depth))
        return;
    open_whole(from, allowed, depth);
    for (uint32_t operation = 1; depth > 0; operation++)
        for (int way = 0; way < WAYS; way++) {
            board.device = *from;
            device_end_at(&board.device, operation, way);
            if (board_open(&board) == KEEPER_DISK_GOOD && !board.device.ended)
                return;
            board.device.ended = 0;
            interrupt(&board.device, allowed, depth - 1);
        }
}

/* The states before and after the call and between, and each with another limit. */
static void learn(const Kind *kind, const Board *before)
{
    states_add(&states, before);
    board_copy(&board, before);
    if (kind->call(&board) != 0)
        broken("a call is refused that must not be");
    if (kind->between)
        kind->between(&states, before, &board);
    states_add(&states, &board);
    half = states.count;
    for (unsigned state = 0; state < half; state++) {
        memcpy(board.block, states.state[state], states.part);
        board.keeper.limits[0] = OTHER_LIMIT;
        states_add(&states, &board);
    }
}

/* The call, ended at each of its operations. */
static void end_each(const Kind *kind, const Board *before, int depth)
{
    const unsigned last = 1u << (half - 1), any = (1u << half) - 1;
    for (uint32_t operation = 1;; operation++)
        for (int way = 0; way < WAYS; way++) {
            board_copy(&board, before);
            device_end_at(&board.device, operation, way);
            const int told = kind->call(&board) == 0, ended = board.device.ended;
            board.device.ended = 0;
            interrupt(&board.device, told || wrong == WRONG_REPORTS_FIRST ? last : any, depth);
            if (!ended)
                return;
        }
}

void attack(const Kind *kind, int depth)
{
    Board before;
    seen = calloc(SEEN, sizeof *seen);
    board_new(&board, sizes);
    board_like(&before, &board);
    kind->prepare(&before);
    learn(kind, &before);
    end_each(kind, &before, depth);
    states_free(&states);
    board_free(&before);
    board_free(&board);
    free(seen);
}
