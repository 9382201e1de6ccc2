/* Not proved: a long run of stores, each torn by chance. A store that an open found not landed never lands later. */
#include <stdlib.h>
#include "resets.h"

static uint64_t state;

static unsigned by_chance(unsigned below)
{
    state ^= state << 13, state ^= state >> 7, state ^= state << 17;
    return (unsigned)(state >> 33) % below;
}

enum { WORDS = 256, VALUES = 3, LIMITS = 4 };

/* What is on the disk: of each record the first words, with the rest alike, and the limits. Few values, so that parts of stores are often alike. */
typedef struct {
    uint32_t first[2];
    uint16_t limits[2];
} State;

/* The words of a record: the first one or a middle one is other, and those between are few. */
static void fill(uint32_t words[WORDS], uint32_t first)
{
    for (size_t word = 0; word < WORDS; word++)
        words[word] = first == 0 ? 0 : word == 0 ? first : word == 130 ? first % 2 : 1 + word / 86;
}

static int is_at(const Board *board, const State *state_of)
{
    uint32_t words[WORDS];
    int same = memcmp(board->keeper.limits, state_of->limits, sizeof state_of->limits) == 0;
    for (size_t record = 0; record < 2; record++) {
        fill(words, state_of->first[record]);
        same = same && memcmp(board->keeper.records + record * WORDS, words, sizeof words) == 0;
    }
    return same;
}

/* A store by chance, and what is on the disk if it lands. */
static State some_store(Board *board, State next)
{
    uint32_t words[WORDS];
    const size_t at = by_chance(2);
    if (by_chance(3) == 0) {
        next.limits[at] = (uint16_t)by_chance(LIMITS);
        const FilePiece piece = {KEEPER_TABLE_LIMITS, at, 1, next.limits + at};
        filedisk_store(&board->disk, &piece, 1);
    } else {
        next.first[at] = 1 + by_chance(VALUES);
        fill(words, next.first[at]);
        const FilePiece piece = {KEEPER_TABLE_RECORDS, at * WORDS, WORDS, words};
        filedisk_store(&board->disk, &piece, 1);
    }
    return next;
}

Found torn_stores(int wrong, size_t grain, unsigned long stores, uint64_t seed)
{
    Board board;
    Found found = {0, 0};
    State now = {{0, 0}, {0, 0}};
    state = seed;
    board_new(&board, wrong, grain, by_chance);
    for (; found.paths < stores; found.paths++) {
        /* the end comes in the journal's write or its sync, so most stores are torn; now and then it comes later, or not at all */
        board.disk.blocks = without_on(&board.without, device_on(board.device, by_chance(8) ? 1 + by_chance(2) : by_chance(6)), wrong);
        const State next = some_store(&board, now);
        device_end(board.device);
        if (board_open(&board, 0) == FILEDISK_GOOD && (is_at(&board, &now) || is_at(&board, &next))) {
            now = is_at(&board, &next) ? next : now;
            continue;
        }
        found.broken++;
        break;
    }
    board_free(&board);
    return found;
}
