/* The search for a free record alone: the proved one (alone.txt), the C port's, and the C port's as it was (old_search.h). bench/run.py builds it and makes the table.
   alone SECONDS prints the least times in nanoseconds of a search, less those of a call that does nothing; alone by itself makes each call once, for callgrind to count. */
#include <stdbool.h>
#include <string.h>
#include "keeper.h"
#include "cases.h"

/* a side's call that does nothing, then its search */
enum { N = MOST_PAGES, MANY = 100, TURNS = 2 * SIDES };
#include "timing.h"

size_t proved_pick(size_t records, size_t pages, const uint16_t *addresses, size_t addresses_count, const uint32_t *map, size_t map_count, size_t hand, size_t page);
size_t proved_none(size_t records, size_t pages, const uint16_t *addresses, size_t addresses_count, const uint32_t *map, size_t map_count, size_t hand, size_t page);
size_t c_port_pick(const struct keeper *keeper, size_t page);
size_t old_port_pick(const struct keeper *keeper, size_t page);

static uint16_t addresses[N];
static uint32_t map[R / 32];
static struct pool pool;
static struct keeper keeper = {
    .sizes = {1, R, MOST_FRAMES, MOST_SLOTS, N, MOST_ACCOUNTS, 1},
    .memory = {.addresses = {addresses, N}, .free_map = {map, R / 32}, .pool = &pool},
};

__attribute__((noinline)) static size_t c_none(const struct keeper *k, size_t page)
{
    __asm__ volatile("" : : "r"(k));
    return page;
}

__attribute__((noinline)) static size_t call(int turn, size_t page)
{
    const struct keeper *k = &keeper;
    bool searches = turn % 2;
    if (turn / 2 == 0)
        return (searches ? proved_pick : proved_none)(k->sizes.records, k->sizes.pages, addresses, N, map, R / 32, pool.hand, page);
    if (!searches)
        return c_none(k, page);
    return (turn / 2 == 1 ? c_port_pick : old_port_pick)(k, page);
}

static void check(const struct one *c, int turn, size_t result)
{
    if (turn % 2 == 0 || result == c->free)
        return;
    fprintf(stderr, "alone: side %d, %s %zu %s: another record\n", turn / 2, c->by, c->distance, c->side);
    exit(1);
}

/* a search changes nothing */
static void again(void)
{
}

static void fill(const struct one *c)
{
    memset(addresses, 0, sizeof addresses);
    memset(map, 0, sizeof map);
    if (c->near < R)
        addresses[0] = (uint16_t)(c->near + 1);
    map[c->free / 32] = UINT32_C(1) << (c->free % 32);
    pool.hand = (uint32_t)c->hand;
    for (int turn = 0; turn < TURNS; turn++)
        check(c, turn, call(turn, c->page));
}

/* The least time of one call of many in a row, the sides in turn. */
static void measure(const struct one *cases, double wanted)
{
    static double least[CASES][TURNS];
    double begun = seconds();
    for (long round = 0; round < 3 || seconds() - begun < wanted; round++)
        for (int n = 0; n < CASES; n++) {
            fill(&cases[n]);
            for (int turn = 0; turn < TURNS; turn++) {
                volatile size_t page = cases[n].page;
                double before = seconds();
                for (int k = 0; k < MANY; k++)
                    call(turn, page);
                double took = (seconds() - before) * 1e9 / MANY;
                if (round == 0 || took < least[n][turn])
                    least[n][turn] = took;
            }
        }
    for (int n = 0; n < CASES; n++) {
        double search[SIDES];
        for (int side = 0; side < SIDES; side++)
            search[side] = least[n][2 * side + 1] - least[n][2 * side];
        print(&cases[n], search, SIDES, 1);
    }
}
