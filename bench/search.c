/* The search for a free record: faults that take the only free one of 4,096, at one distance after the other, by the proved keeper, by the C port, and by
   the C port with the search as it was (old_search.h). bench/run.py builds it and makes the table.
   search SECONDS prints the least times in nanoseconds; search alone makes each fault once, for callgrind to count, a file for each. */
#include <stdbool.h>
#include <string.h>
#include "cases.h"
#include "../include/keeper.h"
#undef KEEPER_H
#define keeper_format c_port_format
#define keeper_restart c_port_restart
#define keeper_apply c_port_apply
#define keeper_apply_all c_port_apply_all
#define keeper_mend c_port_mend
#define keeper_page_look c_port_page_look
#define keeper_export c_port_export
#define keeper_import c_port_import
#include "keeper.h"
#undef keeper_apply
struct answer old_port_apply(struct keeper *keeper, struct request request);

/* one word a record: the words of a page are not what is measured */
enum { W = 1, F = MOST_FRAMES, S = MOST_SLOTS, N = MOST_PAGES, Q = MOST_ACCOUNTS, B = 1, TURNS = SIDES };
#include "timing.h"

static struct {
    uint32_t records[R * W], numbers[S];
    uint16_t accounts[S], maps[S * N], limits[Q], parents[Q];
    uint32_t highest[1];
} disk;
static struct tables {
    struct frame frames[F];
    uint32_t frame_words[F * W];
    uint16_t free_queue[F], removal_list[F], addresses[S * N];
    uint8_t states[R], owners[R];
    uint32_t free_map[R / 32];
    uint8_t active[S], updating[S];
    uint16_t images[S * N];
    uint32_t chip_words[B * W];
    uint16_t chip_records[B], chip_next[1], line[LINE], used[Q];
    struct pool pool;
} memory, start;

#define SLICE(table) {table, sizeof table / sizeof *table}
static struct keeper keeper = {
    {W, R, F, S, N, Q, B},
    {SLICE(disk.records), SLICE(disk.numbers), SLICE(disk.accounts), SLICE(disk.maps), SLICE(disk.limits), SLICE(disk.parents),
     SLICE(disk.highest)},
    {SLICE(memory.frames), SLICE(memory.frame_words), SLICE(memory.free_queue), SLICE(memory.removal_list), SLICE(memory.addresses),
     SLICE(memory.states), SLICE(memory.owners), SLICE(memory.free_map), SLICE(memory.active), SLICE(memory.updating), SLICE(memory.images),
     SLICE(memory.chip_words), SLICE(memory.chip_records), SLICE(memory.chip_next), SLICE(memory.line), SLICE(memory.used), &memory.pool},
};

/* All records but one are listed by designs that are not active; slot 0's is. */
static void fill(const struct one *c)
{
    memset(&disk, 0, sizeof disk);
    memset(disk.limits, 0xFF, sizeof disk.limits);
    for (size_t slot = 0; slot < S; slot++)
        disk.numbers[slot] = (uint32_t)slot + 1;
    if (c->near < R)
        disk.maps[0] = (uint16_t)(c->near + 1);
    for (size_t record = 0, page = N; record < R; record++)
        if (record != c->free && record != c->near)
            disk.maps[page++] = (uint16_t)(record + 1);
    struct request activate = {ACTIVATE, 0, 0, 0, 0};
    if (c_port_restart(&keeper).refusal != 0 || c_port_apply(&keeper, activate).refusal != 0)
        exit(1);
    memory.pool.hand = (uint32_t)c->hand;
    start = memory;
}

static void again(void)
{
    memory = start;
}

#define LENT(slice) (slice).at, (slice).len
/* A fault by a side. */
__attribute__((noinline)) static size_t call(int side, size_t page)
{
    struct request request = {FAULT, 0, (uint32_t)page, 0, 0};
    if (side == 1)
        return c_port_apply(&keeper, request).refusal;
    if (side == 2)
        return old_port_apply(&keeper, request).refusal;
    KeeperSizes sizes = {W, R, F, S, N, Q, B};
    KeeperRequest asked = {FAULT, 0, (uint32_t)page, 0, 0};
    struct disk *d = &keeper.disk;
    struct memory *m = &keeper.memory;
    return keeper_apply(sizes, asked, (KeeperFrame *)m->frames.at, m->frames.len, (KeeperPool *)m->pool, LENT(d->records), LENT(d->numbers),
                        LENT(d->accounts), LENT(d->maps), LENT(d->limits), LENT(d->parents), LENT(d->highest), LENT(m->frame_words),
                        LENT(m->free_queue), LENT(m->removal_list), LENT(m->addresses), LENT(m->states), LENT(m->owners), LENT(m->free_map), LENT(m->active), LENT(m->updating),
                        LENT(m->images), LENT(m->chip_words), LENT(m->chip_records), LENT(m->chip_next), LENT(m->line), LENT(m->used)).refusal;
}

/* The fault was carried out, the page has that record, and the hand stands past it. */
static void check(const struct one *c, int side, size_t refusal)
{
    if (refusal == 0 && memory.addresses[c->page] == c->free + 1 && memory.pool.hand == (c->free + 1) % R && memory.pool.free == 0)
        return;
    fprintf(stderr, "search: side %d, %s %zu %s: refusal %zu, record %d\n", side, c->by, c->distance, c->side, refusal, memory.addresses[c->page] - 1);
    exit(1);
}

/* Faults for so long, the sides in turn; prints each case's least time by each side. */
static void measure(const struct one *cases, double wanted)
{
    static uint64_t least[CASES][SIDES];
    memset(least, 0xFF, sizeof least);
    double begun = seconds();
    uint64_t from = ticks(), own = UINT64_MAX;
    long rounds = 0;
    for (; rounds < 3 || seconds() - begun < wanted; rounds++)
        for (int n = 0; n < CASES; n++) {
            fill(&cases[n]);
            for (int turn = 0; turn < 10 * SIDES; turn++) {
                again();
                uint64_t first = ticks(), before = ticks();
                size_t refusal = call(turn % SIDES, cases[n].page);
                uint64_t took = ticks() - before;
                check(&cases[n], turn % SIDES, refusal);
                own = before - first < own ? before - first : own;
                if (took < least[n][turn % SIDES])
                    least[n][turn % SIDES] = took;
            }
        }
    double nanoseconds = (seconds() - begun) * 1e9 / (double)(ticks() - from);
    printf("rounds\t%ld\n", rounds * 10);
    for (int n = 0; n < CASES; n++) {
        double faults[SIDES];
        for (int side = 0; side < SIDES; side++)
            faults[side] = (double)(least[n][side] - own) * nanoseconds;
        print(&cases[n], faults, SIDES, 0);
    }
}
