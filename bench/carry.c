/* Design sheets: export and import of designs that differ in their words, by the proved keeper and by the C port. bench/run.py builds it and makes the table.
   carry SIZE SECONDS prints the least times in nanoseconds; carry SIZE makes each call of each design once, for callgrind to count, a file for each. */
#include <stdbool.h>
#include <stdio.h>
#include <stdlib.h>
#include "clock.h"
#include "../include/keeper_easy.h"
#undef KEEPER_H
#define keeper_format c_port_format
#define keeper_restart c_port_restart
#define keeper_apply c_port_apply
#define keeper_apply_all c_port_apply_all
#define keeper_mend c_port_mend
#define keeper_page_look c_port_page_look
#define keeper_export c_port_export
#define keeper_import c_port_import
#include "keeper.h"

enum { EXPORTS, IMPORTS, KINDS, SIDES = 2, OLD_NUMBER = 999, NEW_NUMBER };
static const char *const names[KINDS] = {"export", "import"};
enum { NONE_ZERO, FIRST_ZERO, LAST_ALONE, HALF_ZERO, HALF_PAGES, DESIGNS };
static const char *const designs[DESIGNS] = /* by their words */
    {"none is 0", "the first of each page is 0", "all but the last of each page are 0", "half are 0, by chance", "half of the pages are zeros, by chance"};
static const KeeperSizes middle = {64, 512, 16, 16, 64, 4, 32};
static const KeeperSizes largest = {KEEPER_MOST_WORDS, KEEPER_MOST_RECORDS, KEEPER_MOST_FRAMES, KEEPER_MOST_SLOTS, KEEPER_MOST_PAGES, KEEPER_MOST_ACCOUNTS, KEEPER_MOST_CHIP};

static Keeper lent;
static struct keeper port; /* the same tables */
static unsigned char *block, *memory_before;
static size_t memory_bytes, room, length;
static uint8_t *sheet, *written;
static uint16_t *entries; /* the map that an import leaves */

static void fail(const char *what)
{
    fprintf(stderr, "carry: %s\n", what);
    exit(1);
}

static void *space(size_t bytes)
{
    void *at = calloc(1, bytes);
    return at ? at : (fail("no memory"), at);
}

#define SLICE(table, count) {table, count}
static void lay(KeeperSizes z)
{
    const size_t bytes = keeper_workspace(z), pages = z.slots * z.pages;
    block = space(bytes);
    if (keeper_place(&lent, z, block, bytes) != KEEPER_PLACED)
        fail("no block");
    port = (struct keeper){
        {z.words, z.records, z.frames, z.slots, z.pages, z.accounts, z.chip},
        {SLICE(lent.records, z.records * z.words), SLICE(lent.numbers, z.slots), SLICE(lent.accounts, z.slots), SLICE(lent.maps, pages),
         SLICE(lent.limits, z.accounts), SLICE(lent.parents, z.accounts), SLICE(lent.highest, 1)},
        {SLICE((struct frame *)lent.frames, z.frames), SLICE(lent.frame_words, z.frames * z.words), SLICE(lent.free_queue, z.frames),
         SLICE(lent.removal_list, z.frames), SLICE(lent.addresses, pages), SLICE(lent.states, z.records), SLICE(lent.owners, z.records),
         SLICE(lent.free_map, (z.records + 31) / 32), SLICE(lent.active, z.slots), SLICE(lent.updating, z.slots), SLICE(lent.images, pages),
         SLICE(lent.chip_words, z.chip * z.words), SLICE(lent.chip_records, z.chip), SLICE(lent.chip_next, 1), SLICE(lent.line, LINE), SLICE(lent.used, z.accounts), (struct pool *)lent.pool},
    };
    memory_bytes = (size_t)(block + bytes - (unsigned char *)lent.frames);
    memory_before = space(memory_bytes);
    room = KEEPER_SHEET_BYTES(z.pages, z.words);
    sheet = space(room), written = space(room), entries = space(z.pages * sizeof *entries);
}

static size_t by_chance(size_t below)
{
    static uint64_t chance = 1;
    chance = chance * 6364136223846793005u + 1442695040888963407u;
    return (size_t)(chance >> 33) % below;
}

/* The words of every record, as the design says. */
static void fill_words(int design)
{
    const size_t words = lent.sizes.words;
    bool page_zero = false;
    for (size_t at = 0; at < lent.sizes.records * words; at++) {
        const bool first = at % words == 0, last = at % words == words - 1;
        page_zero = first ? by_chance(2) == 0 : page_zero;
        const bool zero[DESIGNS] = {false, first, !last, by_chance(2) == 0, page_zero};
        lent.records[at] = zero[design] ? 0 : (uint32_t)at * 2654435761u | 1;
    }
}

/* Design 1 in slot 0 with all its pages, others behind it; so many records are free as it has pages. Who lists a record is by chance. */
static void fill(void)
{
    const KeeperSizes z = lent.sizes;
    static uint16_t order[KEEPER_MOST_RECORDS];
    for (size_t at = 0; at < z.records; at++) {
        const size_t other = by_chance(at + 1);
        order[at] = order[other];
        order[other] = (uint16_t)(at + 1);
    }
    for (size_t at = 0; at < z.records - z.pages; at++) {
        lent.maps[at] = order[at];
        lent.numbers[at / z.pages] = (uint32_t)(at / z.pages) + 1;
    }
    for (size_t account = 0; account < z.accounts; account++)
        lent.limits[account] = UINT16_MAX;
    if (c_port_restart(&port).refusal != 0)
        fail("no restart");
    memcpy(memory_before, lent.frames, memory_bytes);
}

/* The call by a side: the answer's result, or 0. */
__attribute__((noinline)) static size_t call(int kind, int side)
{
    const size_t slot = lent.sizes.slots - 1;
    if (kind == EXPORTS && side == 0)
        return keeper_easy_export(&lent, 0, written, room).result;
    if (kind == EXPORTS)
        return c_port_export(&port, 0, written, room).result;
    if (side == 0)
        return keeper_easy_import(&lent, slot, 0, NEW_NUMBER, sheet, length).result;
    return c_port_import(&port, slot, 0, NEW_NUMBER, sheet, length).result;
}

/* What the call did, and everything as before it. */
static void check(int kind, size_t result)
{
    const size_t pages = lent.sizes.pages, slot = lent.sizes.slots - 1;
    if (kind == EXPORTS && (result != length || memcmp(sheet, written, length) != 0))
        fail("another sheet");
    if (kind == EXPORTS)
        return;
    if (result != 1 || lent.numbers[slot] != NEW_NUMBER || lent.highest[0] != NEW_NUMBER || memcmp(lent.maps + slot * pages, entries, pages * sizeof *entries) != 0)
        fail("another import");
    memcpy(lent.frames, memory_before, memory_bytes);
    lent.numbers[slot] = 0;
    lent.highest[0] = OLD_NUMBER;
    memset(lent.maps + slot * pages, 0, pages * sizeof *entries);
}

/* The sheet and the map that both sides must make: the C port's; and that the words come back. */
static void prepare(int design)
{
    fill_words(design);
    const size_t pages = lent.sizes.pages, slot = lent.sizes.slots - 1;
    length = c_port_export(&port, 0, sheet, room).result;
    if ((length == room) != (design != HALF_PAGES) || c_port_import(&port, slot, 0, NEW_NUMBER, sheet, length).result != 1)
        fail("another design");
    memcpy(entries, lent.maps + slot * pages, pages * sizeof *entries);
    if (c_port_export(&port, slot, written, room).result != length || memcmp(sheet + 14, written + 14, length - 14) != 0)
        fail("other words");
    check(IMPORTS, 1);
    for (int turn = 0; turn < KINDS * SIDES; turn++) /* so that no first call of a library function is counted */
        check(turn / SIDES, call(turn / SIDES, turn % SIDES));
}

static void measure(int design, double wanted)
{
    uint64_t least[KINDS][SIDES], from = ticks(), own = UINT64_MAX;
    memset(least, 0xFF, sizeof least);
    const double begun = seconds();
    long rounds = 0;
    for (; rounds < 3 || seconds() - begun < wanted; rounds++)
        for (int turn = 0; turn < KINDS * SIDES; turn++) {
            const int side = (int)((turn + rounds) % SIDES); /* each is the first in turn: what it fills is in the cache for the other */
            uint64_t *best = &least[turn / SIDES][side], first = ticks(), before = ticks();
            const size_t result = call(turn / SIDES, side);
            const uint64_t took = ticks() - before;
            check(turn / SIDES, result);
            own = before - first < own ? before - first : own;
            *best = took < *best ? took : *best;
        }
    const double nanoseconds = (seconds() - begun) * 1e9 / (double)(ticks() - from);
    for (int kind = 0; kind < KINDS; kind++)
        printf("%s: %s\t%.0f\t%.0f\n", names[kind], designs[design], (double)(least[kind][0] - own) * nanoseconds, (double)(least[kind][1] - own) * nanoseconds);
}

static void count(int design)
{
    for (int turn = 0; turn < KINDS * SIDES; turn++) {
        callgrind(START);
        const size_t result = call(turn / SIDES, turn % SIDES);
        callgrind(STOP);
        callgrind(DUMP);
        check(turn / SIDES, result);
        if (turn % SIDES == 0)
            printf("%s: %s\n", names[turn / SIDES], designs[design]);
    }
}

int main(int words, char **word)
{
    if (words < 2)
        fail("carry middle|largest [SECONDS]");
    lay(strcmp(word[1], "largest") == 0 ? largest : middle);
    fill();
    for (int design = 0; design < DESIGNS; design++) {
        prepare(design);
        if (words > 2)
            measure(design, atof(word[2]) / DESIGNS);
        else
            count(design);
    }
    return 0;
}
