/* The chip: what it adds to questions 1 and 2, to faults and page dones, and to lists of 1,000 requests, by the proved keeper and by the C port.
   bench/run.py builds it and makes the table. chips SECONDS prints the least times in nanoseconds an event; chips makes each call once, for
   callgrind to count, a file for each. */
#include <stdbool.h>
#include <stdio.h>
#include <stdlib.h>
#include "clock.h"
#include "../include/keeper_easy.h"
#undef KEEPER_H
#define keeper_format c_port_format
#define keeper_restart c_port_restart
#define keeper_apply c_port_apply
#define keeper_apply_all c_port_apply_all
#define keeper_mend c_port_mend
#define keeper_page_look c_port_page_look
#define keeper_export c_port_export
#define keeper_import c_port_import
#include "keeper.h"

/* An event alone, or a list of 1,000, over a chip of so many places, of which so many are filled. */
enum { NOTHING, FINDS, READS, ENDS, LOOKED_AT, COPIES, BROUGHT };
struct one { const char *name; int event; size_t chip, filled; };
static const struct one cases[] = {
    {"questions 1 and 2 alone, B 1, empty", NOTHING, 1, 0},
    {"questions 1 and 2 alone, B 1, full", NOTHING, 1, 1},
    {"questions 1 and 2 alone, B 256, empty", NOTHING, 256, 0},
    {"questions 1 and 2 alone, B 256, half full", NOTHING, 256, 128},
    {"questions 1 and 2 alone, B 256, full", NOTHING, 256, 256},
    {"fault that begins a read, B 256, full", READS, 256, 256},
    {"fault that finds its copy in the last place, B 256, full", FINDS, 256, 256},
    {"good page done of a read, B 1, full", ENDS, 1, 1},
    {"good page done of a read, B 256, full", ENDS, 256, 256},
    {"list of 1,000 reads, B 1", LOOKED_AT, 1, 1},
    {"list of 1,000 reads, B 256, full", LOOKED_AT, 256, 256},
    {"list of 333 times fault, good page done, claim, B 1", BROUGHT, 1, 1},
    {"list of 333 times fault, good page done, claim, B 256, full", BROUGHT, 256, 256},
    {"list of 500 times a fault that finds its copy, claim, B 256, full", COPIES, 256, 256},
};
enum { CASES = sizeof cases / sizeof *cases, SIDES = 2, MOST = 1000, USED = 512, PAGES_USED = 64 };

static Keeper lent;
static struct keeper port; /* the same tables */
static unsigned char *block, *before, *after;
static size_t memory_bytes, count;
static KeeperRequest list[MOST];
static KeeperAnswer answers[MOST], wanted[MOST];

static void fail(const char *what)
{
    fprintf(stderr, "chips: %s\n", what);
    exit(1);
}

#define SLICE(table, count) {table, count}
static void lay(size_t chip)
{
    const KeeperSizes z = {KEEPER_MOST_WORDS, KEEPER_MOST_RECORDS, KEEPER_MOST_FRAMES, KEEPER_MOST_SLOTS, KEEPER_MOST_PAGES, KEEPER_MOST_ACCOUNTS, chip};
    const size_t bytes = keeper_workspace(z), pages = z.slots * z.pages;
    free(block), free(before), free(after);
    block = calloc(1, bytes), before = malloc(bytes), after = malloc(bytes);
    if (!before || !after || keeper_place(&lent, z, block, bytes) != KEEPER_PLACED)
        fail("no memory");
    port = (struct keeper){
        {z.words, z.records, z.frames, z.slots, z.pages, z.accounts, z.chip},
        {SLICE(lent.records, z.records * z.words), SLICE(lent.numbers, z.slots), SLICE(lent.accounts, z.slots), SLICE(lent.maps, pages),
         SLICE(lent.limits, z.accounts), SLICE(lent.parents, z.accounts), SLICE(lent.highest, 1)},
        {SLICE((struct frame *)lent.frames, z.frames), SLICE(lent.frame_words, z.frames * z.words), SLICE(lent.free_queue, z.frames),
         SLICE(lent.removal_list, z.frames), SLICE(lent.addresses, pages), SLICE(lent.states, z.records), SLICE(lent.owners, z.records),
         SLICE(lent.free_map, (z.records + 31) / 32), SLICE(lent.active, z.slots), SLICE(lent.updating, z.slots), SLICE(lent.images, pages),
         SLICE(lent.chip_words, z.chip * z.words), SLICE(lent.chip_records, z.chip), SLICE(lent.chip_next, 1), SLICE(lent.line, LINE),
         SLICE(lent.used, z.accounts), (struct pool *)lent.pool},
    };
    memory_bytes = (size_t)(block + bytes - (unsigned char *)lent.frames);
}

static uint16_t record_of(size_t used)
{
    return lent.maps[used / PAGES_USED * lent.sizes.pages + used % PAGES_USED];
}

/* Every record is listed, 64 pages a design; the first eight designs are active, so that 512 records are live; copies of the first of these. */
static void fill(size_t filled)
{
    const KeeperSizes z = lent.sizes;
    for (size_t at = 0; at < z.records * z.words; at++)
        lent.records[at] = (uint32_t)at * 2654435761u | 1;
    for (size_t record = 0; record < z.records; record++)
        lent.maps[record / PAGES_USED * z.pages + record % PAGES_USED] = (uint16_t)((record * 1571 + 7) % z.records + 1);
    for (size_t slot = 0; slot < z.slots; slot++)
        lent.numbers[slot] = (uint32_t)slot + 1;
    for (size_t account = 0; account < z.accounts; account++)
        lent.limits[account] = UINT16_MAX;
    if (c_port_restart(&port).refusal != 0)
        fail("no restart");
    for (uint32_t slot = 0; slot < USED / PAGES_USED; slot++)
        if (c_port_apply(&port, (struct request){KEEPER_ACTIVATE, slot, 0, 0, 0}).refusal != 0)
            fail("no activate");
    for (size_t place = 0; place < filled; place++) {
        lent.chip_records[place] = record_of(place);
        memcpy(lent.chip_words + place * z.words, lent.records + (record_of(place) - 1u) * z.words, z.words * sizeof *lent.records);
    }
}

static void ask(uint32_t kind, size_t used)
{
    list[count++] = (KeeperRequest){kind, (uint32_t)(used / PAGES_USED), (uint32_t)(used % PAGES_USED), 0, 0};
}

/* A list of requests. The pages that are brought in are more than the chip holds, in turn, so that none has a copy any more. */
static void request_list(const struct one *c)
{
    const size_t each = c->event == LOOKED_AT ? 1 : c->event == COPIES ? 2 : 3;
    for (size_t used = 0; count + each <= MOST; used++) {
        if (c->event == LOOKED_AT) {
            ask(KEEPER_READ, 0);
            continue;
        }
        ask(KEEPER_FAULT, c->event == COPIES ? used % c->chip : (used + c->filled) % USED);
        if (c->event == BROUGHT)
            list[count++] = (KeeperRequest){KEEPER_PAGE_DONE, (uint32_t)(used % lent.sizes.frames), 1, 0, 0};
        list[count++] = (KeeperRequest){KEEPER_CLAIM, 0, 0, 0, 0};
    }
}

/* The requests of a case; an event that must come before them is carried out. */
static void request(const struct one *c)
{
    count = 0;
    if (c->event == ENDS && c_port_apply(&port, (struct request){KEEPER_FAULT, 7, 0, 0, 0}).refusal != 0)
        fail("no fault");
    if (c->event == LOOKED_AT && c_port_apply(&port, (struct request){KEEPER_FAULT, 0, 0, 0, 0}).refusal != 0)
        fail("no fault");
    if (c->event == NOTHING)
        ask(16, 0); /* no kind of request: 3, after questions 1 and 2 */
    else if (c->event == ENDS)
        list[count++] = (KeeperRequest){KEEPER_PAGE_DONE, 0, 1, 0, 0};
    else if (c->event == READS || c->event == FINDS)
        ask(KEEPER_FAULT, c->event == READS ? USED - 1 : c->chip - 1);
    else
        request_list(c);
    memcpy(before, lent.frames, memory_bytes);
}

/* The call by a side. */
__attribute__((noinline)) static void call(int side)
{
    const KeeperRequest first = list[0];
    if (side == 0 && count == 1)
        answers[0] = keeper_easy_apply(&lent, first);
    else if (side == 0)
        keeper_easy_apply_all(&lent, list, answers, count);
    else if (count == 1) {
        const struct answer answer = c_port_apply(&port, (struct request){first.kind, first.first, first.second, first.third, first.fourth});
        answers[0] = (KeeperAnswer){answer.refusal, answer.result};
    } else
        c_port_apply_all(&port, (const uint32_t *)list, 5 * count, (uint32_t *)answers, 2 * count);
}

/* The call did what the C port did first, and everything is as before it. */
static void check(void)
{
    if (memcmp(answers, wanted, count * sizeof *answers) != 0)
        fail("another answer");
    if (memcmp(after, lent.frames, memory_bytes) != 0)
        fail("other tables");
    memcpy(lent.frames, before, memory_bytes);
}

static void prepare(const struct one *c)
{
    lay(c->chip);
    fill(c->filled);
    request(c);
    call(1);
    memcpy(wanted, answers, count * sizeof *answers);
    memcpy(after, lent.frames, memory_bytes);
    for (size_t at = 0; at < count; at++)
        if (wanted[at].refusal != (c->event == NOTHING ? KEEPER_NO_RANGE : KEEPER_DONE))
            fail("an event is refused");
    if (c->event == FINDS && lent.frames[0].transfer != 0)
        fail("no copy is found");
    check();
    for (int side = 0; side < SIDES; side++) /* so that no first call of a library function is counted */
        call(side), check();
}

static void measure(const struct one *c, double allowed)
{
    uint64_t least[SIDES] = {UINT64_MAX, UINT64_MAX}, from = ticks(), own = UINT64_MAX;
    const double begun = seconds();
    for (long rounds = 0; rounds < 3 || seconds() - begun < allowed; rounds++)
        for (int turn = 0; turn < SIDES; turn++) {
            const int side = (int)((turn + rounds) % SIDES); /* each is the first in turn */
            const uint64_t first = ticks(), start = ticks();
            call(side);
            const uint64_t took = ticks() - start;
            check();
            own = start - first < own ? start - first : own;
            least[side] = took < least[side] ? took : least[side];
        }
    const double nanoseconds = (seconds() - begun) * 1e9 / (double)(ticks() - from) / (double)count;
    printf("%s\t%.1f\t%.1f\n", c->name, (double)(least[0] - own) * nanoseconds, (double)(least[1] - own) * nanoseconds);
}

static void counted(const struct one *c)
{
    for (int side = 0; side < SIDES; side++) {
        callgrind(START);
        call(side);
        callgrind(STOP);
        callgrind(DUMP);
        check();
    }
    printf("%s\n", c->name);
}

int main(int words, char **word)
{
    for (int n = 0; n < CASES; n++) {
        prepare(&cases[n]);
        if (words > 1)
            measure(&cases[n], atof(word[1]) / CASES);
        else
            counted(&cases[n]);
    }
    return 0;
}
