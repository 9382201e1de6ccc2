/* Not proved: random lists of calls with cuts, resets and failures, on boards of several sizes, with books: what the disk part may be, to the bit, and what
 * every page may show. */
#include <stdlib.h>
#include "board.h"

static const KeeperSizes choices[] = {
    {.words = 4, .records = 9, .frames = 3, .slots = 2, .pages = 4, .accounts = 2, .chip = 2},
    {.words = 130, .records = 12, .frames = 5, .slots = 3, .pages = 5, .accounts = 3, .chip = 1},
    {.words = 256, .records = 20, .frames = 6, .slots = 4, .pages = 130, .accounts = 4, .chip = 5},
};
enum { MOST_SLOTS = 4, MOST_LIST_PAGES = 130, CALLS = 60, LIST_CUTS = 12 };

/* What a page may show: the version that was told saved, or a later one up to the newest; and zeros, if a truncation is open. */
typedef struct {
    uint32_t told, newest;
    int cut;
} Page;

static Board board;
static States states; /* what the disk part may be: while a call is open the last is what it leaves */
static Page pages[MOST_SLOTS][MOST_LIST_PAGES];
static uint32_t versions, owner[1 << 16]; /* by version: number * 256 + page */
static uint64_t seed;

/* ── books ── */
static void only_now(void)
{
    states_free(&states);
    states_add(&states, &board);
}

/* A call that changes the lent copy before its store: both are possible, until it is told. */
static int told(int failed)
{
    if (!failed)
        only_now();
    else
        states_add(&states, &board);
    return failed;
}

/* The disk part that the open writes and this update would leave. */
static void expect(uint32_t slot, int writes, int map)
{
    Board next;
    const KeeperSizes sizes = board.keeper.sizes;
    board_like(&next, &board);
    for (KeeperTransfer open = keeper_next_transfer(&board.keeper, 0); writes && open.way; open = keeper_next_transfer(&board.keeper, open.frame + 1))
        if (open.way == KEEPER_WRITING)
            memcpy(next.keeper.records + open.record * sizes.words, open.words, 4 * sizes.words);
    if (map)
        memcpy(next.keeper.maps + slot * sizes.pages, keeper_image(&board.keeper, slot), 2 * sizes.pages);
    states_add(&states, &next);
    board_free(&next);
}

/* ── calls; each answers whether the disk died ── */
static int do_limit(void)
{
    return told(make_limit(&board, chance(&seed, (uint32_t)board.keeper.sizes.accounts), 20 + chance(&seed, 30)));
}

static int do_move(void)
{
    const uint32_t giver = chance(&seed, (uint32_t)board.keeper.sizes.accounts), taker = giver ? 0 : 1;
    const uint32_t refusal = keeper_disk_move(&board.disk, &board.keeper, giver, taker, 1).refusal;
    return told(refusal == KEEPER_DISK_DIED);
}

static int do_create(uint32_t slot)
{
    const uint32_t account = chance(&seed, (uint32_t)board.keeper.sizes.accounts);
    const uint32_t refusal = keeper_disk_create(&board.disk, &board.keeper, slot, account, keeper_next_number(&board.keeper)).refusal;
    memset(pages[slot], 0, sizeof pages[slot]);
    if (told(refusal == KEEPER_DISK_DIED))
        return 1;
    keeper_activate(&board.keeper, slot);
    return 0;
}

/* A page, or some of them, with new words; nothing is stored but what must leave its frame. */
static int do_weave(uint32_t slot)
{
    const uint32_t page = chance(&seed, (uint32_t)board.keeper.sizes.pages), version = ++versions;
    owner[version] = board.keeper.numbers[slot] * 256 + page;
    for (;;) { /* step by step, so that each entry is expected */
        const KeeperStep step = keeper_bring(&board.keeper, slot, page);
        if (step.what != KEEPER_STEP_TRANSFER)
            break;
        expect(0, 1, 0);
        if (keeper_disk_step(&board.disk, &board.keeper, step) != 0)
            return 1;
        only_now();
    }
    if (keeper_frame_of(&board.keeper, slot, page) < board.keeper.sizes.frames && weave(&board, slot, page, version) == 0)
        pages[slot][page].newest = version;
    return 0;
}

static void saved(uint32_t slot)
{
    for (size_t page = 0; page < board.keeper.sizes.pages; page++) {
        pages[slot][page].told = pages[slot][page].newest;
        pages[slot][page].cut = 0;
    }
}

static int do_save(uint32_t slot)
{
    KeeperSave save = keeper_save_begin(slot);
    for (;;) {
        const KeeperStep step = keeper_save(&board.keeper, &save);
        if (step.what == KEEPER_STEP_DONE && save.left == 0)
            saved(slot);
        if (step.what == KEEPER_STEP_DONE || step.what == KEEPER_STEP_REFUSED)
            return 0;
        expect(step.slot, step.what == KEEPER_STEP_TRANSFER, step.what == KEEPER_STEP_MAP);
        if (keeper_disk_step(&board.disk, &board.keeper, step) != 0)
            return 1;
        only_now();
    }
}

/* The same in one call: its pages and its map are one store. */
static int do_save_whole(uint32_t slot)
{
    uint32_t left;
    const uint32_t refusal = keeper_disk_save(&board.disk, &board.keeper, slot, &left);
    if (refusal == KEEPER_DISK_DIED) {
        expect(slot, 0, board.keeper.updating[slot]);
        return 1;
    }
    only_now();
    if (refusal == KEEPER_DONE && left == 0)
        saved(slot);
    return 0;
}

/* All pages go, then the design; another one may follow in its slot. */
static int do_delete(uint32_t slot)
{
    if (keeper_truncate(&board.keeper, slot, 0).refusal != KEEPER_DONE)
        return 0;
    for (size_t page = 0; page < board.keeper.sizes.pages; page++) {
        pages[slot][page].newest = 0;
        pages[slot][page].cut = 1;
    }
    if (do_save(slot))
        return 1;
    keeper_deactivate(&board.keeper, slot);
    return told(keeper_disk_delete(&board.disk, &board.keeper, slot).refusal == KEEPER_DISK_DIED);
}

static int one_call(void)
{
    const uint32_t slot = chance(&seed, (uint32_t)board.keeper.sizes.slots), which = chance(&seed, 20);
    if (which == 0)
        return do_limit();
    if (which == 1)
        return do_move();
    if (board.keeper.numbers[slot] == 0)
        return do_create(slot);
    if (!board.keeper.active[slot])
        return (int)(keeper_activate(&board.keeper, slot).refusal == KEEPER_NO_RULE);
    if (which == 2)
        return do_delete(slot);
    return which < 5 ? do_save(slot) : which < 8 ? do_save_whole(slot) : do_weave(slot);
}

/* ── what is found ── */
static void judge_page(uint32_t slot, uint32_t page)
{
    const Page *book = &pages[slot][page];
    const size_t words = board.keeper.sizes.words, entry = board.keeper.maps[slot * board.keeper.sizes.pages + page];
    const uint32_t *found = board.keeper.records + (entry ? entry - 1 : 0) * words, version = entry ? found[0] / 4096 : 0;
    for (uint32_t word = 0; entry && word < words; word++)
        if (found[word] != 4096 * version + word || version > versions || owner[version] != board.keeper.numbers[slot] * 256 + page) {
            broken("a page is torn, or shows another page's words");
            return;
        }
    if (version < book->told && !(version == 0 && book->cut))
        broken("a page that was told saved is gone");
    if (version > book->newest && !book->cut)
        broken("a page shows what was never woven there");
}

static void judge(void)
{
    if (states_find(&states, &board) < 0)
        broken("the disk part is none that the calls have left");
    for (uint32_t slot = 0; slot < board.keeper.sizes.slots; slot++)
        for (uint32_t page = 0; page < board.keeper.sizes.pages && board.keeper.numbers[slot] != 0; page++) {
            judge_page(slot, page);
            const size_t entry = board.keeper.maps[slot * board.keeper.sizes.pages + page];
            pages[slot][page].told = pages[slot][page].newest = entry ? board.keeper.records[(entry - 1) * board.keeper.sizes.words] / 4096 : 0;
            pages[slot][page].cut = 0;
        }
    only_now();
}

/* The end of a run: the power fails and any mix lands, or the program alone is started again. */
static void end_run(void)
{
    uint8_t lands[DEVICE_OPEN];
    const uint32_t taste = chance(&seed, 4);
    board.device.ended = 0;
    for (uint32_t write = 0; write < board.device.count; write++)
        lands[write] = (uint8_t)(taste == 0 ? 0 : taste == 1 ? 1 : chance(&seed, 2));
    if (chance(&seed, 3) != 0) {
        device_cut(&board.device, lands);
        cuts++;
    }
}

/* Opened, with ends inside the opens now and then; then calls until the device ends. */
static int one_run(void)
{
    device_end_at(&board.device, chance(&seed, 3) == 0 ? 1 + chance(&seed, 8) : 0, (int)chance(&seed, WAYS));
    if (board_open(&board) != KEEPER_DISK_GOOD) {
        if (!board.device.ended)
            broken("the disk does not open");
        return board.device.ended;
    }
    judge();
    device_end_at(&board.device, 1 + chance(&seed, chance(&seed, 3) ? 400 : 40), (int)chance(&seed, WAYS));
    for (unsigned call = 0; call < CALLS && !board.device.ended; call++)
        if (one_call() && !board.device.ended)
            broken("the disk died, and the device did not fail");
    return 1;
}

static void one_list(void)
{
    board_new(&board, choices[chance(&seed, sizeof choices / sizeof *choices)]);
    memset(pages, 0, sizeof pages);
    versions = 0;
    if (keeper_disk_format(&board.disk, device_on(&board.device), &board.keeper, NULL) != KEEPER_DISK_GOOD)
        broken("a format is refused");
    only_now();
    for (unsigned run = 0; run < LIST_CUTS && one_run() && !(wrong && broken_promises); run++)
        end_run();
    states_free(&states);
    board_free(&board);
}

void run_lists(unsigned lists, uint64_t first)
{
    seed = first;
    for (unsigned list = 0; list < lists && !(wrong && broken_promises); list++)
        one_list();
}
