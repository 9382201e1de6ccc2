/* Not proved: the test of include/keeper_easy.h, in the common part of C99 and C++. Every function of it is used here; the events are compared,
 * table by table, with the same requests to keeper.h over tables that the macros of that header declare. tests/easy.sh builds and runs it. */
#include <stdlib.h>
#include "check.h"
#include "keeper_easy.h"

enum { W = 4, R = 9, F = 4, S = 3, N = 5, Q = 3, B = 3 };

/* account 2 is under account 1; account 0's parent is not looked at */
static const uint16_t parents[Q] = {7, 0, 1};

static struct {
    KEEPER_DISK_TABLES(W, R, F, S, N, Q, B)
} disk;
static struct {
    KEEPER_MEMORY_TABLES(W, R, F, S, N, Q, B)
} memory;
#define EVERYTHING KEEPER_LEND(memory.frames), &memory.pool, KEEPER_LEND_DISK(disk), KEEPER_LEND_MEMORY(memory)

static KeeperSizes sizes_of(size_t words, size_t records, size_t frames, size_t slots, size_t pages, size_t accounts, size_t chip)
{
    KeeperSizes sizes;
    memset(&sizes, 0, sizeof sizes);
    sizes.words = words;
    sizes.records = records;
    sizes.frames = frames;
    sizes.slots = slots;
    sizes.pages = pages;
    sizes.accounts = accounts;
    sizes.chip = chip;
    return sizes;
}

static Keeper keeper;

/* A keeper over a new block, formatted and restarted. */
static void set_up(KeeperSizes sizes)
{
    free(keeper.records);
    void *block = malloc(keeper_workspace(sizes));
    memset(block, 0xA5, keeper_workspace(sizes));
    CHECK(keeper_place(&keeper, sizes, block, keeper_workspace(sizes)) == KEEPER_PLACED);
    CHECK(keeper_easy_format(&keeper, parents).refusal == KEEPER_DONE);
    CHECK(keeper_easy_restart(&keeper).refusal == KEEPER_DONE);
}

/* ── the block ── */
static void test_place(void)
{
    KeeperSizes sizes = sizes_of(W, R, F, S, N, Q, B);
    size_t bytes = keeper_workspace(sizes), end = 0, sum = 0;
    unsigned char *block = (unsigned char *)malloc(bytes + 8);
    memset(block, 0x5A, bytes + 8);
    memset(&keeper, 0, sizeof keeper);
    CHECK(keeper_place(&keeper, sizes, block, bytes - 1) == KEEPER_BLOCK_SHORT);
    CHECK(keeper_place(&keeper, sizes, NULL, bytes) == KEEPER_BLOCK_SHORT);
    CHECK(keeper_place(&keeper, sizes, block + 4, bytes) == KEEPER_BLOCK_MISALIGNED);
    CHECK(keeper_place(&keeper, sizes_of(W, 0, F, S, N, Q, B), block, bytes) == KEEPER_BAD_SIZES);
    CHECK(keeper_place(&keeper, sizes_of(W, KEEPER_MOST_RECORDS + 1, F, S, N, Q, B), block, bytes) == KEEPER_BAD_SIZES);
    CHECK(keeper_workspace(sizes_of(W, R, F, S, KEEPER_MOST_PAGES + 1, Q, B)) == 0);
    CHECK(keeper_workspace(sizes_of(W, R, F, S, N, Q, 0)) == 0 && keeper_workspace(sizes_of(W, R, F, S, N, Q, KEEPER_MOST_CHIP + 1)) == 0);
    CHECK(keeper.records == NULL);
    CHECK(keeper_place(&keeper, sizes, block, bytes) == KEEPER_PLACED);
    for (size_t number = 0; number < KEEPER_TABLE_COUNT; number++) {
        KeeperTable table = keeper_table(&keeper, number);
        size_t at = (size_t)((unsigned char *)table.at - block);
        CHECK(at % KEEPER_ALIGNMENT == 0 && at >= end && table.name[0] != 0);
        end = at + table.width * table.count;
        sum += table.width * table.count;
    }
    CHECK(end <= bytes && sum <= bytes && bytes < sum + 8 * KEEPER_TABLE_COUNT);
    CHECK(keeper_table(&keeper, KEEPER_TABLE_COUNT).at == NULL);
    CHECK(keeper_table(&keeper, KEEPER_TABLE_RECORDS).count == R * W && keeper_table(&keeper, KEEPER_TABLE_POOL).count == 1);
    CHECK(keeper_size(sizes, 0).letter == 'W' && keeper_size(sizes, 0).value == W && keeper_size(sizes, 5).value == Q && keeper_size(sizes, 6).value == B);
    unsigned other = 0;
    for (size_t at = 0; at < bytes + 8; at++)
        other += block[at] != 0x5A;
    CHECK(other == 0);
    KeeperSizes most = sizes_of(KEEPER_MOST_WORDS, KEEPER_MOST_RECORDS, KEEPER_MOST_FRAMES, KEEPER_MOST_SLOTS, KEEPER_MOST_PAGES, KEEPER_MOST_ACCOUNTS, KEEPER_MOST_CHIP);
    CHECK(keeper_workspace(most) > 18000000 && keeper_workspace(most) < 18500000);
    free(block);
    keeper.records = NULL;
}

/* ── every event beside keeper.h ── */
static uint32_t seed = 1;
static uint32_t random_below(uint32_t most)
{
    seed ^= seed << 13;
    seed ^= seed >> 17;
    seed ^= seed << 5;
    return seed % most;
}

static KeeperAnswer by_function(KeeperRequest r)
{
    switch (r.kind) {
    case KEEPER_CREATE: return keeper_create(&keeper, r.first, r.second, r.third);
    case KEEPER_DELETE: return keeper_delete(&keeper, r.first);
    case KEEPER_ACTIVATE: return keeper_activate(&keeper, r.first);
    case KEEPER_DEACTIVATE: return keeper_deactivate(&keeper, r.first);
    case KEEPER_FAULT: return keeper_fault(&keeper, r.first, r.second);
    case KEEPER_READ: return keeper_read(&keeper, r.first, r.second, r.third);
    case KEEPER_WRITE: return keeper_write(&keeper, r.first, r.second, r.third, r.fourth);
    case KEEPER_CLAIM: return keeper_claim(&keeper);
    case KEEPER_WIRE: return keeper_wire(&keeper, r.first, r.second);
    case KEEPER_UNWIRE: return keeper_unwire(&keeper, r.first, r.second);
    case KEEPER_TRUNCATE: return keeper_truncate(&keeper, r.first, r.second);
    case KEEPER_UPDATE: return keeper_update(&keeper, r.first);
    case KEEPER_PAGE_DONE: return keeper_page_done(&keeper, r.first, r.second);
    case KEEPER_MAP_DONE: return keeper_map_done(&keeper, r.first, r.second);
    case KEEPER_LIMIT: return keeper_limit(&keeper, r.first, r.second);
    case KEEPER_MOVE: return keeper_move(&keeper, r.first, r.second, r.third);
    case KEEPER_JOIN: return keeper_join(&keeper, r.first, r.second);
    case KEEPER_TURN: return keeper_turn(&keeper);
    default: return keeper_easy_apply(&keeper, r);
    }
}

/* Mostly a number that can be given, else one that was, or one of 2,147,483,648 or more. */
static uint32_t any_number(void)
{
    const uint32_t way = random_below(8);
    return way == 0 ? 0x80000000u + random_below(4) : way == 1 ? 1 + random_below(40) : keeper_next_number(&keeper) + random_below(2);
}

static KeeperRequest any_request(void)
{
    KeeperRequest r;
    r.kind = 1 + random_below(KEEPER_TURN);
    r.first = random_below(r.kind == KEEPER_PAGE_DONE ? F + 1 : r.kind == KEEPER_LIMIT || r.kind == KEEPER_MOVE ? Q + 1 : S);
    r.second = random_below(r.kind == KEEPER_PAGE_DONE || r.kind == KEEPER_MAP_DONE ? 2 : r.kind == KEEPER_CREATE || r.kind == KEEPER_MOVE ? Q : N + 1);
    r.third = r.kind == KEEPER_CREATE ? any_number() : random_below(W);
    r.fourth = random_below(3);
    return r;
}

#define SAME(part, name) (memcmp(keeper.name, part.name, sizeof part.name) == 0)
static int same_tables(void)
{
    return SAME(disk, records) && SAME(disk, numbers) && SAME(disk, accounts) && SAME(disk, maps) && SAME(disk, limits) && SAME(disk, parents)
        && SAME(disk, highest) && SAME(memory, frames) && SAME(memory, frame_words) && SAME(memory, free_queue) && SAME(memory, removal_list)
        && SAME(memory, addresses) && SAME(memory, states) && SAME(memory, owners) && SAME(memory, free_map)
        && SAME(memory, active) && SAME(memory, updating) && SAME(memory, images)
        && SAME(memory, chip_words) && SAME(memory, chip_records) && SAME(memory, chip_next) && SAME(memory, line) && SAME(memory, used)
        && memcmp(keeper.pool, &memory.pool, sizeof memory.pool) == 0;
}

static void test_events(void)
{
    KeeperSizes sizes = sizes_of(W, R, F, S, N, Q, B);
    unsigned done[KEEPER_TURN + 1] = {0}, refused[KEEPER_NUMBER_GIVEN + 1] = {0}, different = 0;
    set_up(sizes);
    CHECK(keeper_format(sizes, KEEPER_LEND(parents), KEEPER_LEND_DISK(disk)).refusal == KEEPER_DONE);
    CHECK(keeper_restart(sizes, EVERYTHING).refusal == KEEPER_DONE);
    for (unsigned call = 0; call < 60000; call++) {
        KeeperRequest r = any_request();
        KeeperAnswer easy = by_function(r), plain = keeper_apply(sizes, r, EVERYTHING);
        different += easy.refusal != plain.refusal || easy.result != plain.result || !same_tables();
        done[r.kind] += easy.refusal == KEEPER_DONE;
        refused[easy.refusal]++;
        KeeperPart part = keeper_easy_page_look(&keeper, r.first, r.second);
        KeeperPart beside = keeper_page_look(sizes, r.first, r.second, KEEPER_LEND(memory.frames), memory.pool, KEEPER_LEND_DISK(disk), KEEPER_LEND_MEMORY(memory));
        different += part.refusal != beside.refusal || part.start != beside.start || part.count != beside.count;
        const uint32_t *words = keeper_words(&keeper, r.first, r.second);
        different += part.refusal == KEEPER_DONE ? words != keeper.frame_words + part.start : words != NULL;
    }
    CHECK(different == 0);
    for (unsigned kind = 1; kind <= KEEPER_TURN; kind++)
        CHECK(kind == 16 ? done[kind] == 0 : done[kind] > 20);
    CHECK(refused[KEEPER_NO_MOVE] > 20 && refused[KEEPER_OVER_LIMIT] > 5 && refused[KEEPER_NUMBER_HIGH] > 20 && refused[KEEPER_NUMBER_GIVEN] > 5);
}

/* ── the parents of a format ── */
static void test_format(void)
{
    static const uint16_t equal[Q] = {0, 1, 0}, higher[Q] = {0, 0, 3};
    set_up(sizes_of(W, R, F, S, N, Q, B));
    CHECK(keeper.parents[0] == 0 && keeper.parents[1] == 0 && keeper.parents[2] == 1);
    CHECK(keeper_easy_format(&keeper, equal).refusal == KEEPER_NO_RANGE && keeper_easy_format(&keeper, higher).refusal == KEEPER_NO_RANGE);
    CHECK(keeper.parents[1] == 0 && keeper.parents[2] == 1);
    CHECK(keeper_easy_format(&keeper, NULL).refusal == KEEPER_DONE && keeper.parents[2] == 0);
}

/* ── mend beside keeper.h ── */
enum { PLACES = S * (N + 2) };

/* Slot 2 doubles slot 0's number, slot 1 is empty with an entry, slot 0 names no record and has no such account. */
static void hurt(void)
{
    keeper.numbers[0] = disk.numbers[0] = keeper.numbers[2] = disk.numbers[2] = 5;
    keeper.accounts[0] = disk.accounts[0] = Q;
    keeper.maps[1] = disk.maps[1] = R + 1;
    keeper.maps[N] = disk.maps[N] = 3;
}

static void test_mend(void)
{
    static const KeeperChange wanted[4] = {{2, N, 5, KEEPER_SAME_NUMBER}, {1, 0, 3, KEEPER_EMPTY_SLOT}, {0, N, Q, KEEPER_WRONG_ACCOUNT}, {0, 1, R + 1, KEEPER_WRONG_ENTRY}};
    KeeperSizes sizes = sizes_of(W, R, F, S, N, Q, B);
    KeeperChange easy[PLACES], plain[PLACES];
    set_up(sizes);
    CHECK(keeper_format(sizes, KEEPER_LEND(parents), KEEPER_LEND_DISK(disk)).refusal == KEEPER_DONE);
    CHECK(keeper_restart(sizes, EVERYTHING).refusal == KEEPER_DONE);
    hurt();
    memset(easy, 0x5A, sizeof easy);
    memset(plain, 0x5A, sizeof plain);
    CHECK(keeper_easy_restart(&keeper).refusal == KEEPER_NO_RULE);
    KeeperAnswer answer = keeper_easy_mend(&keeper, easy, PLACES - 1);
    CHECK(answer.refusal == KEEPER_LIST_SHORT && answer.result == 0 && memcmp(easy, plain, sizeof easy) == 0 && same_tables());
    answer = keeper_easy_mend(&keeper, easy, PLACES);
    CHECK(answer.refusal == KEEPER_DONE && answer.result == 4 && memcmp(easy, wanted, sizeof wanted) == 0);
    CHECK(memcmp(easy + 4, plain + 4, sizeof easy - sizeof wanted) == 0); /* later places are untouched */
    CHECK(keeper_mend(sizes, KEEPER_LEND_DISK(disk), KEEPER_LEND_CHANGES(plain)).result == 4);
    CHECK(memcmp(easy, plain, sizeof easy) == 0 && same_tables());
    CHECK(keeper_easy_mend(&keeper, easy, PLACES).result == 0 && keeper_easy_restart(&keeper).refusal == KEEPER_DONE);
    for (uint32_t reason = KEEPER_SAME_NUMBER; reason <= KEEPER_SHARED_RECORD; reason++)
        CHECK(strcmp(keeper_reason(reason), keeper_reason(0)) != 0);
    keeper.parents[2] = 2; /* mending changes no parent */
    CHECK(keeper_easy_mend(&keeper, easy, PLACES).result == 0 && keeper_easy_restart(&keeper).refusal == KEEPER_NO_RULE);
    CHECK(keeper.parents[2] == 2);
}

/* ── design sheets beside keeper.h ── */
enum { SHEET = KEEPER_SHEET_BYTES(N, W) };

/* Design 5 in slot 0, of account 0: page 1 in record 3, page 4 in record 0; page 2 is listed with a record of zeros. */
static void two_pages(void)
{
    keeper.numbers[0] = disk.numbers[0] = 5;
    keeper.limits[0] = disk.limits[0] = 5;
    keeper.maps[1] = disk.maps[1] = 4;
    keeper.maps[2] = disk.maps[2] = 9;
    keeper.maps[4] = disk.maps[4] = 1;
    for (size_t word = 0; word < W; word++) {
        keeper.records[3 * W + word] = disk.records[3 * W + word] = 0x01020304u * (uint32_t)(word + 1);
        keeper.records[word] = disk.records[word] = word == W - 1;
    }
    CHECK(keeper_easy_restart(&keeper).refusal == KEEPER_DONE && keeper_restart(keeper.sizes, EVERYTHING).refusal == KEEPER_DONE);
}

/* An import by both ways: one answer, and the same tables. */
static KeeperAnswer imported(size_t slot, uint32_t number, const uint8_t *sheet, size_t count)
{
    const KeeperAnswer easy = keeper_easy_import(&keeper, slot, 0, number, sheet, count);
    const KeeperAnswer plain = keeper_import(keeper.sizes, slot, 0, number, sheet, count, EVERYTHING);
    CHECK(easy.refusal == plain.refusal && easy.result == plain.result && same_tables());
    return easy;
}

static void test_sheets(void)
{
    static const uint8_t head[14] = {3, 0, 4, 0, W, 0, N, 1, 0, 4, 0, 0, 0, 5}, page[9] = {2, 0, 2 + 4 * W, 0, 1, 1, 2, 3, 4};
    uint8_t easy[SHEET], plain[SHEET];
    set_up(sizes_of(W, R, F, S, N, Q, B));
    CHECK(keeper_format(keeper.sizes, KEEPER_LEND(parents), KEEPER_LEND_DISK(disk)).refusal == KEEPER_DONE);
    two_pages();
    memset(easy, 0x5A, sizeof easy);
    memset(plain, 0x5A, sizeof plain);
    const size_t length = 17 + 2 * (5 + 4 * W);
    CHECK(keeper_easy_export(&keeper, 0, easy, length - 1).refusal == KEEPER_SHEET_SHORT && memcmp(easy, plain, sizeof easy) == 0);
    CHECK(keeper_easy_export(&keeper, 1, easy, SHEET).refusal == KEEPER_NO_DESIGN && memcmp(easy, plain, sizeof easy) == 0);
    CHECK(keeper_easy_export(&keeper, 0, easy, SHEET).result == length && easy[length] == 0x5A);
    CHECK(keeper_export(keeper.sizes, 0, plain, length, KEEPER_LEND(memory.frames), memory.pool, KEEPER_LEND_DISK(disk), KEEPER_LEND_MEMORY(memory)).result == length);
    CHECK(memcmp(easy, plain, sizeof easy) == 0 && memcmp(easy, head, sizeof head) == 0 && memcmp(easy + 14, page, sizeof page) == 0 && same_tables());
    CHECK(imported(0, 6, easy, length).refusal == KEEPER_SLOT_FILLED && imported(1, 5, easy, length).refusal == KEEPER_NUMBER_TAKEN);
    CHECK(imported(1, 6, easy, length - 1).refusal == KEEPER_SHEET_WRONG && imported(1, 6, easy, length + 1).refusal == KEEPER_SHEET_WRONG);
    easy[4]++; /* another W: the pages have a wrong length then */
    CHECK(imported(1, 6, easy, length).refusal == KEEPER_SHEET_WRONG);
    easy[4]--, easy[6]++; /* another N */
    CHECK(imported(1, 6, easy, length).refusal == KEEPER_SHEET_OTHER);
    easy[6]--;
    CHECK(imported(1, 6, easy, length).result == 5 && keeper.used[0] == 5 && keeper.maps[N + 1] != 0 && keeper.maps[N + 2] == 0);
    CHECK(imported(2, 7, easy, length).refusal == KEEPER_AT_LIMIT);
    CHECK(keeper_easy_export(&keeper, 1, plain, SHEET).result == length && plain[13] == 6 && memcmp(easy + 14, plain + 14, length - 14) == 0);
    CHECK(keeper_activate(&keeper, 1).refusal == KEEPER_DONE && keeper_easy_export(&keeper, 1, plain, SHEET).refusal == KEEPER_ACTIVE);
}

/* ── numbers of 2,147,483,648 or more ── */
static void test_high_numbers(void)
{
    uint8_t sheet[SHEET];
    set_up(sizes_of(W, R, F, S, N, Q, B));
    CHECK(keeper_format(keeper.sizes, KEEPER_LEND(parents), KEEPER_LEND_DISK(disk)).refusal == KEEPER_DONE);
    two_pages();
    keeper.numbers[0] = disk.numbers[0] = 0xFFFFFFFFu; /* as an older board gave it */
    CHECK(keeper_easy_restart(&keeper).refusal == KEEPER_DONE && keeper_restart(keeper.sizes, EVERYTHING).refusal == KEEPER_DONE);
    CHECK(keeper_create(&keeper, S, 0, 0x80000000u).refusal == KEEPER_NO_RANGE);
    CHECK(keeper_create(&keeper, 0, 0, 0x80000000u).refusal == KEEPER_NUMBER_HIGH && keeper_create(&keeper, 1, 0, 0xFFFFFFFFu).refusal == KEEPER_NUMBER_HIGH);
    CHECK(keeper_create(&keeper, 0, 0, 0x7FFFFFFFu).refusal == KEEPER_SLOT_FILLED && same_tables());
    const size_t length = keeper_easy_export(&keeper, 0, sheet, SHEET).result;
    CHECK(length == 17 + 2 * (5 + 4 * W) && sheet[10] == 0xFF);
    CHECK(imported(0, 0x80000000u, sheet, 0).refusal == KEEPER_NUMBER_HIGH && imported(S, 0x80000000u, sheet, 0).refusal == KEEPER_NO_RANGE);
    CHECK(imported(1, 0x7FFFFFFFu, sheet, length).result == 0xFFFFFFFFu && keeper.numbers[1] == 0x7FFFFFFFu);
    CHECK(keeper_activate(&keeper, 0).refusal == KEEPER_DONE && keeper_fault(&keeper, 0, 1).refusal == KEEPER_DONE);
}

/* ── no number twice ── */
static void test_given_numbers(void)
{
    uint8_t sheet[SHEET];
    set_up(sizes_of(W, R, F, S, N, Q, B));
    CHECK(keeper_format(keeper.sizes, KEEPER_LEND(parents), KEEPER_LEND_DISK(disk)).refusal == KEEPER_DONE && keeper_next_number(&keeper) == 1);
    two_pages(); /* design 5, on a pack that has no highest number: restart stores it */
    CHECK(keeper.highest[0] == 5 && disk.highest[0] == 5 && keeper_next_number(&keeper) == 6);
    const size_t length = keeper_easy_export(&keeper, 0, sheet, SHEET).result;
    CHECK(imported(1, 4, sheet, 0).refusal == KEEPER_NUMBER_GIVEN && imported(1, 6, sheet, 0).refusal == KEEPER_SHEET_WRONG && keeper.highest[0] == 5);
    CHECK(keeper_create(&keeper, 1, 0, 4).refusal == KEEPER_NUMBER_GIVEN && keeper_create(&keeper, 1, 0, 5).refusal == KEEPER_NUMBER_TAKEN);
    CHECK(keeper_create(&keeper, 1, 0, 9).refusal == KEEPER_DONE && keeper.highest[0] == 9 && keeper_delete(&keeper, 1).refusal == KEEPER_DONE);
    CHECK(keeper_easy_restart(&keeper).refusal == KEEPER_DONE && keeper.highest[0] == 9 && keeper_create(&keeper, 1, 0, 9).refusal == KEEPER_NUMBER_GIVEN);
    CHECK(keeper_easy_import(&keeper, 1, 0, 0x7FFFFFFFu, sheet, length).refusal == KEEPER_DONE && keeper_next_number(&keeper) == 0);
    CHECK(keeper_create(&keeper, 2, 0, 0x7FFFFFFEu).refusal == KEEPER_NUMBER_GIVEN && keeper_create(&keeper, 2, 0, 0).refusal == KEEPER_NO_RANGE);
    keeper.highest[0] = 0xFFFFFFFFu; /* any value is one for restart */
    CHECK(keeper_easy_restart(&keeper).refusal == KEEPER_DONE && keeper.highest[0] == 0xFFFFFFFFu && keeper_next_number(&keeper) == 0);
    CHECK(keeper_easy_format(&keeper, parents).refusal == KEEPER_DONE && keeper.highest[0] == 0);
}

/* ── many requests in one call ── */
enum { MOST_LISTED = 20 };
static void test_lists(void)
{
    KeeperSizes sizes = sizes_of(W, R, F, S, N, Q, B);
    unsigned different = 0, refused = 0, done = 0;
    set_up(sizes);
    CHECK(keeper_format(sizes, KEEPER_LEND(parents), KEEPER_LEND_DISK(disk)).refusal == KEEPER_DONE);
    CHECK(keeper_restart(sizes, EVERYTHING).refusal == KEEPER_DONE);
    for (unsigned call = 0; call < 5000; call++) {
        KeeperRequest requests[MOST_LISTED];
        KeeperAnswer answers[MOST_LISTED + 1], last = {0, 0};
        const uint32_t count = random_below(MOST_LISTED + 1);
        memset(answers, 0x5A, sizeof answers);
        for (uint32_t at = 0; at < count; at++)
            requests[at] = any_request();
        KeeperAnswer easy = keeper_easy_apply_all(&keeper, requests, answers, count);
        for (uint32_t at = 0; at < count; at++) {
            last = keeper_apply(sizes, requests[at], EVERYTHING);
            different += last.refusal != answers[at].refusal || last.result != answers[at].result;
            refused += last.refusal != KEEPER_DONE;
            done += last.refusal == KEEPER_DONE;
        }
        different += easy.refusal != last.refusal || easy.result != last.result || answers[count].refusal != 0x5A5A5A5A || !same_tables();
    }
    CHECK(different == 0 && refused > 1000 && done > 1000);
    KeeperRequest two[2] = {{KEEPER_CLAIM, 0, 0, 0, 0}, {KEEPER_READ, 0, 0, 0, 0}};
    KeeperAnswer answers[2] = {{9, 9}, {9, 9}};
    keeper.states[0] = 9;
    CHECK(keeper_easy_apply_all(&keeper, two, answers, 2).refusal == KEEPER_NO_RULE);
    CHECK(answers[0].refusal == KEEPER_NO_RULE && answers[1].refusal == KEEPER_NO_RULE && answers[0].result == 0 && keeper.states[0] == 9);
}

/* ── the transfers ── */
static void test_transfers(void)
{
    set_up(sizes_of(W, R, F, S, N, Q, B));
    for (unsigned call = 0; call < 20000; call++) {
        by_function(any_request());
        unsigned found = 0, there = 0, wrong = 0;
        for (KeeperTransfer t = keeper_next_transfer(&keeper, 0); t.way; t = keeper_next_transfer(&keeper, t.frame + 1)) {
            const KeeperFrame *frame = keeper.frames + t.frame;
            found++;
            wrong += frame->transfer != t.way || frame->page != t.slot * N + t.page + 1 || keeper.addresses[frame->page - 1] != t.record + 1;
            wrong += t.words != keeper.frame_words + t.frame * W || keeper_frame_of(&keeper, t.slot, t.page) != t.frame;
        }
        for (size_t frame = 0; frame < F; frame++)
            there += keeper.frames[frame].transfer != 0;
        for (uint32_t slot = keeper_next_update(&keeper, 0); slot < S; slot = keeper_next_update(&keeper, slot + 1))
            wrong += !keeper.updating[slot] || keeper_image(&keeper, slot) != keeper.images + slot * N;
        if (found != there || wrong)
            CHECK(0 && "a transfer is not as the tables say");
    }
    CHECK(keeper_next_transfer(&keeper, F).way == KEEPER_NO_WAY && keeper_transfer(&keeper, F).way == KEEPER_NO_WAY);
}

/* ── the waiting line ── */
static void report_all(void)
{
    for (KeeperTransfer t = keeper_next_transfer(&keeper, 0); t.way; t = keeper_next_transfer(&keeper, t.frame + 1))
        CHECK(keeper_page_done(&keeper, (uint32_t)t.frame, 1).refusal == KEEPER_DONE);
}

/* 32 requests wait, of pages of an active design and of an empty slot. Turns, good dones, and a write to each page served: the request in place k
   leaves within 3 k turns, in order. */
static void test_line(void)
{
    enum { PLACES = sizeof memory.line / sizeof *memory.line };
    unsigned gone = 0, turns = 0, served = 0, away = 0, woven = 0;
    set_up(sizes_of(W, R, F, S, N, Q, B));
    CHECK(keeper_limit(&keeper, 0, N).refusal == KEEPER_DONE && keeper_create(&keeper, 0, 0, 7).refusal == KEEPER_DONE);
    CHECK(keeper_activate(&keeper, 0).refusal == KEEPER_DONE);
    CHECK(keeper_turn(&keeper).refusal == KEEPER_DONE && keeper_turn(&keeper).result == 0);
    for (uint32_t place = 0; place < PLACES; place++)
        CHECK(keeper_join(&keeper, place % 8 == 5, place % N).refusal == KEEPER_DONE);
    CHECK(keeper_join(&keeper, 0, 0).refusal == KEEPER_LINE_FULL && keeper_join(&keeper, S, 0).refusal == KEEPER_NO_RANGE);
    while (gone < PLACES && turns < 3 * (gone + 1)) {
        report_all();
        const uint32_t page = keeper.line[0] - 1u;
        const KeeperAnswer answer = keeper_turn(&keeper);
        turns++;
        CHECK(answer.refusal == KEEPER_DONE);
        if (answer.result == 0)
            continue;
        CHECK(page == (gone % 8 == 5 ? N : 0) + gone % N);
        gone++;
        served += answer.result == 1;
        away += answer.result == KEEPER_NO_DESIGN;
        if (answer.result == 1) /* a served page is there; the next turns may write it out */
            woven += keeper_write(&keeper, 0, page, 0, 5).refusal == KEEPER_DONE;
    }
    CHECK(gone == PLACES && served == PLACES - 4 && away == 4 && woven == served && keeper.line[0] == 0);
    CHECK(keeper_join(&keeper, 0, 0).refusal == KEEPER_DONE && keeper_easy_restart(&keeper).refusal == KEEPER_DONE && keeper.line[0] == 0);
}

static void test_text(void)
{
    CHECK(strcmp(keeper_text(KEEPER_LINE_FULL), "join: 32 pages are waiting") == 0);
    for (uint32_t a = 0; a <= KEEPER_NUMBER_HIGH; a++) {
        if (a == 23 || a == 28) { /* no call answers these */
            CHECK(strcmp(keeper_text(a), keeper_text(1000)) == 0);
            continue;
        }
        CHECK(keeper_text(a)[0] != 0 && strcmp(keeper_text(a), keeper_text(1000)) != 0);
        for (uint32_t b = 0; b < a; b++)
            if (strcmp(keeper_text(a), keeper_text(b)) == 0)
                CHECK(0 && "two refusals have one text");
    }
    CHECK(strcmp(keeper_text(KEEPER_NO_DESIGN), "the slot is empty") == 0);
}

/* ── bring and save ── */

/* The device of these tests: a step's transfer or map is made at once, and reported. */
static void report(KeeperStep step, uint32_t good)
{
    if (step.what == KEEPER_STEP_TRANSFER)
        CHECK(keeper_page_done(&keeper, step.transfer.frame, good).refusal == KEEPER_DONE);
    else if (step.what == KEEPER_STEP_MAP)
        CHECK(keeper_map_done(&keeper, step.slot, good).refusal == KEEPER_DONE);
}

static uint32_t bring(uint32_t slot, uint32_t page)
{
    KeeperStep step = keeper_bring(&keeper, slot, page);
    for (unsigned steps = 0; step.what == KEEPER_STEP_TRANSFER && steps < 20; steps++) {
        CHECK(keeper_bring(&keeper, slot, page).transfer.frame == step.transfer.frame); /* asked again, it asks for the same */
        report(step, 1);
        step = keeper_bring(&keeper, slot, page);
    }
    return step.refusal;
}

static void weave(uint32_t slot, uint32_t page, uint32_t value)
{
    CHECK(bring(slot, page) == KEEPER_DONE);
    for (uint32_t word = 0; word < keeper.sizes.words; word++)
        CHECK(keeper_write(&keeper, slot, page, word, value).refusal == KEEPER_DONE);
}

static uint32_t first_word(uint32_t slot, uint32_t page)
{
    CHECK(bring(slot, page) == KEEPER_DONE);
    return keeper_words(&keeper, slot, page) ? *keeper_words(&keeper, slot, page) : UINT32_MAX;
}

/* Saves the slot; how many transfers and maps it took, and which pages were left, one bit each. */
static unsigned transfers, maps;
static uint32_t save(uint32_t slot, uint32_t back, uint32_t good, uint32_t *left)
{
    KeeperSave state = keeper_save_begin(slot);
    state.back = back;
    transfers = maps = 0;
    *left = 0;
    for (unsigned steps = 0; steps < 100; steps++) {
        KeeperStep step = keeper_save(&keeper, &state);
        if (step.what == KEEPER_STEP_DONE)
            return KEEPER_DONE;
        if (step.what == KEEPER_STEP_REFUSED)
            return step.refusal;
        transfers += step.what == KEEPER_STEP_TRANSFER;
        maps += step.what == KEEPER_STEP_MAP;
        if (step.what == KEEPER_STEP_LEFT)
            *left |= 1u << step.page;
        report(step, step.what == KEEPER_STEP_TRANSFER ? good : 1);
    }
    CHECK(0 && "a save without end");
    return UINT32_MAX;
}

/* Power fails, nothing lands that was not reported, all designs are active again. */
static void cut(void)
{
    for (size_t number = KEEPER_DISK_COUNT; number < KEEPER_TABLE_COUNT; number++)
        memset(keeper_table(&keeper, number).at, 0xC3, keeper_table(&keeper, number).width * keeper_table(&keeper, number).count);
    CHECK(keeper_easy_restart(&keeper).refusal == KEEPER_DONE);
    for (uint32_t slot = 0; slot < keeper.sizes.slots; slot++)
        if (keeper.numbers[slot])
            CHECK(keeper_activate(&keeper, slot).refusal == KEEPER_DONE);
}

static void designs(void)
{
    set_up(sizes_of(W, R, F, S, N, Q, B));
    for (uint32_t slot = 0; slot < 2; slot++) {
        CHECK(keeper_limit(&keeper, slot, N).refusal == KEEPER_DONE);
        CHECK(keeper_create(&keeper, slot, slot, 101 + slot).refusal == KEEPER_DONE);
        CHECK(keeper_activate(&keeper, slot).refusal == KEEPER_DONE);
    }
}

static void test_bring(void)
{
    designs();
    for (uint32_t page = 0; page < N; page++)
        weave(0, page, 10 + page); /* more pages than frames */
    for (uint32_t page = 0; page < N; page++)
        CHECK(first_word(0, page) == 10 + page);
    CHECK(bring(0, N) == KEEPER_NO_RANGE && bring(S, 0) == KEEPER_NO_RANGE && bring(2, 0) == KEEPER_NO_DESIGN);
    for (uint32_t page = 0; page < F; page++)
        CHECK(bring(0, page) == KEEPER_DONE && keeper_wire(&keeper, 0, page).refusal == KEEPER_DONE);
    CHECK(bring(0, F) == KEEPER_NOTHING_TO_CLAIM);
}

static void test_save(void)
{
    uint32_t left;
    designs();
    weave(1, 0, 70); /* another mill's page stays in its frame */
    weave(0, 0, 11);
    weave(0, 1, 12);
    CHECK(save(0, 0, 1, &left) == KEEPER_DONE && left == 0 && transfers == 2 && maps == 1);
    CHECK(keeper_frame_of(&keeper, 1, 0) < F && keeper_frame_of(&keeper, 0, 0) == F);
    CHECK(!keeper.frames[keeper_frame_of(&keeper, 1, 0)].wired);
    CHECK(save(0, 0, 1, &left) == KEEPER_DONE && transfers == 0 && maps == 1);
    cut();
    CHECK(first_word(0, 0) == 11 && first_word(0, 1) == 12 && first_word(0, 2) == 0 && first_word(1, 0) == 0);

    /* page 0 changes to zeros, page 1 is wired, page 2 is new: one write, one page left */
    weave(0, 0, 0);
    weave(0, 1, 22);
    CHECK(keeper_wire(&keeper, 0, 1).refusal == KEEPER_DONE);
    weave(0, 2, 23);
    CHECK(save(0, 0, 1, &left) == KEEPER_DONE && left == 1u << 1 && transfers == 1);
    CHECK(first_word(0, 1) == 22); /* still in its frame, still changed */
    cut();
    CHECK(first_word(0, 0) == 0 && first_word(0, 1) == 12 && first_word(0, 2) == 23);

    /* a write that fails leaves its page; the next save takes it */
    weave(0, 1, 32);
    CHECK(save(0, 0, 0, &left) == KEEPER_DONE && left == 1u << 1);
    CHECK(save(0, 1, 1, &left) == KEEPER_DONE && left == 0 && transfers == 1); /* the write; the chip brings the page back */
    CHECK(keeper_frame_of(&keeper, 0, 1) < F);
    cut();
    CHECK(first_word(0, 1) == 32);

    CHECK(save(2, 0, 1, &left) == KEEPER_NO_DESIGN && save(S, 0, 1, &left) == KEEPER_NO_RANGE);
}

/* An update and a write that are under way as the save begins are ended first; a failed map done begins another update. */
static void test_save_under_way(void)
{
    uint32_t left;
    designs();
    weave(0, 0, 41);
    CHECK(keeper_update(&keeper, 0).refusal == KEEPER_DONE);
    CHECK(keeper_claim(&keeper).refusal == KEEPER_DONE);
    CHECK(save(0, 0, 1, &left) == KEEPER_DONE && left == 0 && transfers == 1 && maps == 2);
    cut();
    CHECK(first_word(0, 0) == 41);
    weave(0, 3, 42);
    KeeperSave state = keeper_save_begin(0);
    report(keeper_save(&keeper, &state), 1);
    KeeperStep step = keeper_save(&keeper, &state);
    CHECK(step.what == KEEPER_STEP_MAP);
    report(step, 0);
    step = keeper_save(&keeper, &state);
    CHECK(step.what == KEEPER_STEP_MAP);
    report(step, 1);
    CHECK(keeper_save(&keeper, &state).what == KEEPER_STEP_DONE && keeper_save(&keeper, &state).what == KEEPER_STEP_DONE);
    cut();
    CHECK(first_word(0, 3) == 42);
}

/* Pages of other designs keep their frames and their order through a save. */
static void test_save_order(void)
{
    uint32_t left;
    uint16_t before[F], after[F];
    set_up(sizes_of(W, R, F, S, N, Q, B));
    CHECK(keeper_limit(&keeper, 0, N).refusal == KEEPER_DONE);
    for (uint32_t slot = 0; slot < 2; slot++)
        CHECK(keeper_create(&keeper, slot, 0, 5 + slot).refusal == KEEPER_DONE && keeper_activate(&keeper, slot).refusal == KEEPER_DONE);
    weave(1, 0, 1);
    weave(0, 0, 2);
    weave(1, 1, 3);
    weave(1, 2, 4);
    size_t others = 0, now = 0;
    for (size_t at = 0; at < F && keeper.removal_list[at]; at++)
        if (keeper.frames[keeper.removal_list[at] - 1].page > N)
            before[others++] = keeper.frames[keeper.removal_list[at] - 1].page;
    CHECK(save(0, 0, 1, &left) == KEEPER_DONE && left == 0);
    for (size_t at = 0; at < F && keeper.removal_list[at]; at++)
        after[now++] = keeper.frames[keeper.removal_list[at] - 1].page;
    CHECK(others == 3 && now == 3 && memcmp(before, after, sizeof before[0] * 3) == 0);
}

/* A page is read and looked at while a save writes it; that write fails, and the next save takes the page. */
static void test_read_while_saved(void)
{
    uint32_t left;
    designs();
    weave(0, 0, 51);
    KeeperSave state = keeper_save_begin(0);
    KeeperStep step = keeper_save(&keeper, &state);
    CHECK(step.what == KEEPER_STEP_TRANSFER && step.transfer.way == KEEPER_WRITING && step.transfer.page == 0);
    CHECK(keeper_read(&keeper, 0, 0, 0).result == 51 && keeper_words(&keeper, 0, 0) == step.transfer.words);
    CHECK(keeper_write(&keeper, 0, 0, 0, 52).refusal == KEEPER_IN_TRANSFER);
    report(step, 0);
    CHECK(keeper.frames[step.transfer.frame].used == 1);
    CHECK(save(0, 0, 1, &left) == KEEPER_DONE && left == 0 && transfers == 1);
    cut();
    CHECK(first_word(0, 0) == 51);
}

int main(void)
{
    test_place();
    test_events();
    test_format();
    test_mend();
    test_sheets();
    test_high_numbers();
    test_given_numbers();
    test_lists();
    test_transfers();
    test_line();
    test_text();
    test_bring();
    test_save();
    test_save_under_way();
    test_save_order();
    test_read_while_saved();
    free(keeper.records);
    return counted();
}
