/* Not proved: a digest of random calls over all tables, at sizes from all 1 to the largest: digest CALLS. What it prints must be the same for the
 * library of every processor; values go into it, not bytes, so also where the high byte is first. tests/cross/run.py builds and runs it. */
#include <stdio.h>
#include <stdlib.h>
#include "lists.h"

enum { KINDS = 34, REFUSALS = KEEPER_NUMBER_GIVEN + 1, LIST = 20, OFTEN = 400 };
/* counted as kinds, behind those of the requests */
enum { EXPORTED = KINDS - 2, IMPORTED = KINDS - 1 };

static Keeper keeper;
static uint64_t digest = 0xCBF29CE484222325u;
static unsigned long calls, done[KINDS], refused[REFUSALS];
static KeeperChange changes[KEEPER_MOST_SLOTS * (KEEPER_MOST_PAGES + 2)];
static uint8_t sheet[KEEPER_SHEET_BYTES(KEEPER_MOST_PAGES, KEEPER_MOST_WORDS)];
static size_t sheet_bytes; /* of the last one that was exported */

static void add(uint32_t value)
{
    digest = (digest ^ value) * 0x100000001B3u;
}

/* An entry of a table of numbers. */
static uint32_t entry(KeeperTable table, size_t at)
{
    return table.width == 1 ? ((uint8_t *)table.at)[at] : table.width == 2 ? ((uint16_t *)table.at)[at] : ((uint32_t *)table.at)[at];
}

static void set_entry(KeeperTable table, size_t at, uint32_t value)
{
    if (table.width == 1)
        ((uint8_t *)table.at)[at] = (uint8_t)value;
    else if (table.width == 2)
        ((uint16_t *)table.at)[at] = (uint16_t)value;
    else
        ((uint32_t *)table.at)[at] = value;
}

static void add_frame(KeeperFrame frame)
{
    add(frame.page);
    add((uint32_t)(frame.used | frame.modified << 1 | frame.wired << 2 | frame.initial << 3 | frame.transfer << 4));
}

static void add_frames(void)
{
    for (size_t frame = 0; frame < keeper.sizes.frames; frame++)
        add_frame(keeper.frames[frame]);
    add(keeper.pool->hand);
    add(keeper.pool->free);
}

/* A table of numbers, entry by entry. Frames and pool are structs: add_frames. */
static void add_table(KeeperTable table)
{
    for (size_t at = 0; table.width <= 4 && at < table.count; at++)
        add(entry(table, at));
}

static void add_tables(void)
{
    for (size_t number = 0; number < KEEPER_TABLE_COUNT; number++)
        add_table(keeper_table(&keeper, number));
    add_frames();
}

static void add_answer(uint32_t kind, KeeperAnswer answer)
{
    add(answer.refusal);
    add(answer.result);
    calls++;
    refused[answer.refusal % REFUSALS]++;
    done[kind % KINDS] += answer.refusal == KEEPER_DONE;
}

static void one(void)
{
    const KeeperRequest request = some_request(&keeper);
    add_answer(request.kind, keeper_easy_apply(&keeper, request));
}

static void list(void)
{
    KeeperRequest requests[LIST];
    KeeperAnswer answers[LIST];
    const size_t count = below(LIST + 1);
    for (size_t at = 0; at < count; at++)
        requests[at] = some_request(&keeper);
    add_answer(0, keeper_easy_apply_all(&keeper, requests, answers, count));
    for (size_t at = 0; at < count; at++)
        add_answer(requests[at].kind, answers[at]);
}

static void look(void)
{
    const uint32_t slot = near(keeper.sizes.slots), page = near(keeper.sizes.pages);
    const KeeperPart part = keeper_easy_page_look(&keeper, slot, page);
    add((uint32_t)part.start);
    add_answer(0, (KeeperAnswer){part.refusal, (uint32_t)part.count});
}

/* A sheet of a design, now and then into a short buffer. */
static void export_one(void)
{
    const size_t room = below(4) != 0 ? sizeof sheet : below(40);
    const KeeperAnswer answer = keeper_easy_export(&keeper, near(keeper.sizes.slots), sheet, room);
    add_answer(EXPORTED, answer);
    sheet_bytes = answer.refusal == KEEPER_DONE ? answer.result : sheet_bytes;
    for (size_t at = 0; at < answer.result; at++)
        add(sheet[at]);
}

/* The last sheet, also of a keeper of other sizes, now and then cut short or with a wrong bit, into some slot. */
static void import_one(void)
{
    const size_t count = below(8) != 0 ? sheet_bytes : below((uint32_t)sheet_bytes + 1), hurt = below(60);
    const uint8_t was = sheet[hurt];
    const uint32_t slot = near(keeper.sizes.slots), account = near(keeper.sizes.accounts), number = some_number(&keeper);
    if (below(6) == 0)
        sheet[hurt] ^= (uint8_t)(1 << below(8));
    add_answer(IMPORTED, keeper_easy_import(&keeper, slot, account, number, sheet, count));
    sheet[hurt] = was;
}

/* The power fails: memory is lost. */
static void cut(void)
{
    for (size_t number = KEEPER_DISK_COUNT; number < KEEPER_TABLE_COUNT; number++) {
        const KeeperTable table = keeper_table(&keeper, number);
        memset(table.at, 0x5A, table.width * table.count);
    }
    add_answer(0, keeper_easy_restart(&keeper));
}

/* A call over tables of which one entry is another, or with sizes out of limits; then as before. */
static void damaged(void)
{
    const KeeperTable table = keeper_table(&keeper, below(KEEPER_TABLE_COUNT));
    const KeeperSizes sizes = keeper.sizes;
    const KeeperRequest request = some_request(&keeper);
    const size_t at = below((uint32_t)table.count);
    const uint32_t was = table.width <= 4 ? entry(table, at) : 0;
    if (table.width > 4)
        keeper.sizes.slots = below(2) != 0 ? 0 : KEEPER_MOST_SLOTS + 1;
    else
        set_entry(table, at, was + 1 + below(300));
    const KeeperAnswer answer = keeper_easy_apply(&keeper, request);
    add_answer(0, answer);
    keeper.sizes = sizes;
    if (table.width <= 4 && answer.refusal == KEEPER_NO_RULE)
        set_entry(table, at, was);
}

/* A pack as another program left it, without the highest number too, mended, now and then with a list that is too short first; then a restart. */
static void mend(void)
{
    const size_t places = keeper.sizes.slots * (keeper.sizes.pages + 2);
    const KeeperTable table = keeper_table(&keeper, KEEPER_TABLE_NUMBERS + below(3));
    const uint32_t at = below((uint32_t)table.count), value = below(6);
    set_entry(table, at, value);
    keeper.highest[0] = below(6);
    if (below(4) == 0)
        add_answer(0, keeper_easy_mend(&keeper, changes, places - 1));
    const KeeperAnswer answer = keeper_easy_mend(&keeper, changes, places);
    add_answer(0, answer);
    for (uint32_t listed = 0; listed < answer.result; listed++) {
        add(changes[listed].slot << 16 | changes[listed].page);
        add(changes[listed].old << 3 | changes[listed].reason);
    }
    cut();
}

static void step(void)
{
    const uint32_t what = below(OFTEN);
    if (what == 0)
        cut();
    else if (what == 1)
        mend();
    else if (what < 8)
        damaged();
    else if (what < 12)
        export_one();
    else if (what < 16)
        import_one();
    else if (what < 32)
        look();
    else if (what < 48)
        list();
    else
        one();
}

/* So many calls at these sizes; all tables go into the digest after every call, or after every hundredth where they are large. */
static void run(KeeperSizes sizes, unsigned long most, void *block, size_t bytes)
{
    const unsigned long each = keeper_workspace(sizes) < 2000 ? 1 : 100, end = calls + most;
    add_answer(0, new_disk(&keeper, sizes, block, bytes));
    while (calls < end) {
        step();
        if (calls % each == 0)
            add_tables();
    }
    add_tables();
    printf("W %u R %u F %u S %u N %u Q %u B %u: %016llX\n", (unsigned)sizes.words, (unsigned)sizes.records, (unsigned)sizes.frames,
           (unsigned)sizes.slots, (unsigned)sizes.pages, (unsigned)sizes.accounts, (unsigned)sizes.chip, (unsigned long long)digest);
}

/* How many kinds were carried out fewer than ten times, and refusals never given. */
static unsigned missing(void)
{
    unsigned count = 0;
    for (unsigned number = 1; number < REFUSALS; number++) {
        const int is_kind = (number <= KEEPER_TURN && number != 16) || number >= EXPORTED, is_refusal = number != 23 && number != 28;
        if ((is_kind && done[number] < 10) || (is_refusal && refused[number] == 0))
            printf("%u: carried out %lu times, refused %lu times\n", number, done[number], refused[number]), count++;
    }
    return count;
}

int main(int count, char **words)
{
    static const KeeperSizes all[] = {
        {1, 1, 1, 1, 1, 1, 1}, {2, 4, 2, 2, 3, 1, 2}, {3, 9, 3, 3, 5, 4, 3}, {4, 33, 5, 4, 9, 5, 1}, {1, 70, 6, 7, 12, 16, 9}, {16, 200, 16, 8, 40, 6, 33},
        {KEEPER_MOST_WORDS, KEEPER_MOST_RECORDS, KEEPER_MOST_FRAMES, KEEPER_MOST_SLOTS, KEEPER_MOST_PAGES, KEEPER_MOST_ACCOUNTS, KEEPER_MOST_CHIP}};
    const size_t runs = sizeof all / sizeof *all, bytes = keeper_workspace(all[runs - 1]);
    const unsigned long most = count == 2 ? strtoul(words[1], NULL, 10) : 0;
    void *block = malloc(bytes);
    if (most == 0 || block == NULL)
        return puts("digest CALLS"), 2;
    for (size_t number = 0; number < runs; number++)
        run(all[number], number + 1 < runs ? most / 6 : most / 100, block, bytes);
    free(block);
    printf("%lu calls\n", calls);
    return missing() != 0;
}
