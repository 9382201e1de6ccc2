/* Not proved, tested by tools/test_timeline.py: runs a list of events through the library and tells everything that is lent after each, and what
 * every page would read after a cut there, for each choice of what lands. Reads lines 'kind first second third fourth' (kind 16: a cut at which
 * nothing lands, and a restart), at the event program's sizes; prints a JSON array, one object for the start and one for each event.
 * timeline ROW CHOICE: only what the pages read after a cut behind that row, a line for each page. */
#include <stdio.h>
#include <stdlib.h>
#include "keeper_easy.h"

enum { CUT = 16, MOST_OPEN = 64 };

static const KeeperSizes sizes = {.words = 2, .records = 4, .frames = 2, .slots = 2, .pages = 3, .accounts = 1, .chip = 2};
static Keeper keeper;

static Keeper new_keeper(void)
{
    Keeper made;
    const size_t bytes = keeper_workspace(sizes);
    void *block = malloc(bytes);
    if (block == NULL || keeper_place(&made, sizes, block, bytes) != KEEPER_PLACED)
        exit(1);
    return made;
}

static void lose_memory(Keeper *of)
{
    for (size_t number = KEEPER_DISK_COUNT; number < KEEPER_TABLE_COUNT; number++) {
        KeeperTable table = keeper_table(of, number);
        memset(table.at, 0xA5, table.width * table.count);
    }
}

/* ── what is open, and what lands ── */
typedef struct {
    int is_map;
    KeeperTransfer write;
    uint32_t slot;
} Open;

static size_t all_open(Open *open)
{
    size_t count = 0;
    for (KeeperTransfer t = keeper_next_transfer(&keeper, 0); t.way; t = keeper_next_transfer(&keeper, t.frame + 1))
        if (t.way == KEEPER_WRITING) {
            open[count].is_map = 0, open[count].write = t, open[count].slot = t.slot;
            count++;
        }
    for (uint32_t slot = keeper_next_update(&keeper, 0); slot < sizes.slots; slot = keeper_next_update(&keeper, slot + 1)) {
        memset(open + count, 0, sizeof *open);
        open[count].is_map = 1, open[count].slot = slot;
        count++;
    }
    return count;
}

/* A copy of the disk part with what lands on it: bit b of the choice is the open transfer b. */
static void land(Keeper *copy, const Open *open, size_t count, unsigned choice)
{
    for (size_t number = 0; number < KEEPER_DISK_COUNT; number++) {
        KeeperTable from = keeper_table(&keeper, number);
        memcpy(keeper_table(copy, number).at, from.at, from.width * from.count);
    }
    for (size_t at = 0; at < count; at++) {
        if ((choice >> at & 1) == 0)
            continue;
        if (open[at].is_map)
            memcpy(copy->maps + open[at].slot * sizes.pages, keeper_image(&keeper, open[at].slot), sizes.pages * sizeof *copy->maps);
        else
            memcpy(copy->records + open[at].write.record * sizes.words, open[at].write.words, sizes.words * sizeof *copy->records);
    }
}

/* A page after the cut, by the library: restart, activate, fault, done, look. Its words, or none and the refusal. */
static const uint32_t *read_back(Keeper *copy, uint32_t slot, uint32_t page, uint32_t *refusal)
{
    lose_memory(copy);
    *refusal = keeper_easy_restart(copy).refusal;
    if (*refusal == KEEPER_DONE)
        *refusal = keeper_limit(copy, copy->accounts[slot], 65535).refusal; /* the limit is not what is asked about */
    if (*refusal == KEEPER_DONE)
        *refusal = keeper_activate(copy, slot).refusal;
    while (*refusal == KEEPER_DONE) {
        KeeperStep step = keeper_bring(copy, slot, page);
        *refusal = step.refusal;
        if (step.what != KEEPER_STEP_TRANSFER)
            break;
        keeper_page_done(copy, step.transfer.frame, 1);
    }
    return *refusal == KEEPER_DONE ? keeper_words(copy, slot, page) : NULL;
}

/* ── JSON ── */
static void print_table(const char *name, KeeperTable table)
{
    printf("\"%s\":[", name);
    for (size_t at = 0; at < table.count; at++) {
        const unsigned char *entry = (const unsigned char *)table.at + at * table.width;
        uint32_t value = 0;
        memcpy(&value, entry, table.width < 4 ? table.width : 4);
        printf("%s%u", at ? "," : "", (unsigned)value);
    }
    printf("],");
}

static void print_frames(void)
{
    printf("\"frames\":[");
    for (size_t at = 0; at < sizes.frames; at++) {
        const KeeperFrame *f = keeper.frames + at;
        printf("%s{\"page\":%u,\"used\":%u,\"modified\":%u,\"wired\":%u,\"initial\":%u,\"transfer\":%u}", at ? "," : "", f->page, f->used, f->modified,
               f->wired, f->initial, f->transfer);
    }
    printf("],\"pool\":{\"hand\":%u,\"free\":%u},", (unsigned)keeper.pool->hand, (unsigned)keeper.pool->free);
}

static void print_read(Keeper *copy, uint32_t slot, uint32_t page)
{
    uint32_t refusal;
    const uint32_t *words = read_back(copy, slot, page, &refusal);
    printf("{\"slot\":%u,\"page\":%u,\"number\":%u,\"listed\":%u,\"refusal\":%u,\"words\":[", slot, page, (unsigned)copy->numbers[slot],
           copy->maps[slot * sizes.pages + page], (unsigned)refusal);
    for (size_t word = 0; words && word < sizes.words; word++)
        printf("%s%u", word ? "," : "", (unsigned)words[word]);
    printf("]}");
}

static void print_cuts(Keeper *copy)
{
    Open open[MOST_OPEN];
    const size_t count = all_open(open);
    printf("\"open\":[");
    for (size_t at = 0; at < count; at++)
        printf(open[at].is_map ? "%s{\"map\":%u}" : "%s{\"slot\":%u,\"page\":%u,\"record\":%u}", at ? "," : "", open[at].slot, open[at].write.page,
               open[at].write.record);
    printf("],\"cuts\":[");
    for (unsigned choice = 0; choice < 1u << count; choice++) {
        int any = 0;
        printf("%s[", choice ? "," : "");
        land(copy, open, count, choice);
        for (uint32_t slot = 0; slot < sizes.slots; slot++)
            for (uint32_t page = 0; page < sizes.pages && copy->numbers[slot]; page++) {
                printf(any++ ? "," : "");
                print_read(copy, slot, page);
            }
        printf("]");
    }
    printf("]");
}

static void print_row(const KeeperRequest *request, KeeperAnswer answer, Keeper *copy)
{
    printf("{\"kind\":%u,\"refusal\":%u,\"result\":%u,", (unsigned)request->kind, (unsigned)answer.refusal, (unsigned)answer.result);
    for (size_t number = 0; number < KEEPER_TABLE_COUNT; number++)
        if (number != KEEPER_TABLE_FRAMES && number != KEEPER_TABLE_POOL)
            print_table(keeper_table(&keeper, number).name, keeper_table(&keeper, number));
    print_frames();
    print_cuts(copy);
    printf("}");
}

/* ── one choice alone, for the test ── */
static void print_choice(Keeper *copy, unsigned choice)
{
    Open open[MOST_OPEN];
    land(copy, open, all_open(open), choice);
    for (uint32_t slot = 0; slot < sizes.slots; slot++)
        for (uint32_t page = 0; page < sizes.pages && copy->numbers[slot]; page++) {
            uint32_t refusal;
            const uint32_t *words = read_back(copy, slot, page, &refusal);
            printf("%u %u:", (unsigned)copy->numbers[slot], page);
            for (size_t word = 0; words && word < sizes.words; word++)
                printf(" %u", (unsigned)words[word]);
            puts(words ? "" : " none");
        }
}

static KeeperAnswer carry_out(const KeeperRequest *request)
{
    if (request->kind != CUT)
        return keeper_easy_apply(&keeper, *request);
    lose_memory(&keeper);
    return keeper_easy_restart(&keeper);
}

int main(int count, char **words)
{
    unsigned kind, values[4];
    const unsigned long wanted = count == 3 ? strtoul(words[1], NULL, 10) : 0;
    KeeperRequest request = {0, 0, 0, 0, 0};
    KeeperAnswer answer = {0, 0};
    keeper = new_keeper();
    Keeper copy = new_keeper();
    if (keeper_easy_format(&keeper, NULL).refusal != KEEPER_DONE || keeper_easy_restart(&keeper).refusal != KEEPER_DONE)
        return 1;
    for (unsigned long row = 0;; row++) {
        if (count != 3)
            printf(row ? ",\n" : "["), print_row(&request, answer, &copy);
        else if (row == wanted)
            print_choice(&copy, (unsigned)strtoul(words[2], NULL, 10));
        if (scanf("%u %u %u %u %u", &kind, values, values + 1, values + 2, values + 3) != 5)
            break;
        request.kind = kind, request.first = values[0], request.second = values[1], request.third = values[2], request.fourth = values[3];
        answer = carry_out(&request);
    }
    if (count != 3)
        puts("]");
    free(keeper.records);
    free(copy.records);
    return 0;
}
