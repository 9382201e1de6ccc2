/* Not proved: how much stack each call takes, on any processor: stack. Each call runs on a stack of its own that was filled with a pattern; the
 * deepest byte that changed counts, from the caller's frame on, so the caller's arguments are in it. It must be linked without a loader that binds at
 * a first call. tests/cross/run.py builds and runs it. */
#include <stdio.h>
#include <stdlib.h>
#include <ucontext.h>
#include "lists.h"

enum { STACK = 1 << 16, PATTERN = 0xC3, LIST = 20, KINDS = 32 };
enum { APPLY, APPLY_ALL, PAGE_LOOK, RESTART, MEND, FORMAT, EXPORT, IMPORT, CALLS };
static const char *const names[CALLS] = {"keeper_apply", "keeper_apply_all", "keeper_page_look", "keeper_restart", "keeper_mend", "keeper_format",
                                         "keeper_export", "keeper_import"};

static Keeper keeper;
static KeeperRequest requests[LIST];
static KeeperAnswer answers[LIST];
static KeeperChange changes[KEEPER_MOST_SLOTS * (KEEPER_MOST_PAGES + 2)];
static uint8_t sheet[KEEPER_SHEET_BYTES(KEEPER_MOST_PAGES, KEEPER_MOST_WORDS)];
static size_t sheet_bytes;
static unsigned long done[KINDS], carried[CALLS];

static void apply(void)
{
    answers[0] = keeper_easy_apply(&keeper, requests[0]);
}

static void apply_all(void)
{
    keeper_easy_apply_all(&keeper, requests, answers, LIST);
}

static void page_look(void)
{
    answers[0].refusal = keeper_easy_page_look(&keeper, requests[0].first, requests[0].second).refusal;
}

static void restart(void)
{
    answers[0] = keeper_easy_restart(&keeper);
}

static void mend(void)
{
    answers[0] = keeper_easy_mend(&keeper, changes, sizeof changes / sizeof *changes);
}

static void format(void)
{
    answers[0] = keeper_easy_format(&keeper, NULL);
}

static void export_one(void)
{
    answers[0] = keeper_easy_export(&keeper, 0, sheet, sizeof sheet);
}

static void import_one(void)
{
    answers[0] = keeper_easy_import(&keeper, keeper.sizes.slots - 1, keeper.sizes.accounts - 1, 78, sheet, sheet_bytes);
}

static void (*const calls[CALLS])(void) = {apply, apply_all, page_look, restart, mend, format, export_one, import_one};
static void (*volatile call)(void);
static unsigned char stack[STACK] __attribute__((aligned(16)));
static volatile uintptr_t top;
static ucontext_t outside, inside;

/* The caller: what is below its frame is the call's. */
static void caller(void)
{
    volatile unsigned char here = 0;
    top = (uintptr_t)&here;
    call();
}

/* The bytes that a call takes, as a multiple of 16; the stack is filled again. */
static size_t taken(void (*wanted)(void))
{
    size_t lowest = 0;
    call = wanted;
    getcontext(&inside);
    inside.uc_stack.ss_sp = stack;
    inside.uc_stack.ss_size = STACK;
    inside.uc_link = &outside;
    makecontext(&inside, caller, 0);
    swapcontext(&outside, &inside);
    while (lowest < STACK && stack[lowest] == PATTERN)
        lowest++;
    memset(stack + lowest, PATTERN, STACK - lowest);
    return ((size_t)(top - (uintptr_t)stack) - lowest + 15) / 16 * 16;
}

/* Requests, of which none gives a limit to an account above 0: so who pays is looked for all the way up. */
static void some_requests(void)
{
    for (size_t at = 0; at < LIST; at++) {
        requests[at] = some_request(&keeper);
        if (requests[at].kind == KEEPER_LIMIT)
            requests[at].second *= requests[at].first == 0;
    }
}

/* A design of the account that is farthest from account 0. */
static void farthest(void)
{
    keeper_limit(&keeper, 0, 0xFFFF);
    keeper_create(&keeper, 0, (uint32_t)keeper.sizes.accounts - 1, 77);
    keeper_activate(&keeper, 0);
}

/* The design in slot 0 with a word on each page, as many as there are records for, at rest. */
static void woven(void)
{
    keeper_easy_format(&keeper, NULL);
    for (size_t page = 0; page < keeper.sizes.pages && page < keeper.sizes.records / 2; page++) {
        keeper.maps[page] = (uint16_t)(page + 1);
        keeper.records[page * keeper.sizes.words] = 1;
    }
    keeper.numbers[0] = 77;
    for (uint16_t account = 1; account < keeper.sizes.accounts; account++)
        keeper.parents[account] = (uint16_t)(account - 1);
    keeper.limits[0] = 0xFFFF;
    keeper_easy_restart(&keeper);
}

/* A sheet, measured, and an import of it, for the account that is farthest from account 0. */
static void carry(size_t most[CALLS])
{
    for (unsigned which = EXPORT; which <= IMPORT; which++) {
        const size_t bytes_of = taken(calls[which]);
        most[which] = bytes_of > most[which] ? bytes_of : most[which];
        carried[which] += answers[0].refusal == KEEPER_DONE;
        sheet_bytes = which == EXPORT ? answers[0].result : sheet_bytes;
    }
}

/* The most of each call over so many rounds of these sizes. */
static void run(KeeperSizes sizes, unsigned rounds, size_t most[CALLS], void *block, size_t bytes)
{
    new_disk(&keeper, sizes, block, bytes);
    farthest();
    for (unsigned round = 0; round < rounds; round++) {
        static const uint8_t order[] = {APPLY, APPLY, APPLY, APPLY, APPLY_ALL, PAGE_LOOK};
        const unsigned which = below(100) != 0 ? order[below(sizeof order)] : RESTART + below(3);
        some_requests();
        const size_t bytes_of = taken(calls[which]);
        most[which] = bytes_of > most[which] ? bytes_of : most[which];
        done[requests[0].kind % KINDS] += which == APPLY && answers[0].refusal == KEEPER_DONE;
        if (which > RESTART)
            keeper_easy_restart(&keeper);
        if (which >= RESTART)
            farthest();
    }
    for (unsigned round = 0; round < 20; round++) {
        woven();
        carry(most);
    }
}

static unsigned missing(void)
{
    unsigned count = 0;
    for (unsigned kind = 1; kind <= KEEPER_TURN; kind++)
        if (kind != 16 && done[kind] == 0)
            printf("kind %u was never carried out\n", kind), count++;
    for (unsigned which = EXPORT; which <= IMPORT; which++)
        if (carried[which] < 40)
            printf("%s was carried out %lu times\n", names[which], carried[which]), count++;
    return count;
}

int main(void)
{
    const KeeperSizes small = {4, 33, 5, 4, 9, KEEPER_MOST_ACCOUNTS, 6},
                      largest = {KEEPER_MOST_WORDS, KEEPER_MOST_RECORDS, KEEPER_MOST_FRAMES, KEEPER_MOST_SLOTS, KEEPER_MOST_PAGES, KEEPER_MOST_ACCOUNTS,
                                 KEEPER_MOST_CHIP};
    const size_t bytes = keeper_workspace(largest);
    size_t most[CALLS] = {0};
    void *block = malloc(bytes);
    if (block == NULL)
        return 2;
    memset(stack, PATTERN, STACK);
    run(small, 40000, most, block, bytes);
    run(largest, 1000, most, block, bytes);
    free(block);
    for (unsigned which = 0; which < CALLS; which++)
        printf("%s %zu\n", names[which], most[which]);
    return missing() != 0;
}
