/* Not proved, tested by tests/firmware.sh. A mill divides the pages that it rents among its three studios: who pays, what a move does, and what it is refused for.
 *   python3 tools/prove.py --lib keeper && cc -std=c11 -Wall -Iinclude examples/studios.c target/staticlib/libkeeper.a -o target/studios && target/studios */
#include <stdio.h>
#include <stdlib.h>
#include "keeper_easy.h"

enum { HOUSE, MILL, NORTH, SOUTH, EAST, ACCOUNTS };
static const char *const names[ACCOUNTS] = {"house", "mill", "north", "south", "east"};
static const uint16_t parents[ACCOUNTS] = {HOUSE, HOUSE, MILL, MILL, MILL};
static const KeeperSizes sizes = {.words = 1, .records = 16, .frames = 16, .slots = 3, .pages = 6, .accounts = ACCOUNTS, .chip = 1};
static Keeper keeper;
static uint32_t woven[ACCOUNTS]; /* pages of each studio's design */

static void print_numbers(const char *what, const uint16_t *numbers)
{
    printf("%s", what);
    for (size_t account = 0; account < ACCOUNTS; account++)
        printf(" %u", (unsigned)numbers[account]);
}

/* What was asked for, what came of it, and the limits and used counts of all accounts. */
static void show(const char *what, KeeperAnswer answer)
{
    printf("%s: %u, %s", what, (unsigned)answer.refusal, keeper_text(answer.refusal));
    print_numbers("; limits", keeper.limits);
    print_numbers("; used", keeper.used);
    puts("");
}

static void limit(uint32_t account, uint32_t pages)
{
    char what[80];
    snprintf(what, sizeof what, "limit of the %s %u", names[account], (unsigned)pages);
    show(what, keeper_limit(&keeper, account, pages));
}

static void move(uint32_t giver, uint32_t taker, uint32_t pages)
{
    char what[80];
    snprintf(what, sizeof what, "move %u from %s to %s", (unsigned)pages, names[giver], names[taker]);
    show(what, keeper_move(&keeper, giver, taker, pages));
}

/* The studio's design gets so many pages more: each is brought in, and its first word written. */
static void weave(uint32_t studio, uint32_t pages)
{
    char what[80];
    const uint32_t slot = studio - NORTH;
    KeeperAnswer answer = {0, 0};
    for (uint32_t page = 0; page < pages && answer.refusal == KEEPER_DONE; page++) {
        keeper_fault(&keeper, slot, woven[studio]);
        answer = keeper_write(&keeper, slot, woven[studio], 0, 9);
        woven[studio] += answer.refusal == KEEPER_DONE;
    }
    snprintf(what, sizeof what, "%s weaves %u", names[studio], (unsigned)pages);
    show(what, answer);
}

int main(void)
{
    const size_t bytes = keeper_workspace(sizes);
    if (keeper_place(&keeper, sizes, malloc(bytes), bytes) != KEEPER_PLACED || keeper_easy_format(&keeper, parents).refusal != KEEPER_DONE
        || keeper_easy_restart(&keeper).refusal != KEEPER_DONE)
        return 1;
    printf("accounts");
    for (size_t account = 0; account < ACCOUNTS; account++)
        printf(" %s", names[account]);
    print_numbers("; parents", keeper.parents);
    puts("");
    for (uint32_t studio = NORTH; studio <= EAST; studio++)
        if (keeper_create(&keeper, studio - NORTH, studio, 100 + studio).refusal || keeper_activate(&keeper, studio - NORTH).refusal)
            return 1;
    limit(MILL, 10);
    weave(EAST, 1); /* limit 0: the mill pays */
    move(MILL, NORTH, 4);
    move(MILL, SOUTH, 3);
    weave(NORTH, 2);
    weave(SOUTH, 4);       /* the fourth page is one too many */
    move(NORTH, SOUTH, 1); /* two studios: only by the mill */
    move(NORTH, MILL, 1);
    move(MILL, SOUTH, 1);
    weave(SOUTH, 1);
    move(SOUTH, MILL, 1); /* it has used all that it has */
    move(NORTH, MILL, 3); /* all: from now on the mill pays for its pages */
    free(keeper.records);
    return 0;
}
