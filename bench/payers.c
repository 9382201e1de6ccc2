/* Who pays for each of 64 slots, alone: the proved table of payers (alone.txt), and the same by the C port's payer_of. bench/run.py builds it and
   makes the table. payers SECONDS prints the least times in nanoseconds of one table; payers makes each call once, for callgrind to count. */
#include <stdbool.h>
#include <stdio.h>
#include <stdlib.h>
#include <string.h>
#include "inside.h"
#include "clock.h"

void proved_payers(const uint16_t *parents, size_t parents_count, const uint16_t *limits, size_t limits_count, const uint16_t *accounts, size_t accounts_count,
                   uint16_t *table, size_t table_count);

enum { S = MOST_SLOTS, Q = MOST_ACCOUNTS, SIDES = 2, MANY = 100, LIMITED = 0, SPREAD = 1, LAST = 2, CASES = 3 };
static const char *const names[CASES] = {"every account has a limit", "a chain of 15 accounts, four slots each", "a chain of 15 accounts, all slots in the last"};

static uint16_t parents[Q], limits[Q], accounts[S], tables[SIDES][S];
static struct keeper keeper = {
    .sizes = {1, 1, 1, S, 1, Q, 1},
    .disk = {.accounts = {accounts, S}, .limits = {limits, Q}, .parents = {parents, Q}},
};

static void fill(int number)
{
    for (size_t account = 0; account < Q; account++) {
        parents[account] = (uint16_t)(account == 0 ? 0 : account - 1);
        limits[account] = number == LIMITED;
    }
    for (size_t slot = 0; slot < S; slot++)
        accounts[slot] = (uint16_t)(number == LAST ? Q - 1 : slot % Q);
}

/* A side's table, from zeros. */
__attribute__((noinline)) static void call(int side)
{
    uint16_t *table = tables[side];
    memset(table, 0, sizeof tables[side]);
    if (side == 0)
        proved_payers(parents, Q, limits, Q, accounts, S, table, S);
    else
        for (size_t slot = 0; slot < S; slot++)
            table[slot] = (uint16_t)payer_of(&keeper, slot);
    __asm__ volatile("" : : "r"(table) : "memory");
}

static void check(void)
{
    for (int side = 0; side < SIDES; side++)
        call(side);
    if (memcmp(tables[0], tables[1], sizeof tables[0]) == 0)
        return;
    fprintf(stderr, "payers: other accounts\n");
    exit(1);
}

static void measure(const char *name, double allowed)
{
    double least[SIDES] = {1e9, 1e9};
    const double begun = seconds();
    while (seconds() - begun < allowed)
        for (int side = 0; side < SIDES; side++) {
            const double before = seconds();
            for (int k = 0; k < MANY; k++)
                call(side);
            const double took = (seconds() - before) * 1e9 / MANY;
            least[side] = took < least[side] ? took : least[side];
        }
    printf("%s\t%.1f\t%.1f\n", name, least[0], least[1]);
}

static void counted(const char *name)
{
    for (int side = 0; side < SIDES; side++) {
        callgrind(START);
        call(side);
        callgrind(STOP);
        callgrind(DUMP);
    }
    printf("%s\n", name);
}

int main(int words, char **word)
{
    for (int number = 0; number < CASES; number++) {
        fill(number);
        check();
        if (words > 1)
            measure(names[number], atof(word[1]) / CASES);
        else
            counted(names[number]);
    }
    return 0;
}
