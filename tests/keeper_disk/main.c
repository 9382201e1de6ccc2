/* Not proved: the tests of include/keeper_disk.h. keeper_disk LISTS [SEED [DEPTH]]: plain ones; every path of one store of each kind; cuts in a format; fallen
 * bits; so many random lists; and each wrong driver, which must be caught. */
#include <stdio.h>
#include <stdlib.h>
#include "board.h"

static unsigned passed, failed;

static void count_one(int good, const char *what)
{
    passed += (unsigned)good;
    failed += (unsigned)!good;
    if (!good)
        printf("failed: %s\n", what);
}

static void all_kinds(int depth)
{
    for (size_t kind = 0; kind < kinds_count && !(wrong && broken_promises); kind++) {
        const unsigned long before = broken_promises, first = opens, first_cuts = cuts;
        attack(kinds + kind, depth);
        if (wrong)
            continue;
        printf("%s: %lu cuts, %lu opens, %lu broken promises\n", kinds[kind].name, cuts - first_cuts, opens - first, broken_promises - before);
        count_one(broken_promises == before, kinds[kind].name);
    }
}

/* Which of the tests catch a wrong driver. */
static void catch_one(int which, uint64_t seed)
{
    unsigned long caught[3];
    wrong = which;
    broken_promises = 0, all_kinds(1), caught[0] = broken_promises;
    broken_promises = 0, run_lists(400, seed), caught[1] = broken_promises;
    broken_promises = 0, attack_format(), caught[2] = broken_promises;
    broken_promises = 0, wrong = WRONG_NONE;
    printf("wrong, %s: %s%s%s\n", wrong_name(which), caught[0] ? "caught by a path" : "no path catches it", caught[1] ? ", by a list" : "", caught[2] ? ", by a format" : "");
    count_one(caught[0] != 0, wrong_name(which));
}

int main(int count, char **words)
{
    const unsigned lists = count > 1 ? (unsigned)strtoul(words[1], NULL, 10) : 300;
    const uint64_t seed = count > 2 ? strtoull(words[2], NULL, 10) : 1;
    const int depth = count > 3 ? atoi(words[3]) : 1;
    plain_tests();
    count_one(broken_promises == 0, "plain tests");
    all_kinds(depth);
    unsigned long before = broken_promises;
    attack_format();
    count_one(broken_promises == before, "format");
    before = broken_promises;
    flip_bits();
    count_one(broken_promises == before, "bits");
    before = broken_promises;
    const unsigned long first = opens, first_cuts = cuts;
    run_lists(lists, seed);
    printf("%u lists: %lu cuts, %lu opens, %lu broken promises\n", lists, cuts - first_cuts, opens - first, broken_promises - before);
    count_one(broken_promises == before, "lists");
    for (int which = 1; which < WRONG_COUNT; which++)
        catch_one(which, seed);
    printf("%u passed, %u failed\n", passed, failed);
    return failed != 0;
}
