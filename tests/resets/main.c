/* Not proved: resets STORES [SEED]. The processor is reset while the device's cache lives, the power is cut, syncs fail: over every path of one
 * store, of two and of an import, and over so many stores torn by chance at each of four grains. Each wrong driver must be caught. */
#include <stdio.h>
#include <stdlib.h>
#include "resets.h"

static unsigned passed, failed;

static void judge(const char *what, Found found, int wrong)
{
    const int good = found.paths > 0 && (wrong ? found.broken > 0 : found.broken == 0);
    printf("%s: %lu paths, %lu broken%s\n", what, found.paths, found.broken, good ? "" : wrong ? ": NOT CAUGHT" : ": WRONG");
    passed += (unsigned)good;
    failed += (unsigned)!good;
}

static void every_path(void)
{
    static const char *names[] = {"right", "wrong, it brings home what is not safe", "wrong, it does not write the journal again"};
    static const int drivers[] = {WRONG_NONE, WRONG_HOME_FIRST, WRONG_SYNC_ALONE};
    char what[120];
    for (size_t at = 0; at < sizeof drivers / sizeof *drivers; at++)
        for (int record = 0; record < 2; record++) {
            snprintf(what, sizeof what, "a %s, ends twice; the driver is %s", record ? "record" : "slot", names[at]);
            judge(what, paths_of_store(drivers[at], record, 2), drivers[at]);
        }
    judge("a slot, ends three times; the driver is right", paths_of_store(WRONG_NONE, 0, 3), WRONG_NONE);
    judge("two records, the second like the first behind its first sector; the driver is right", paths_of_two(WRONG_NONE), WRONG_NONE);
    judge("two records; the driver is wrong, a torn journal stays", paths_of_two(WRONG_TORN_STAYS), WRONG_TORN_STAYS);
    judge("a create, ends twice; the driver is right", paths_of_create(WRONG_NONE, 2), WRONG_NONE);
    judge("a create; the driver is wrong, it brings home what is not safe", paths_of_create(WRONG_HOME_FIRST, 2), WRONG_HOME_FIRST);
    judge("opens of an older pack, two end; the driver is right", paths_of_older(WRONG_NONE, 3), WRONG_NONE);
    judge("a format over a disk; the driver is right", paths_of_format(WRONG_NONE), WRONG_NONE);
    judge("a format over a disk; the driver is wrong, the header is not written again", paths_of_format(WRONG_HEADER_STAYS), WRONG_HEADER_STAYS);
}

static void every_import(void)
{
    static const char *names[] = {"right", "wrong, it stores the slot first", "wrong, it stores the slot in two", "wrong, it brings home what is not safe"};
    static const int drivers[] = {WRONG_NONE, WRONG_SLOT_FIRST, WRONG_SLOT_IN_TWO, WRONG_HOME_FIRST};
    char what[120];
    for (size_t at = 0; at < sizeof drivers / sizeof *drivers; at++) {
        snprintf(what, sizeof what, "an import of two pages, ends twice; the driver is %s", names[at]);
        judge(what, paths_of_import(drivers[at], 2), drivers[at]);
    }
}

static void long_run(unsigned long stores, uint64_t seed)
{
    static const size_t grains[] = {4, 64, 512, 4096};
    char what[120];
    for (size_t at = 0; at < sizeof grains / sizeof *grains; at++) {
        snprintf(what, sizeof what, "torn stores at %zu bytes; the driver is right", grains[at]);
        judge(what, torn_stores(WRONG_NONE, grains[at], stores, seed), WRONG_NONE);
    }
    judge("torn stores at 512 bytes; the driver is wrong, a torn journal stays", torn_stores(WRONG_TORN_STAYS, 512, 100000, seed), WRONG_TORN_STAYS);
}

int main(int count, char **words)
{
    const unsigned long stores = count > 1 ? strtoul(words[1], NULL, 10) : 0;
    if (stores == 0) {
        puts("resets STORES [SEED]");
        return 2;
    }
    every_path();
    every_import();
    long_run(stores, count > 2 ? strtoull(words[2], NULL, 10) : 1);
    printf("%u passed, %u failed\n", passed, failed);
    return failed != 0;
}
