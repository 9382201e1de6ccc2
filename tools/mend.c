/* mend PACK NEW: mends a pack of the form of examples/filedisk.h that restart turns away. Not proved but for the keeper's own calls;
 * tested by tests/mend.sh. The list of changes goes to standard output; the mended pack is written to NEW, which must not be there, and PACK is
 * only read. A sound pack is said to be sound, and nothing is written. On a refusal, a pack that mending does not help (a parent that is not a
 * lower account), or a file that is no pack: a line, and status 1. */
#define _POSIX_C_SOURCE 200809L
#include "packs.h"

/* What a change is of: a page, or, listed with page N, the slot's number or its account. The number comes before the account. */
static const char *place(const KeeperChange *changes, uint32_t at, size_t pages, char text[12])
{
    const KeeperChange *change = changes + at;
    const int first = at == 0 || changes[at - 1].slot != change->slot || changes[at - 1].reason != change->reason;
    if (change->page == pages)
        return first && change->reason == KEEPER_SAME_NUMBER ? "number" : "account";
    snprintf(text, 12, "%u", (unsigned)change->page);
    return text;
}

/* The list; `numbers` are the designs' as they were, 0 for an empty slot. */
static void show(const KeeperChange *changes, uint32_t count, const uint32_t *numbers, size_t pages)
{
    char text[12];
    printf("slot design page old reason\n");
    for (uint32_t at = 0; at < count; at++) {
        const KeeperChange *change = changes + at;
        printf("%u %u %s %u %s\n", (unsigned)change->slot, (unsigned)numbers[change->slot], place(changes, at, pages, text), (unsigned)change->old,
               keeper_reason(change->reason));
    }
}

/* Mends the disk part that was read, and makes a new pack of it. Restart is only tried: the highest number is its to store, when the pack is opened. */
static int mend(Keeper *keeper, const char *pack, const char *new, KeeperChange *changes, size_t places)
{
    const uint32_t highest = keeper->highest[0];
    uint32_t numbers[KEEPER_MOST_SLOTS];
    memcpy(numbers, keeper->numbers, keeper->sizes.slots * sizeof *numbers);
    const KeeperAnswer answer = keeper_easy_mend(keeper, changes, places);
    if (answer.refusal != KEEPER_DONE)
        return complain("mend", pack, keeper_text(answer.refusal));
    if (keeper_easy_restart(keeper).refusal != KEEPER_DONE)
        return complain("mend", pack, "restart turns it away still: an account's parent is not a lower account, and mending changes no parent");
    keeper->highest[0] = highest;
    if (make_pack("mend", new, keeper) != 0)
        return 1;
    show(changes, answer.result, numbers, keeper->sizes.pages);
    fprintf(stderr, "mend: %s: %u changes; the mended pack is %s\n", pack, (unsigned)answer.result, new);
    return 0;
}

int main(int count, char **words)
{
    FileDisk disk;
    Keeper keeper;
    if (count != 3) {
        fprintf(stderr, "usage: mend PACK NEW\n");
        return 1;
    }
    if (read_pack("mend", words[1], &disk, &keeper) != 0)
        return 1;
    if (disk.version != FILEDISK_VERSION)
        return complain("mend", words[1], "it has an older layout: make convert OLD=.. NEW=.. makes a new file of it; mend that");
    if (keeper_easy_restart(&keeper).refusal == KEEPER_DONE) {
        printf("%s is sound: restart takes it as it is, nothing is written\n", words[1]);
        return 0;
    }
    const size_t places = keeper.sizes.slots * (keeper.sizes.pages + 2);
    KeeperChange *changes = malloc(places * sizeof *changes);
    return changes ? mend(&keeper, words[1], words[2], changes, places) : complain("mend", words[1], "no memory for the list of changes");
}
