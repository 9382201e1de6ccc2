/* Mending the disk part: five passes, one a step of the paper. */
#include "inside.h"

/* Where the next change goes. */
struct listing { struct change *next; };

static void list(struct listing *l, size_t slot, size_t page, uint32_t old, uint32_t reason)
{
    *l->next++ = (struct change){(uint32_t)slot, (uint32_t)page, old, reason};
}

static void clear_account(struct keeper *k, struct listing *l, size_t slot, uint32_t reason)
{
    uint16_t *account = &k->disk.accounts.at[slot];
    if (*account != 0)
        list(l, slot, k->sizes.pages, *account, reason);
    *account = 0;
}

/* The entries of a slot above a most. */
static void clear_above(struct keeper *k, struct listing *l, size_t slot, size_t most, uint32_t reason)
{
    uint16_t *map = k->disk.maps.at + slot * k->sizes.pages;
    for (size_t page = 0; page < k->sizes.pages; page++)
        if (map[page] > most) {
            list(l, slot, page, map[page], reason);
            map[page] = 0;
        }
}

static bool stands_lower(const struct disk *d, size_t slot)
{
    for (size_t lower = 0; lower < slot; lower++)
        if (d->numbers.at[lower] == d->numbers.at[slot])
            return true;
    return false;
}

static void equal_numbers(struct keeper *k, struct listing *l)
{
    uint32_t *numbers = k->disk.numbers.at;
    for (size_t slot = 0; slot < k->sizes.slots; slot++)
        if (numbers[slot] != 0 && stands_lower(&k->disk, slot)) {
            list(l, slot, k->sizes.pages, numbers[slot], 1);
            numbers[slot] = 0;
            clear_account(k, l, slot, 1);
            clear_above(k, l, slot, 0, 1);
        }
}

static void empty_slots(struct keeper *k, struct listing *l)
{
    for (size_t slot = 0; slot < k->sizes.slots; slot++)
        if (k->disk.numbers.at[slot] == 0) {
            clear_account(k, l, slot, 2);
            clear_above(k, l, slot, 0, 2);
        }
}

static void accounts_and_entries(struct keeper *k, struct listing *l)
{
    for (size_t slot = 0; slot < k->sizes.slots; slot++)
        if (k->disk.accounts.at[slot] >= k->sizes.accounts)
            clear_account(k, l, slot, 3);
    for (size_t slot = 0; slot < k->sizes.slots; slot++)
        clear_above(k, l, slot, k->sizes.records, 4);
}

static void shared_records(struct keeper *k, struct listing *l)
{
    uint16_t names[MOST_RECORDS + 1] = {0};
    struct halves maps = k->disk.maps;
    for (size_t page = 0; page < maps.len; page++)
        names[maps.at[page]]++;
    for (size_t page = 0; page < maps.len; page++)
        if (maps.at[page] != 0 && names[maps.at[page]] > 1) {
            list(l, page / k->sizes.pages, page % k->sizes.pages, maps.at[page], 5);
            maps.at[page] = 0;
        }
}

struct answer keeper_mend(struct keeper *k, struct changes changes)
{
    struct listing l = {changes.at};
    if (!fits_disk(k))
        return (struct answer){.refusal = 1};
    if (changes.len < k->sizes.slots * (k->sizes.pages + 2))
        return (struct answer){.refusal = 24};
    equal_numbers(k, &l);
    empty_slots(k, &l);
    accounts_and_entries(k, &l);
    shared_records(k, &l);
    return (struct answer){.result = (uint32_t)(l.next - changes.at)};
}
