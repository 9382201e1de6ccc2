/* Accounts: what each pays for, and the events limit and move. */
#include <string.h>
#include "inside.h"

/* The pages of a slot that its account's payer pays for. */
static uint32_t charged_pages(const struct keeper *k, size_t slot)
{
    size_t start = slot * k->sizes.pages;
    uint32_t count = 0;
    if (!k->memory.active.at[slot]) {
        for (size_t page = start; page < start + k->sizes.pages; page++)
            count += k->disk.maps.at[page] != 0;
        return count;
    }
    for (size_t page = start; page < start + k->sizes.pages; page++)
        count += holds(k, page, LIVE);
    for (size_t f = 0; f < k->sizes.frames; f++) {
        const struct frame *frame = &k->memory.frames.at[f];
        size_t page = frame->page - 1u;
        if (frame->page != 0 && frame->modified && page / k->sizes.pages == slot)
            count += !holds(k, page, LIVE);
    }
    return count;
}

/* Each account's used count by these limits, worked out afresh. */
static void count_used(const struct keeper *k, const uint16_t *limits, uint32_t *used)
{
    memset(used, 0, MOST_ACCOUNTS * sizeof *used);
    for (size_t slot = 0; slot < k->sizes.slots; slot++)
        used[payer(k, limits, k->disk.accounts.at[slot])] += charged_pages(k, slot);
}

static void put_counts(struct keeper *k, const uint32_t *used)
{
    for (size_t account = 0; account < k->sizes.accounts; account++)
        k->memory.used.at[account] = (uint16_t)used[account];
}

void set_limit(struct keeper *k, size_t account, uint32_t pages)
{
    uint32_t used[MOST_ACCOUNTS];
    k->disk.limits.at[account] = (uint16_t)pages;
    count_used(k, k->disk.limits.at, used);
    put_counts(k, used);
}

static void shift(const struct keeper *k, const struct request *r, uint16_t *limits)
{
    memcpy(limits, k->disk.limits.at, k->sizes.accounts * sizeof *limits);
    limits[r->first] = (uint16_t)(limits[r->first] - r->third);
    limits[r->second] = (uint16_t)(limits[r->second] + r->third);
}

void move_pages(struct keeper *k, const struct request *r)
{
    uint32_t used[MOST_ACCOUNTS];
    uint16_t limits[MOST_ACCOUNTS];
    shift(k, r, limits);
    count_used(k, limits, used);
    memcpy(k->disk.limits.at, limits, k->sizes.accounts * sizeof *limits);
    put_counts(k, used);
}

static bool is_parent(const struct keeper *k, uint32_t parent, uint32_t child)
{
    return child > 0 && k->disk.parents.at[child] == parent;
}

/* Questions 25 and 26; both accounts are in range. */
uint32_t refuses_move(const struct keeper *k, const struct request *r)
{
    const uint16_t *old = k->disk.limits.at;
    uint32_t used[MOST_ACCOUNTS];
    uint16_t limits[MOST_ACCOUNTS];
    if (!is_parent(k, r->first, r->second) && !is_parent(k, r->second, r->first))
        return 25;
    if (r->third == 0 || r->third > old[r->first] || r->third > (uint32_t)UINT16_MAX - old[r->second])
        return 25;
    shift(k, r, limits);
    count_used(k, limits, used);
    for (size_t account = 0; account < k->sizes.accounts; account++)
        if ((limits[account] != old[account] || used[account] != k->memory.used.at[account]) && used[account] > limits[account])
            return 26;
    return 0;
}
