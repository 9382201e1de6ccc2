/* What the files of the keeper share. */
#ifndef INSIDE_H
#define INSIDE_H

#include <stdbool.h>
#include "keeper.h"

/* a page look asks as an event of this kind */
enum { LOOK = 0x100 };

/* how a turn treats the first request of the line; SENT_AWAY + n: question n sends it away */
enum { NOBODY, SERVED, TO_BACK, FAULTS, CLAIMS, SENT_AWAY };

uint32_t common(const struct keeper *k);
bool fits_disk(const struct keeper *k);
bool fits_memory(const struct keeper *k);
bool keeps_disk_rules(const struct keeper *k);
bool keeps_memory_rules(const struct keeper *k);
uint32_t first_refusal(const struct keeper *k, const struct request *r);
uint32_t refuses_create(const struct keeper *k, size_t slot, uint32_t number);
uint32_t treatment(const struct keeper *k);
uint32_t carry_out(struct keeper *k, const struct request *r);
size_t pick_by_hand(const struct keeper *k);
size_t pick_near(const struct keeper *k, size_t held);
void take(struct keeper *k, size_t record, size_t slot, uint8_t state);
uint32_t refuses_move(const struct keeper *k, const struct request *r);
void move_pages(struct keeper *k, const struct request *r);
void set_limit(struct keeper *k, size_t account, uint32_t pages);
bool are_lower(const uint16_t *parents, size_t count);
const uint32_t *chip_copy(const struct keeper *k, size_t record);
void chip_put(struct keeper *k, size_t record);
void chip_drop(struct keeper *k, size_t record);
void chip_drop_stale(struct keeper *k);

/* The frame that a page is in, or -1. */
static inline int frame_of(const struct keeper *k, size_t page)
{
    for (size_t f = 0; f < k->sizes.frames; f++)
        if (k->memory.frames.at[f].page == page + 1)
            return (int)f;
    return -1;
}

static inline bool holds(const struct keeper *k, size_t page, uint8_t state)
{
    uint16_t address = k->memory.addresses.at[page];
    return address != 0 && k->memory.states.at[address - 1] == state;
}

/* Whether a page is charged: its address is live, or it is in a frame (-1: in none) and modified. */
static inline bool charged(const struct keeper *k, size_t page, int frame)
{
    return holds(k, page, LIVE) || (frame >= 0 && k->memory.frames.at[frame].modified);
}

/* Who pays by these limits: the account, or the first on the way up that has a limit, or account 0. */
static inline size_t payer(const struct keeper *k, const uint16_t *limits, size_t account)
{
    while (account > 0 && limits[account] == 0 && k->disk.parents.at[account] < account)
        account = k->disk.parents.at[account];
    return account;
}

static inline size_t payer_of(const struct keeper *k, size_t slot)
{
    return payer(k, k->disk.limits.at, k->disk.accounts.at[slot]);
}

static inline bool all_zero(const uint32_t *words, size_t count)
{
    for (size_t i = 0; i < count; i++)
        if (words[i] != 0)
            return false;
    return true;
}

#endif
