/* The public calls. */
#include <string.h>
#include "inside.h"

static struct answer refused(uint32_t number) { return (struct answer){.refusal = number}; }

/* Questions 1 and 2. */
uint32_t common(const struct keeper *k)
{
    if (!fits_disk(k) || !fits_memory(k))
        return 1;
    return keeps_disk_rules(k) && keeps_memory_rules(k) ? 0 : 2;
}

struct answer keeper_format(struct keeper *k, const uint16_t *wanted, size_t wanted_count)
{
    if (!fits_disk(k) || wanted_count != k->sizes.accounts)
        return refused(1);
    if (!are_lower(wanted, wanted_count))
        return refused(3);
    memset(k->disk.records.at, 0, k->disk.records.len * sizeof *k->disk.records.at);
    memset(k->disk.numbers.at, 0, k->disk.numbers.len * sizeof *k->disk.numbers.at);
    memset(k->disk.accounts.at, 0, k->disk.accounts.len * sizeof *k->disk.accounts.at);
    memset(k->disk.maps.at, 0, k->disk.maps.len * sizeof *k->disk.maps.at);
    memset(k->disk.limits.at, 0, k->disk.limits.len * sizeof *k->disk.limits.at);
    memmove(k->disk.parents.at, wanted, k->disk.parents.len * sizeof *k->disk.parents.at);
    k->disk.parents.at[0] = 0;
    k->disk.highest.at[0] = 0;
    return refused(0);
}

static void clear_memory(struct memory *m)
{
    memset(m->frames.at, 0, m->frames.len * sizeof *m->frames.at);
    memset(m->frame_words.at, 0, m->frame_words.len * sizeof *m->frame_words.at);
    memset(m->removal_list.at, 0, m->removal_list.len * sizeof *m->removal_list.at);
    memset(m->addresses.at, 0, m->addresses.len * sizeof *m->addresses.at);
    memset(m->states.at, FREE, m->states.len);
    memset(m->owners.at, 0, m->owners.len);
    memset(m->free_map.at, 0, m->free_map.len * sizeof *m->free_map.at);
    memset(m->active.at, 0, m->active.len);
    memset(m->updating.at, 0, m->updating.len);
    memset(m->images.at, 0, m->images.len * sizeof *m->images.at);
    memset(m->chip_words.at, 0, m->chip_words.len * sizeof *m->chip_words.at);
    memset(m->chip_records.at, 0, m->chip_records.len * sizeof *m->chip_records.at);
    m->chip_next.at[0] = 0;
    memset(m->line.at, 0, m->line.len * sizeof *m->line.at);
    memset(m->used.at, 0, m->used.len * sizeof *m->used.at);
    *m->pool = (struct pool){0};
}

/* The highest number that was ever given, where an older pack does not have it: that of a slot. */
static void store_highest(struct disk *d)
{
    for (size_t slot = 0; slot < d->numbers.len; slot++)
        if (d->numbers.at[slot] <= INT32_MAX && d->numbers.at[slot] > d->highest.at[0])
            d->highest.at[0] = d->numbers.at[slot];
}

struct answer keeper_restart(struct keeper *k)
{
    struct memory *m = &k->memory;
    if (!fits_disk(k) || !fits_memory(k))
        return refused(1);
    if (!keeps_disk_rules(k))
        return refused(2);
    store_highest(&k->disk);
    clear_memory(m);
    for (size_t frame = 0; frame < k->sizes.frames; frame++)
        m->free_queue.at[frame] = (uint16_t)(frame + 1);
    for (size_t page = 0; page < k->disk.maps.len; page++) {
        uint16_t entry = k->disk.maps.at[page];
        if (entry != 0) {
            size_t slot = page / k->sizes.pages;
            m->states.at[entry - 1] = FILED;
            m->owners.at[entry - 1] = (uint8_t)slot;
            m->used.at[payer_of(k, slot)]++;
        }
    }
    for (size_t record = 0; record < k->sizes.records; record++) {
        uint32_t free = m->states.at[record] == FREE;
        m->free_map.at[record / 32] |= free << (record % 32);
        m->pool->free += free;
    }
    return refused(0);
}

/* Once questions 1 and 2 said yes: the request's own questions, and its work. */
static struct answer by_its_own(struct keeper *k, const struct request *r)
{
    uint32_t refusal = r->kind == LOOK ? 3 : first_refusal(k, r);
    if (refusal != 0)
        return refused(refusal);
    return (struct answer){.result = carry_out(k, r)};
}

struct answer keeper_apply(struct keeper *k, struct request r)
{
    uint32_t refusal = common(k);
    return refusal != 0 ? refused(refusal) : by_its_own(k, &r);
}

/* Questions 1 and 2 are asked once: an event leaves the tables as they want them. */
struct answer keeper_apply_all(
    struct keeper *k, const uint32_t *requests, size_t requests_count, uint32_t *answers, size_t answers_count)
{
    size_t asked = requests_count / 5, told = answers_count / 2;
    uint32_t refusal = common(k);
    struct answer last = {0};
    for (size_t n = 0; n < asked && n < told; n++) {
        const uint32_t *at = requests + 5 * n;
        struct request r = {at[0], at[1], at[2], at[3], at[4]};
        last = refusal != 0 ? refused(refusal) : by_its_own(k, &r);
        answers[2 * n] = last.refusal;
        answers[2 * n + 1] = last.result;
    }
    return last;
}

struct part keeper_page_look(const struct keeper *k, size_t slot, size_t page)
{
    uint32_t refusal = common(k);
    if (refusal == 0 && (slot >= k->sizes.slots || page >= k->sizes.pages))
        refusal = 3;
    if (refusal == 0) {
        struct request r = {.kind = LOOK, .first = (uint32_t)slot, .second = (uint32_t)page};
        refusal = first_refusal(k, &r);
    }
    if (refusal != 0)
        return (struct part){.refusal = refusal};
    size_t frame = (size_t)frame_of(k, slot * k->sizes.pages + page);
    return (struct part){.start = frame * k->sizes.words, .count = k->sizes.words};
}
