/* Questions 3 to 27, in number order for each event, 32 just after 3 and 33 just after 6. Those of the sheets are in sheets.c. */
#include "inside.h"

static bool in_range(const struct keeper *k, const struct request *r)
{
    const struct sizes *z = &k->sizes;
    switch (r->kind) {
    case CREATE: return r->first < z->slots && r->second < z->accounts && r->third > 0;
    case DELETE: case ACTIVATE: case DEACTIVATE: case UPDATE: return r->first < z->slots;
    case FAULT: case WIRE: case UNWIRE: case JOIN: case LOOK: return r->first < z->slots && r->second < z->pages;
    case READ: case WRITE: return r->first < z->slots && r->second < z->pages && r->third < z->words;
    case CLAIM: case TURN: return true;
    case TRUNCATE: return r->first < z->slots && r->second <= z->pages;
    case PAGE_DONE: return r->first < z->frames && r->second <= 1;
    case MAP_DONE: return r->first < z->slots && r->second <= 1;
    case LIMIT: return r->first < z->accounts && r->second <= UINT16_MAX;
    case MOVE: return r->first < z->accounts && r->second < z->accounts;
    default: return false;
    }
}

/* The questions of a create from 32 on. A number that stands in a slot may be higher. */
uint32_t refuses_create(const struct keeper *k, size_t slot, uint32_t number)
{
    if (number > INT32_MAX)
        return 32;
    if (k->disk.numbers.at[slot] != 0)
        return 5;
    for (size_t other = 0; other < k->sizes.slots; other++)
        if (k->disk.numbers.at[other] == number)
            return 6;
    return number > k->disk.highest.at[0] ? 0 : 33;
}

static uint32_t delete(const struct keeper *k, size_t slot)
{
    for (size_t page = slot * k->sizes.pages; page < (slot + 1) * k->sizes.pages; page++)
        if (k->disk.maps.at[page] != 0)
            return 7;
    return k->memory.active.at[slot] ? 9 : 0;
}

static uint32_t deactivate(const struct keeper *k, size_t slot)
{
    const struct memory *m = &k->memory;
    if (m->updating.at[slot])
        return 10;
    for (size_t f = 0; f < k->sizes.frames; f++)
        if (m->frames.at[f].page != 0 && (m->frames.at[f].page - 1) / k->sizes.pages == slot)
            return 11;
    for (size_t page = slot * k->sizes.pages; page < (slot + 1) * k->sizes.pages; page++)
        if (k->disk.maps.at[page] != (holds(k, page, LIVE) ? m->addresses.at[page] : 0))
            return 12;
    for (size_t record = 0; record < k->sizes.records; record++) {
        uint8_t state = m->states.at[record];
        if (m->owners.at[record] == slot && (state == NULLED || state == RELEASED))
            return 12;
    }
    return 0;
}

static uint32_t fault(const struct keeper *k, size_t page)
{
    const struct memory *m = &k->memory;
    int frame = frame_of(k, page);
    if (frame >= 0)
        return m->frames.at[frame].transfer != NO_TRANSFER ? 14 : 15;
    if (m->addresses.at[page] == 0 && m->pool->free == 0)
        return 19;
    return m->free_queue.at[0] == 0 ? 20 : 0;
}

/* Read, write, look, wire, unwire. */
static uint32_t touch(const struct keeper *k, uint32_t kind, size_t page)
{
    int number = frame_of(k, page);
    if (number < 0)
        return 13;
    const struct frame *frame = &k->memory.frames.at[number];
    if (kind == READ || kind == LOOK ? frame->transfer == READING : frame->transfer != NO_TRANSFER)
        return 14;
    if (kind == WRITE && !charged(k, page, number)) {
        size_t account = payer_of(k, page / k->sizes.pages);
        if (k->memory.used.at[account] >= k->disk.limits.at[account])
            return 18;
    }
    if (kind == WIRE && frame->wired)
        return 16;
    return kind == UNWIRE && !frame->wired ? 17 : 0;
}

static uint32_t truncate(const struct keeper *k, size_t from, size_t end)
{
    bool wired = false;
    for (size_t f = 0; f < k->sizes.frames; f++) {
        const struct frame *frame = &k->memory.frames.at[f];
        if (frame->page > from && frame->page <= end) {
            if (frame->transfer != NO_TRANSFER)
                return 14;
            wired |= frame->wired;
        }
    }
    return wired ? 16 : 0;
}

/* The questions of a fault from 4 on. */
static uint32_t whole_fault(const struct keeper *k, size_t page)
{
    size_t slot = page / k->sizes.pages;
    if (k->disk.numbers.at[slot] == 0)
        return 4;
    return k->memory.active.at[slot] ? fault(k, page) : 8;
}

uint32_t treatment(const struct keeper *k)
{
    if (k->memory.line.at[0] == 0)
        return NOBODY;
    size_t page = k->memory.line.at[0] - 1u;
    int frame = frame_of(k, page);
    if (frame >= 0)
        return k->memory.frames.at[frame].transfer == NO_TRANSFER ? SERVED : TO_BACK;
    uint32_t refusal = whole_fault(k, page);
    return refusal == 0 ? FAULTS : refusal == 20 ? CLAIMS : SENT_AWAY + refusal;
}

static uint32_t nothing_to_claim(const struct keeper *k)
{
    return k->memory.removal_list.at[0] == 0 ? 21 : 0;
}

uint32_t first_refusal(const struct keeper *k, const struct request *r)
{
    if (!in_range(k, r))
        return 3;
    switch (r->kind) { /* no slot events */
    case CREATE: return refuses_create(k, r->first, r->third);
    case LIMIT: return 0;
    case MOVE: return refuses_move(k, r);
    case CLAIM: return nothing_to_claim(k);
    case JOIN: return k->memory.line.at[LINE - 1] != 0 ? 27 : 0;
    case TURN: return treatment(k) == CLAIMS ? nothing_to_claim(k) : 0;
    case PAGE_DONE: return k->memory.frames.at[r->first].transfer == NO_TRANSFER ? 22 : 0;
    }
    size_t slot = r->first, pages = k->sizes.pages, page = slot * pages + r->second;
    if (k->disk.numbers.at[slot] == 0)
        return 4;
    if (r->kind == DELETE)
        return delete(k, slot);
    if (r->kind == ACTIVATE)
        return k->memory.active.at[slot] ? 9 : 0;
    if (!k->memory.active.at[slot])
        return 8;
    switch (r->kind) {
    case DEACTIVATE: return deactivate(k, slot);
    case FAULT: return fault(k, page);
    case TRUNCATE: return truncate(k, page, (slot + 1) * pages);
    case UPDATE: return k->memory.updating.at[slot] ? 10 : 0;
    case MAP_DONE: return k->memory.updating.at[slot] ? 0 : 22;
    default: return touch(k, r->kind, page);
    }
}
