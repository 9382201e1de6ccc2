/* What each event does, once every question has said yes. */
#include <string.h>
#include "inside.h"

static size_t queue_length(const uint16_t *queue, size_t most)
{
    size_t length = 0;
    while (length < most && queue[length] != 0)
        length++;
    return length;
}

static void push_end(struct halves queue, size_t frame)
{
    queue.at[queue_length(queue.at, queue.len)] = (uint16_t)(frame + 1);
}

static void push_front(struct halves queue, size_t frame)
{
    memmove(queue.at + 1, queue.at, (queue.len - 1) * sizeof *queue.at);
    queue.at[0] = (uint16_t)(frame + 1);
}

static void take_out(struct halves queue, size_t frame)
{
    size_t i = 0;
    while (queue.at[i] != frame + 1)
        i++;
    memmove(queue.at + i, queue.at + i + 1, (queue.len - i - 1) * sizeof *queue.at);
    queue.at[queue.len - 1] = 0;
}

static uint32_t *words_in(const struct keeper *k, size_t frame)
{
    return k->memory.frame_words.at + frame * k->sizes.words;
}

static uint32_t *words_on(const struct keeper *k, size_t record)
{
    return k->disk.records.at + record * k->sizes.words;
}

static uint16_t *used_of(const struct keeper *k, size_t page)
{
    return &k->memory.used.at[payer_of(k, page / k->sizes.pages)];
}

/* The frame loses its page and switches and joins the free queue's end. */
static void free_frame(struct keeper *k, size_t frame)
{
    k->memory.frames.at[frame] = (struct frame){0};
    push_end(k->memory.free_queue, frame);
}

static void activate(struct keeper *k, size_t slot)
{
    struct memory *m = &k->memory;
    for (size_t page = slot * k->sizes.pages; page < (slot + 1) * k->sizes.pages; page++) {
        uint16_t entry = k->disk.maps.at[page];
        m->addresses.at[page] = entry;
        if (entry != 0)
            m->states.at[entry - 1] = LIVE;
    }
    m->active.at[slot] = 1;
}

static void deactivate(struct keeper *k, size_t slot)
{
    struct memory *m = &k->memory;
    for (size_t page = slot * k->sizes.pages; page < (slot + 1) * k->sizes.pages; page++) {
        if (m->addresses.at[page] != 0)
            m->states.at[m->addresses.at[page] - 1] = FILED;
        m->addresses.at[page] = 0;
    }
    m->active.at[slot] = 0;
    chip_drop_stale(k);
}

#ifdef OLD_SEARCH
#include "old_search.h"
#else
enum { NONE = -1 };

/* The first free record from `from` up, below `end`: a word of the map at a time. */
static int free_up(const struct keeper *k, int from, int end)
{
    const uint32_t *map = k->memory.free_map.at;
    if (from >= end)
        return NONE;
    int word = from / 32;
    uint32_t bits = map[word] & UINT32_MAX << (from % 32);
    while (bits == 0 && ++word * 32 < end)
        bits = map[word];
    if (bits == 0)
        return NONE;
    int record = word * 32 + __builtin_ctz(bits);
    return record < end ? record : NONE;
}

/* The last free record from `from` down, not below `end`. */
static int free_down(const struct keeper *k, int from, int end)
{
    const uint32_t *map = k->memory.free_map.at;
    if (from < end)
        return NONE;
    int word = from / 32;
    uint32_t bits = map[word] & UINT32_MAX >> (31 - from % 32);
    while (bits == 0 && word-- * 32 > end)
        bits = map[word];
    if (bits == 0)
        return NONE;
    int record = word * 32 + 31 - __builtin_clz(bits);
    return record >= end ? record : NONE;
}

/* The first free record counting up from the hand. */
size_t pick_by_hand(const struct keeper *k)
{
    int hand = (int)k->memory.pool->hand;
    int record = free_up(k, hand, (int)k->sizes.records);
    return (size_t)(record != NONE ? record : free_up(k, 0, hand));
}

/* The free record nearest to one that is held, of two equally near the lower: as far again each time, on both sides. */
size_t pick_near(const struct keeper *k, size_t held)
{
    int at = (int)held, records = (int)k->sizes.records;
    for (int passed = 0, reach = 32;; passed = reach, reach *= 2) {
        int lowest = reach < at ? at - reach : 0;
        int end = reach < records - at ? at + reach : records;
        int low = free_down(k, at - passed, lowest);
        if (low != NONE)
            end = 2 * at - low < end ? 2 * at - low : end;
        int high = free_up(k, at + passed, end);
        if (high != NONE || low != NONE)
            return (size_t)(high != NONE ? high : low);
    }
}
#endif

/* Near the closest lower page of the design that has a record, or by the hand. */
static size_t pick(const struct keeper *k, size_t page)
{
    size_t first = page - page % k->sizes.pages;
    while (page > first)
        if (k->memory.addresses.at[--page] != 0)
            return pick_near(k, k->memory.addresses.at[page] - 1u);
    return pick_by_hand(k);
}

#ifdef PICK_ALONE
/* for the times of the search alone */
size_t PICK_ALONE(const struct keeper *keeper, size_t page);
size_t PICK_ALONE(const struct keeper *keeper, size_t page)
{
    return pick(keeper, page);
}
#endif

/* A free record becomes a slot's. */
void take(struct keeper *k, size_t record, size_t slot, uint8_t state)
{
    struct memory *m = &k->memory;
    m->free_map.at[record / 32] &= ~(UINT32_C(1) << (record % 32));
    m->pool->free--;
    m->pool->hand = (uint32_t)((record + 1) % k->sizes.records);
    m->states.at[record] = state;
    m->owners.at[record] = (uint8_t)slot;
}

static void take_record(struct keeper *k, size_t page)
{
    size_t record = pick(k, page);
    take(k, record, page / k->sizes.pages, NULLED);
    k->memory.addresses.at[page] = (uint16_t)(record + 1);
}

static uint32_t fault(struct keeper *k, size_t page)
{
    struct memory *m = &k->memory;
    size_t number = m->free_queue.at[0] - 1u;
    struct frame *frame = &m->frames.at[number];
    take_out(m->free_queue, number);
    *frame = (struct frame){.page = (uint16_t)(page + 1)};
    if (holds(k, page, LIVE)) {
        const uint32_t *copy = chip_copy(k, m->addresses.at[page] - 1u);
        if (copy == NULL) {
            frame->transfer = READING;
            return (uint32_t)number;
        }
        memcpy(words_in(k, number), copy, k->sizes.words * sizeof(uint32_t));
    } else {
        memset(words_in(k, number), 0, k->sizes.words * sizeof(uint32_t));
    }
    if (m->addresses.at[page] == 0)
        take_record(k, page);
    frame->initial = 1;
    push_front(m->removal_list, number);
    return (uint32_t)number;
}

/* Read, write, wire, unwire. */
static uint32_t touch(struct keeper *k, const struct request *r, size_t page)
{
    size_t number = (size_t)frame_of(k, page);
    struct frame *frame = &k->memory.frames.at[number];
    switch (r->kind) {
    case READ:
        frame->used = 1;
        return words_in(k, number)[r->third];
    case WRITE:
        if (!charged(k, page, (int)number))
            ++*used_of(k, page);
        frame->used = frame->modified = 1;
        words_in(k, number)[r->third] = r->fourth;
        return 0;
    case WIRE:
        take_out(k->memory.removal_list, number);
        frame->wired = 1;
        return 0;
    default:
        push_end(k->memory.removal_list, number);
        frame->wired = frame->initial = 0;
        return 0;
    }
}

static uint32_t claim(struct keeper *k)
{
    struct memory *m = &k->memory;
    struct frame *frame;
    size_t number;
    uint32_t looks = 0;
    bool spared;
    do {
        number = m->removal_list.at[0] - 1u;
        frame = &m->frames.at[number];
        take_out(m->removal_list, number);
        spared = frame->initial || frame->used;
        frame->initial = frame->used = 0;
        if (spared)
            push_end(m->removal_list, number);
        looks++;
    } while (spared);
    size_t page = frame->page - 1u;
    if (frame->modified) {
        if (!all_zero(words_in(k, number), k->sizes.words)) {
            frame->transfer = WRITING;
            return looks;
        }
        m->states.at[m->addresses.at[page] - 1] = NULLED;
        chip_drop(k, m->addresses.at[page] - 1u);
        --*used_of(k, page);
    }
    free_frame(k, number);
    return looks;
}

static void truncate(struct keeper *k, size_t from, size_t end)
{
    struct memory *m = &k->memory;
    for (size_t page = from; page < end; page++) {
        int frame = frame_of(k, page);
        if (charged(k, page, frame))
            --*used_of(k, page);
        if (frame >= 0) {
            take_out(m->removal_list, (size_t)frame);
            free_frame(k, (size_t)frame);
        }
        if (m->addresses.at[page] != 0)
            m->states.at[m->addresses.at[page] - 1] = RELEASED;
        m->addresses.at[page] = 0;
    }
    chip_drop_stale(k);
}

static void update(struct keeper *k, size_t slot)
{
    struct memory *m = &k->memory;
    for (size_t record = 0; record < k->sizes.records; record++)
        if (m->owners.at[record] == slot && m->states.at[record] == RELEASED)
            m->states.at[record] = LEAVING;
    for (size_t page = slot * k->sizes.pages; page < (slot + 1) * k->sizes.pages; page++) {
        m->images.at[page] = holds(k, page, LIVE) ? m->addresses.at[page] : 0;
        if (holds(k, page, NULLED) && frame_of(k, page) < 0) {
            m->states.at[m->addresses.at[page] - 1] = LEAVING;
            m->addresses.at[page] = 0;
        }
    }
    m->updating.at[slot] = 1;
}

static void map_done(struct keeper *k, size_t slot, bool good)
{
    struct memory *m = &k->memory;
    size_t start = slot * k->sizes.pages, bytes = k->sizes.pages * sizeof(uint16_t);
    if (good)
        memcpy(k->disk.maps.at + start, m->images.at + start, bytes);
    for (size_t record = 0; record < k->sizes.records; record++) {
        if (m->owners.at[record] != slot || m->states.at[record] != LEAVING)
            continue;
        m->states.at[record] = good ? FREE : RELEASED;
        if (good) {
            m->owners.at[record] = 0;
            m->free_map.at[record / 32] |= UINT32_C(1) << (record % 32);
            m->pool->free++;
        }
    }
    memset(m->images.at + start, 0, bytes);
    m->updating.at[slot] = 0;
}

static void page_done(struct keeper *k, size_t number, bool good)
{
    struct frame *frame = &k->memory.frames.at[number];
    size_t record = k->memory.addresses.at[frame->page - 1] - 1u, bytes = k->sizes.words * sizeof(uint32_t);
    if (frame->transfer == READING && good) {
        memcpy(words_in(k, number), words_on(k, record), bytes);
        *frame = (struct frame){.page = frame->page, .initial = 1};
        push_front(k->memory.removal_list, number);
    } else if (frame->transfer == READING) {
        free_frame(k, number);
    } else if (good) {
        memcpy(words_on(k, record), words_in(k, number), bytes);
        k->memory.states.at[record] = LIVE;
        free_frame(k, number);
    } else {
        *frame = (struct frame){.page = frame->page, .used = frame->used, .modified = 1};
        push_end(k->memory.removal_list, number);
    }
    if (good)
        chip_put(k, record);
}

static void name_slot(struct keeper *k, size_t slot, uint16_t account, uint32_t number)
{
    k->disk.numbers.at[slot] = number;
    k->disk.accounts.at[slot] = account;
}

/* Two stores, the highest first: a cut between them skips a number. */
static void create(struct keeper *k, size_t slot, uint16_t account, uint32_t number)
{
    k->disk.highest.at[0] = number;
    name_slot(k, slot, account, number);
}

/* The first request leaves the line, or goes to its back. */
static void leave(struct halves line, bool back)
{
    uint16_t entry = line.at[0];
    memmove(line.at, line.at + 1, (line.len - 1) * sizeof *line.at);
    line.at[line.len - 1] = 0;
    if (back)
        push_end(line, entry - 1u);
}

static uint32_t turn(struct keeper *k)
{
    uint32_t how = treatment(k);
    switch (how) {
    case NOBODY: return 0;
    case SERVED: leave(k->memory.line, false); return 1;
    case TO_BACK: leave(k->memory.line, true); return 0;
    case FAULTS: fault(k, k->memory.line.at[0] - 1u); return 0;
    case CLAIMS: claim(k); return 0;
    default: leave(k->memory.line, false); return how - SENT_AWAY;
    }
}

uint32_t carry_out(struct keeper *k, const struct request *r)
{
    size_t pages = k->sizes.pages, page = r->first * pages + r->second;
    switch (r->kind) {
    case CREATE: create(k, r->first, (uint16_t)r->second, r->third); break;
    case DELETE: name_slot(k, r->first, 0, 0); break;
    case ACTIVATE: activate(k, r->first); break;
    case DEACTIVATE: deactivate(k, r->first); break;
    case FAULT: return fault(k, page);
    case CLAIM: return claim(k);
    case TRUNCATE: truncate(k, page, (r->first + 1) * pages); break;
    case UPDATE: update(k, r->first); break;
    case PAGE_DONE: page_done(k, r->first, r->second == 1); break;
    case MAP_DONE: map_done(k, r->first, r->second == 1); break;
    case JOIN: push_end(k->memory.line, page); break;
    case TURN: return turn(k);
    case LIMIT: set_limit(k, r->first, r->second); break;
    case MOVE: move_pages(k, r); break;
    default: return touch(k, r, page);
    }
    return 0;
}
