/* Questions 1 and 2: lengths, and both sets of rules, in one pass over each table. */
#include <string.h>
#include "inside.h"

static bool up_to(size_t n, size_t most) { return n >= 1 && n <= most; }

static bool sizes_within(const struct sizes *z)
{
    return up_to(z->words, MOST_WORDS) && up_to(z->records, MOST_RECORDS) && up_to(z->frames, MOST_FRAMES)
        && up_to(z->slots, MOST_SLOTS) && up_to(z->pages, MOST_PAGES) && up_to(z->accounts, MOST_ACCOUNTS)
        && up_to(z->chip, MOST_CHIP);
}

bool fits_disk(const struct keeper *k)
{
    const struct sizes *z = &k->sizes;
    const struct disk *d = &k->disk;
    return sizes_within(z) && d->records.len == z->records * z->words && d->numbers.len == z->slots
        && d->accounts.len == z->slots && d->maps.len == z->slots * z->pages && d->limits.len == z->accounts
        && d->parents.len == z->accounts && d->highest.len == 1;
}

bool fits_memory(const struct keeper *k)
{
    const struct sizes *z = &k->sizes;
    const struct memory *m = &k->memory;
    size_t pages = z->slots * z->pages;
    return sizes_within(z) && m->frames.len == z->frames && m->frame_words.len == z->frames * z->words
        && m->free_queue.len == z->frames && m->removal_list.len == z->frames && m->addresses.len == pages
        && m->states.len == z->records && m->owners.len == z->records
        && m->free_map.len == (z->records + 31) / 32 && m->active.len == z->slots
        && m->updating.len == z->slots && m->images.len == pages && m->chip_words.len == z->chip * z->words
        && m->chip_records.len == z->chip && m->chip_next.len == 1 && m->line.len == LINE && m->used.len == z->accounts;
}

/* Marks of entries seen, one bit an entry. */
struct marks { uint32_t bits[MOST_RECORDS / 32 + 1]; };

/* Marks an entry above 0; false if it was marked. */
static bool mark(struct marks *marks, uint16_t entry)
{
    uint32_t bit = UINT32_C(1) << (entry % 32);
    bool fresh = !(marks->bits[entry / 32] & bit);
    marks->bits[entry / 32] |= bit;
    return fresh;
}

static bool number_elsewhere(const struct disk *d, size_t slot)
{
    for (size_t other = 0; other < slot; other++)
        if (d->numbers.at[other] == d->numbers.at[slot])
            return true;
    return false;
}

/* Each account but 0 has a parent with a lower number. */
bool are_lower(const uint16_t *parents, size_t count)
{
    for (size_t account = 1; account < count; account++)
        if (parents[account] >= account)
            return false;
    return true;
}

bool keeps_disk_rules(const struct keeper *k)
{
    const struct disk *d = &k->disk;
    struct marks listed = {{0}};
    const uint16_t *map = d->maps.at;
    for (size_t slot = 0; slot < k->sizes.slots; slot++) {
        bool empty = d->numbers.at[slot] == 0;
        if (d->accounts.at[slot] >= k->sizes.accounts)
            return false;
        if (empty ? d->accounts.at[slot] != 0 : number_elsewhere(d, slot))
            return false;
        for (size_t page = 0; page < k->sizes.pages; page++) {
            uint16_t entry = *map++;
            if (entry != 0 && (empty || entry > k->sizes.records || !mark(&listed, entry)))
                return false;
        }
    }
    return are_lower(d->parents.at, d->parents.len);
}

/* What the passes hand on to each other. */
struct tally {
    uint8_t places[MOST_FRAMES];              /* in how many queues a frame stands */
    bool queued_free[MOST_FRAMES];
    uint8_t framed[MOST_SLOTS * MOST_PAGES];  /* 1: the page is in a frame, 2: and modified */
    uint32_t used[MOST_ACCOUNTS];
    size_t held, filed;                       /* addresses; entries of inactive designs */
};

static bool queue_ok(const struct keeper *k, const uint16_t *queue, struct tally *t, bool free)
{
    bool ended = false;
    for (size_t i = 0; i < k->sizes.frames; i++) {
        uint16_t entry = queue[i];
        if (entry == 0) {
            ended = true;
            continue;
        }
        if (ended || entry > k->sizes.frames || t->places[entry - 1]++ != 0)
            return false;
        t->queued_free[entry - 1] = free;
    }
    return true;
}

/* The record of a page in a frame: an address, live for a read. An unmodified page in service is clean. */
static bool page_ok(const struct keeper *k, size_t number, const struct frame *f)
{
    uint16_t address = k->memory.addresses.at[f->page - 1];
    if (address == 0 || address > k->sizes.records)
        return false;
    bool live = k->memory.states.at[address - 1] == LIVE;
    if (f->transfer == READING)
        return live;
    if (f->modified)
        return true;
    if (f->transfer == WRITING)
        return false;
    size_t words = k->sizes.words;
    const uint32_t *own = k->memory.frame_words.at + number * words;
    if (live)
        return memcmp(own, k->disk.records.at + (size_t)(address - 1) * words, words * sizeof *own) == 0;
    return all_zero(own, words);
}

static bool frames_ok(const struct keeper *k, struct tally *t)
{
    for (size_t i = 0; i < k->sizes.frames; i++) {
        const struct frame *f = &k->memory.frames.at[i];
        if (f->page > k->sizes.slots * k->sizes.pages || f->transfer > WRITING)
            return false;
        if (f->used > 1 || f->modified > 1 || f->wired > 1 || f->initial > 1)
            return false;
        if (t->places[i] + f->wired + (f->transfer != NO_TRANSFER) != 1)
            return false;
        if (t->queued_free[i]) {
            if (f->page || f->used || f->modified || f->initial)
                return false;
            continue;
        }
        if (f->page == 0 || t->framed[f->page - 1] || !page_ok(k, i, f))
            return false;
        t->framed[f->page - 1] = 1 + f->modified;
    }
    return true;
}

/* Whether a listed record is its slot's, in a state from released on to the last one allowed. */
static bool pending(const struct memory *m, uint16_t entry, size_t slot, uint8_t last)
{
    uint8_t state = m->states.at[entry - 1];
    return m->owners.at[entry - 1] == slot && state >= RELEASED && state <= last;
}

static bool active_page_ok(const struct keeper *k, size_t slot, size_t page, struct marks *imaged, struct tally *t, uint32_t *used)
{
    const struct memory *m = &k->memory;
    uint16_t entry = k->disk.maps.at[page], image = m->images.at[page], address = m->addresses.at[page];
    if (entry != 0 && entry != address && !pending(m, entry, slot, LEAVING))
        return false;
    if (image != 0) {
        if (!m->updating.at[slot] || image > k->sizes.records || !mark(imaged, image))
            return false;
        if (image != address && !pending(m, image, slot, RELEASED))
            return false;
    }
    bool live = address != 0 && m->states.at[address - 1] == LIVE;
    *used += live || t->framed[page] == 2;
    return true;
}

static bool inactive_page_ok(const struct keeper *k, size_t slot, size_t page, struct tally *t, uint32_t *used)
{
    const struct memory *m = &k->memory;
    uint16_t entry = k->disk.maps.at[page];
    if (m->addresses.at[page] != 0 || m->images.at[page] != 0 || t->framed[page])
        return false;
    if (entry == 0)
        return true;
    t->filed++;
    ++*used;
    return m->states.at[entry - 1] == FILED && m->owners.at[entry - 1] == slot;
}

static bool address_ok(const struct keeper *k, size_t slot, uint16_t address, struct marks *held, struct tally *t)
{
    if (address == 0)
        return true;
    if (address > k->sizes.records || !mark(held, address))
        return false;
    uint8_t state = k->memory.states.at[address - 1];
    t->held++;
    return (state == NULLED || state == LIVE) && k->memory.owners.at[address - 1] == slot;
}

static bool slots_ok(const struct keeper *k, struct tally *t)
{
    struct marks held = {{0}}, imaged = {{0}};
    size_t page = 0;
    for (size_t slot = 0; slot < k->sizes.slots; slot++) {
        uint8_t active = k->memory.active.at[slot], updating = k->memory.updating.at[slot];
        if (active > 1 || updating > active || (active && k->disk.numbers.at[slot] == 0))
            return false;
        uint32_t *used = &t->used[payer_of(k, slot)];
        for (size_t end = page + k->sizes.pages; page < end; page++) {
            if (!address_ok(k, slot, k->memory.addresses.at[page], &held, t))
                return false;
            if (!(active ? active_page_ok(k, slot, page, &imaged, t, used) : inactive_page_ok(k, slot, page, t, used)))
                return false;
        }
    }
    return true;
}

/* Every address's record is nulled or live, so if there are as many such records as addresses, no other is;
   the same for filed ones. */
static bool records_ok(const struct keeper *k, const struct tally *t)
{
    const struct memory *m = &k->memory;
    size_t free = 0, held = 0, filed = 0;
    for (size_t first = 0; first < k->sizes.records; first += 32) {
        size_t end = first + 32 < k->sizes.records ? first + 32 : k->sizes.records;
        uint32_t bits = 0;
        for (size_t r = first; r < end; r++) {
            uint8_t state = m->states.at[r];
            if (state > LEAVING || m->owners.at[r] >= k->sizes.slots)
                return false;
            if (state == LEAVING && !m->updating.at[m->owners.at[r]])
                return false;
            bits |= (uint32_t)(state == FREE) << (r % 32);
            free += state == FREE;
            filed += state == FILED;
            held += state == NULLED || state == LIVE;
        }
        if (bits != m->free_map.at[first / 32])
            return false;
    }
    return m->pool->free == free && m->pool->hand < k->sizes.records && held == t->held && filed == t->filed;
}

/* Pages that exist, packed at the front; the same page may wait twice. */
static bool line_ok(const struct keeper *k)
{
    bool ended = false;
    for (size_t i = 0; i < LINE; i++) {
        uint16_t entry = k->memory.line.at[i];
        if (entry > k->sizes.slots * k->sizes.pages || (entry != 0 && ended))
            return false;
        ended = entry == 0;
    }
    return true;
}

static bool counts_ok(const struct keeper *k, const struct tally *t)
{
    for (size_t account = 0; account < k->sizes.accounts; account++)
        if (t->used[account] != k->memory.used.at[account])
            return false;
    return true;
}

/* Many words at a time: all places may be empty. */
static bool zeros(const uint32_t *words, size_t count)
{
    return words[0] == 0 && memcmp(words, words + 1, (count - 1) * sizeof *words) == 0;
}

/* A copy is of a live record, equal to it, and the only one; an empty place holds zeros. */
static bool chip_ok(const struct keeper *k)
{
    const struct memory *m = &k->memory;
    size_t words = k->sizes.words;
    struct marks copied = {{0}};
    for (size_t place = 0; place < k->sizes.chip; place++) {
        uint16_t entry = m->chip_records.at[place];
        const uint32_t *own = m->chip_words.at + place * words;
        if (entry == 0) {
            if (!zeros(own, words))
                return false;
            continue;
        }
        if (entry > k->sizes.records || m->states.at[entry - 1] != LIVE || !mark(&copied, entry))
            return false;
        if (memcmp(own, k->disk.records.at + (size_t)(entry - 1) * words, words * sizeof *own) != 0)
            return false;
    }
    return m->chip_next.at[0] < k->sizes.chip;
}

/* Asked once the disk rules hold. */
bool keeps_memory_rules(const struct keeper *k)
{
    struct tally t;
    memset(t.places, 0, sizeof t.places);
    memset(t.queued_free, 0, sizeof t.queued_free);
    memset(t.framed, 0, k->sizes.slots * k->sizes.pages * sizeof *t.framed);
    memset(t.used, 0, sizeof t.used);
    t.held = t.filed = 0;
    return queue_ok(k, k->memory.free_queue.at, &t, true) && queue_ok(k, k->memory.removal_list.at, &t, false)
        && frames_ok(k, &t) && slots_ok(k, &t) && records_ok(k, &t) && counts_ok(k, &t) && line_ok(k)
        && chip_ok(k);
}
