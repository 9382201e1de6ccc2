/* Not proved, tested by tests/easy.c: the calls of keeper.h without their long lists of arguments, for C99 and C++, header only.
 *
 *   Keeper keeper;
 *   size_t bytes = keeper_workspace(sizes);                  what all tables take, 0 for sizes out of limits
 *   keeper_place(&keeper, sizes, block, bytes);              lays the tables into your block
 *   keeper_easy_format(&keeper, NULL);                       every account under account 0; or an array of Q parents
 *   keeper_easy_restart(&keeper);                            keeper.highest goes to the device if that changed it
 *   keeper_limit(&keeper, 0, 8); keeper_create(&keeper, 0, 0, 101); keeper_activate(&keeper, 0);
 *
 * One function for each event, named as its kind: keeper_fault, keeper_write, .. And four that ask the tables, so that a driver
 * need not: keeper_next_transfer and keeper_next_update (what is to be transferred), keeper_bring (a page into a frame) and
 * keeper_save (all changed pages of a design to the disk, and listed). These change nothing but by the keeper's own events.
 * What a caller owes, and which stores go to the device when: docs/USING.md. */
#ifndef KEEPER_EASY_H
#define KEEPER_EASY_H

#include <string.h>
#include "keeper.h"

/* A table as a driver sees it: its name, where it is, the bytes of an entry, how many entries. */
typedef struct {
    const char *name;
    void *at;
    size_t width, count;
} KeeperTable;

static inline KeeperTable keeper_described(const char *name, void *at, size_t width, size_t count)
{
    KeeperTable table;
    table.name = name;
    table.at = at;
    table.width = width;
    table.count = count;
    return table;
}

/* A block must be aligned so; each table in it begins at such a place. */
enum { KEEPER_ALIGNMENT = 8 };

/* The next place in a block, or none where there is no block; `at` goes past it. */
static inline void *keeper_take(unsigned char *block, size_t *at, size_t width, size_t count)
{
    void *place = block ? block + *at : NULL;
    *at += (width * count + KEEPER_ALIGNMENT - 1) / KEEPER_ALIGNMENT * KEEPER_ALIGNMENT;
    return place;
}

/* The parents that a format is to store: none wanted is account 0 for every account. */
static inline const uint16_t *keeper_wanted(const uint16_t *wanted)
{
    static const uint16_t zeros[KEEPER_MOST_ACCOUNTS] = {0};
    return wanted ? wanted : zeros;
}

/* tables and calls: made by tools/tables.py from tools/tables.txt */
/* The tables by number, those of the disk part first, and how many there are. */
enum {
    KEEPER_TABLE_RECORDS = 0,
    KEEPER_TABLE_NUMBERS = 1,
    KEEPER_TABLE_ACCOUNTS = 2,
    KEEPER_TABLE_MAPS = 3,
    KEEPER_TABLE_LIMITS = 4,
    KEEPER_TABLE_PARENTS = 5,
    KEEPER_TABLE_HIGHEST = 6,
    KEEPER_TABLE_FRAMES = 7,
    KEEPER_TABLE_FRAME_WORDS = 8,
    KEEPER_TABLE_FREE_QUEUE = 9,
    KEEPER_TABLE_REMOVAL_LIST = 10,
    KEEPER_TABLE_ADDRESSES = 11,
    KEEPER_TABLE_STATES = 12,
    KEEPER_TABLE_OWNERS = 13,
    KEEPER_TABLE_FREE_MAP = 14,
    KEEPER_TABLE_ACTIVE = 15,
    KEEPER_TABLE_UPDATING = 16,
    KEEPER_TABLE_IMAGES = 17,
    KEEPER_TABLE_CHIP_WORDS = 18,
    KEEPER_TABLE_CHIP_RECORDS = 19,
    KEEPER_TABLE_CHIP_NEXT = 20,
    KEEPER_TABLE_LINE = 21,
    KEEPER_TABLE_USED = 22,
    KEEPER_TABLE_POOL = 23,
    KEEPER_DISK_COUNT = 7,
    KEEPER_TABLE_COUNT = 24
};

/* The sizes and all tables: a name for everything that is lent. */
typedef struct {
    KeeperSizes sizes;
    uint32_t *records;      /* R * W: the records' words */
    uint32_t *numbers;      /* S: the slot's unique number, 0 for an empty slot */
    uint16_t *accounts;     /* S: the slot's account */
    uint16_t *maps;         /* S * N: file maps: 0 for a page of zeros, else record + 1 */
    uint16_t *limits;       /* Q: the account's limit, 0 to 65,535 pages */
    uint16_t *parents;      /* Q: the account's parent, a lower account; 0 for account 0 */
    uint32_t *highest;      /* 1: the highest number below 2,147,483,648 ever given */
    KeeperFrame *frames;    /* F: the frames: page, switches, transfer */
    uint32_t *frame_words;  /* F * W: the frames' words */
    uint16_t *free_queue;   /* F: the free frames, a queue: frame + 1, packed at the front, then 0 */
    uint16_t *removal_list; /* F: the frames that a claim looks at, a queue; it looks at the front first */
    uint16_t *addresses;    /* S * N: the page's address: 0, or record + 1 */
    uint8_t *states;        /* R: the record's state, 0 to 5 */
    uint8_t *owners;        /* R: the record's slot; 0 for a free record */
    uint32_t *free_map;     /* (R + 31) / 32: one bit a record, on where it is free: bit r % 32 of word r / 32 */
    uint8_t *active;        /* S: the slot's active switch, 0 or 1 */
    uint8_t *updating;      /* S: the slot's update-under-way switch, 0 or 1 */
    uint16_t *images;       /* S * N: map images: 0, or record + 1 */
    uint32_t *chip_words;   /* B * W: the chip's words: a copy of a live record's in each place that is taken, zeros in an empty one */
    uint16_t *chip_records; /* B: whose copy the chip's place holds: record + 1, 0 for an empty place */
    uint16_t *chip_next;    /* 1: the chip's place that is filled next */
    uint16_t *line;         /* 32: the waiting line, a queue of pages: slot * N + page + 1, packed at the front, then 0 */
    uint16_t *used;         /* Q: the account's used count */
    KeeperPool *pool;       /* 1: the hand, where the search for a free record starts for a page without a neighbour, and the count of free records */
} Keeper;

/* Whether each size is 1 to its most. */
static inline int keeper_sizes_fit(KeeperSizes sizes)
{
    return sizes.words >= 1 && sizes.words <= KEEPER_MOST_WORDS
        && sizes.records >= 1 && sizes.records <= KEEPER_MOST_RECORDS
        && sizes.frames >= 1 && sizes.frames <= KEEPER_MOST_FRAMES
        && sizes.slots >= 1 && sizes.slots <= KEEPER_MOST_SLOTS
        && sizes.pages >= 1 && sizes.pages <= KEEPER_MOST_PAGES
        && sizes.accounts >= 1 && sizes.accounts <= KEEPER_MOST_ACCOUNTS
        && sizes.chip >= 1 && sizes.chip <= KEEPER_MOST_CHIP;
}

/* The sizes by their letters. */
enum { KEEPER_SIZE_COUNT = 7 };
typedef struct {
    char letter;
    size_t value;
} KeeperSize;
static inline KeeperSize keeper_size(KeeperSizes sizes, size_t number)
{
    const KeeperSize all[KEEPER_SIZE_COUNT] = {{'W', sizes.words}, {'R', sizes.records}, {'F', sizes.frames}, {'S', sizes.slots}, {'N', sizes.pages}, {'Q', sizes.accounts}, {'B', sizes.chip}};
    return all[number];
}

/* .. and from numbers in that order, as a device keeps them. */
static inline KeeperSizes keeper_sizes_of(const uint32_t values[KEEPER_SIZE_COUNT])
{
    KeeperSizes sizes;
    sizes.words = values[0];
    sizes.records = values[1];
    sizes.frames = values[2];
    sizes.slots = values[3];
    sizes.pages = values[4];
    sizes.accounts = values[5];
    sizes.chip = values[6];
    return sizes;
}

/* Lays the tables into a block, one behind the other, and says how many bytes they take; without a block only that. */
static inline size_t keeper_lay(Keeper *keeper, unsigned char *block)
{
    const KeeperSizes sizes = keeper->sizes;
    size_t at = 0;
    keeper->records = (uint32_t *)keeper_take(block, &at, sizeof *keeper->records, sizes.records * sizes.words);
    keeper->numbers = (uint32_t *)keeper_take(block, &at, sizeof *keeper->numbers, sizes.slots);
    keeper->accounts = (uint16_t *)keeper_take(block, &at, sizeof *keeper->accounts, sizes.slots);
    keeper->maps = (uint16_t *)keeper_take(block, &at, sizeof *keeper->maps, sizes.slots * sizes.pages);
    keeper->limits = (uint16_t *)keeper_take(block, &at, sizeof *keeper->limits, sizes.accounts);
    keeper->parents = (uint16_t *)keeper_take(block, &at, sizeof *keeper->parents, sizes.accounts);
    keeper->highest = (uint32_t *)keeper_take(block, &at, sizeof *keeper->highest, 1);
    keeper->frames = (KeeperFrame *)keeper_take(block, &at, sizeof *keeper->frames, sizes.frames);
    keeper->frame_words = (uint32_t *)keeper_take(block, &at, sizeof *keeper->frame_words, sizes.frames * sizes.words);
    keeper->free_queue = (uint16_t *)keeper_take(block, &at, sizeof *keeper->free_queue, sizes.frames);
    keeper->removal_list = (uint16_t *)keeper_take(block, &at, sizeof *keeper->removal_list, sizes.frames);
    keeper->addresses = (uint16_t *)keeper_take(block, &at, sizeof *keeper->addresses, sizes.slots * sizes.pages);
    keeper->states = (uint8_t *)keeper_take(block, &at, sizeof *keeper->states, sizes.records);
    keeper->owners = (uint8_t *)keeper_take(block, &at, sizeof *keeper->owners, sizes.records);
    keeper->free_map = (uint32_t *)keeper_take(block, &at, sizeof *keeper->free_map, (sizes.records + 31) / 32);
    keeper->active = (uint8_t *)keeper_take(block, &at, sizeof *keeper->active, sizes.slots);
    keeper->updating = (uint8_t *)keeper_take(block, &at, sizeof *keeper->updating, sizes.slots);
    keeper->images = (uint16_t *)keeper_take(block, &at, sizeof *keeper->images, sizes.slots * sizes.pages);
    keeper->chip_words = (uint32_t *)keeper_take(block, &at, sizeof *keeper->chip_words, sizes.chip * sizes.words);
    keeper->chip_records = (uint16_t *)keeper_take(block, &at, sizeof *keeper->chip_records, sizes.chip);
    keeper->chip_next = (uint16_t *)keeper_take(block, &at, sizeof *keeper->chip_next, 1);
    keeper->line = (uint16_t *)keeper_take(block, &at, sizeof *keeper->line, 32);
    keeper->used = (uint16_t *)keeper_take(block, &at, sizeof *keeper->used, sizes.accounts);
    keeper->pool = (KeeperPool *)keeper_take(block, &at, sizeof *keeper->pool, 1);
    return at;
}

/* A table by its number: so a driver passes over the disk part without naming its tables. */
static inline KeeperTable keeper_table(const Keeper *keeper, size_t number)
{
    const KeeperSizes sizes = keeper->sizes;
    switch (number) {
    case KEEPER_TABLE_RECORDS: return keeper_described("records", keeper->records, sizeof *keeper->records, sizes.records * sizes.words);
    case KEEPER_TABLE_NUMBERS: return keeper_described("numbers", keeper->numbers, sizeof *keeper->numbers, sizes.slots);
    case KEEPER_TABLE_ACCOUNTS: return keeper_described("accounts", keeper->accounts, sizeof *keeper->accounts, sizes.slots);
    case KEEPER_TABLE_MAPS: return keeper_described("maps", keeper->maps, sizeof *keeper->maps, sizes.slots * sizes.pages);
    case KEEPER_TABLE_LIMITS: return keeper_described("limits", keeper->limits, sizeof *keeper->limits, sizes.accounts);
    case KEEPER_TABLE_PARENTS: return keeper_described("parents", keeper->parents, sizeof *keeper->parents, sizes.accounts);
    case KEEPER_TABLE_HIGHEST: return keeper_described("highest", keeper->highest, sizeof *keeper->highest, 1);
    case KEEPER_TABLE_FRAMES: return keeper_described("frames", keeper->frames, sizeof *keeper->frames, sizes.frames);
    case KEEPER_TABLE_FRAME_WORDS: return keeper_described("frame_words", keeper->frame_words, sizeof *keeper->frame_words, sizes.frames * sizes.words);
    case KEEPER_TABLE_FREE_QUEUE: return keeper_described("free_queue", keeper->free_queue, sizeof *keeper->free_queue, sizes.frames);
    case KEEPER_TABLE_REMOVAL_LIST: return keeper_described("removal_list", keeper->removal_list, sizeof *keeper->removal_list, sizes.frames);
    case KEEPER_TABLE_ADDRESSES: return keeper_described("addresses", keeper->addresses, sizeof *keeper->addresses, sizes.slots * sizes.pages);
    case KEEPER_TABLE_STATES: return keeper_described("states", keeper->states, sizeof *keeper->states, sizes.records);
    case KEEPER_TABLE_OWNERS: return keeper_described("owners", keeper->owners, sizeof *keeper->owners, sizes.records);
    case KEEPER_TABLE_FREE_MAP: return keeper_described("free_map", keeper->free_map, sizeof *keeper->free_map, (sizes.records + 31) / 32);
    case KEEPER_TABLE_ACTIVE: return keeper_described("active", keeper->active, sizeof *keeper->active, sizes.slots);
    case KEEPER_TABLE_UPDATING: return keeper_described("updating", keeper->updating, sizeof *keeper->updating, sizes.slots);
    case KEEPER_TABLE_IMAGES: return keeper_described("images", keeper->images, sizeof *keeper->images, sizes.slots * sizes.pages);
    case KEEPER_TABLE_CHIP_WORDS: return keeper_described("chip_words", keeper->chip_words, sizeof *keeper->chip_words, sizes.chip * sizes.words);
    case KEEPER_TABLE_CHIP_RECORDS: return keeper_described("chip_records", keeper->chip_records, sizeof *keeper->chip_records, sizes.chip);
    case KEEPER_TABLE_CHIP_NEXT: return keeper_described("chip_next", keeper->chip_next, sizeof *keeper->chip_next, 1);
    case KEEPER_TABLE_LINE: return keeper_described("line", keeper->line, sizeof *keeper->line, 32);
    case KEEPER_TABLE_USED: return keeper_described("used", keeper->used, sizeof *keeper->used, sizes.accounts);
    case KEEPER_TABLE_POOL: return keeper_described("pool", keeper->pool, sizeof *keeper->pool, 1);
    default: return keeper_described("", NULL, 0, 0);
    }
}

/* The calls of keeper.h over the struct: easy_ stands in their names. */
static inline KeeperAnswer keeper_easy_format(Keeper *keeper, const uint16_t *wanted)
{
    const KeeperSizes sizes = keeper->sizes;
    return keeper_format(
        sizes,
        keeper_wanted(wanted), sizes.accounts,
        keeper->records, sizes.records * sizes.words,
        keeper->numbers, sizes.slots,
        keeper->accounts, sizes.slots,
        keeper->maps, sizes.slots * sizes.pages,
        keeper->limits, sizes.accounts,
        keeper->parents, sizes.accounts,
        keeper->highest, 1);
}

static inline KeeperAnswer keeper_easy_restart(Keeper *keeper)
{
    const KeeperSizes sizes = keeper->sizes;
    return keeper_restart(
        sizes,
        keeper->frames, sizes.frames,
        keeper->pool,
        keeper->records, sizes.records * sizes.words,
        keeper->numbers, sizes.slots,
        keeper->accounts, sizes.slots,
        keeper->maps, sizes.slots * sizes.pages,
        keeper->limits, sizes.accounts,
        keeper->parents, sizes.accounts,
        keeper->highest, 1,
        keeper->frame_words, sizes.frames * sizes.words,
        keeper->free_queue, sizes.frames,
        keeper->removal_list, sizes.frames,
        keeper->addresses, sizes.slots * sizes.pages,
        keeper->states, sizes.records,
        keeper->owners, sizes.records,
        keeper->free_map, (sizes.records + 31) / 32,
        keeper->active, sizes.slots,
        keeper->updating, sizes.slots,
        keeper->images, sizes.slots * sizes.pages,
        keeper->chip_words, sizes.chip * sizes.words,
        keeper->chip_records, sizes.chip,
        keeper->chip_next, 1,
        keeper->line, 32,
        keeper->used, sizes.accounts);
}

static inline KeeperAnswer keeper_easy_apply(Keeper *keeper, KeeperRequest request)
{
    const KeeperSizes sizes = keeper->sizes;
    return keeper_apply(
        sizes,
        request,
        keeper->frames, sizes.frames,
        keeper->pool,
        keeper->records, sizes.records * sizes.words,
        keeper->numbers, sizes.slots,
        keeper->accounts, sizes.slots,
        keeper->maps, sizes.slots * sizes.pages,
        keeper->limits, sizes.accounts,
        keeper->parents, sizes.accounts,
        keeper->highest, 1,
        keeper->frame_words, sizes.frames * sizes.words,
        keeper->free_queue, sizes.frames,
        keeper->removal_list, sizes.frames,
        keeper->addresses, sizes.slots * sizes.pages,
        keeper->states, sizes.records,
        keeper->owners, sizes.records,
        keeper->free_map, (sizes.records + 31) / 32,
        keeper->active, sizes.slots,
        keeper->updating, sizes.slots,
        keeper->images, sizes.slots * sizes.pages,
        keeper->chip_words, sizes.chip * sizes.words,
        keeper->chip_records, sizes.chip,
        keeper->chip_next, 1,
        keeper->line, 32,
        keeper->used, sizes.accounts);
}

static inline KeeperAnswer keeper_easy_apply_all(Keeper *keeper, const KeeperRequest *requests, KeeperAnswer *answers, size_t count)
{
    const KeeperSizes sizes = keeper->sizes;
    return keeper_apply_all(
        sizes,
        KEEPER_REQUESTS(requests, count),
        KEEPER_ANSWERS(answers, count),
        keeper->frames, sizes.frames,
        keeper->pool,
        keeper->records, sizes.records * sizes.words,
        keeper->numbers, sizes.slots,
        keeper->accounts, sizes.slots,
        keeper->maps, sizes.slots * sizes.pages,
        keeper->limits, sizes.accounts,
        keeper->parents, sizes.accounts,
        keeper->highest, 1,
        keeper->frame_words, sizes.frames * sizes.words,
        keeper->free_queue, sizes.frames,
        keeper->removal_list, sizes.frames,
        keeper->addresses, sizes.slots * sizes.pages,
        keeper->states, sizes.records,
        keeper->owners, sizes.records,
        keeper->free_map, (sizes.records + 31) / 32,
        keeper->active, sizes.slots,
        keeper->updating, sizes.slots,
        keeper->images, sizes.slots * sizes.pages,
        keeper->chip_words, sizes.chip * sizes.words,
        keeper->chip_records, sizes.chip,
        keeper->chip_next, 1,
        keeper->line, 32,
        keeper->used, sizes.accounts);
}

static inline KeeperPart keeper_easy_page_look(const Keeper *keeper, size_t slot, size_t page)
{
    const KeeperSizes sizes = keeper->sizes;
    return keeper_page_look(
        sizes,
        slot,
        page,
        keeper->frames, sizes.frames,
        *keeper->pool,
        keeper->records, sizes.records * sizes.words,
        keeper->numbers, sizes.slots,
        keeper->accounts, sizes.slots,
        keeper->maps, sizes.slots * sizes.pages,
        keeper->limits, sizes.accounts,
        keeper->parents, sizes.accounts,
        keeper->highest, 1,
        keeper->frame_words, sizes.frames * sizes.words,
        keeper->free_queue, sizes.frames,
        keeper->removal_list, sizes.frames,
        keeper->addresses, sizes.slots * sizes.pages,
        keeper->states, sizes.records,
        keeper->owners, sizes.records,
        keeper->free_map, (sizes.records + 31) / 32,
        keeper->active, sizes.slots,
        keeper->updating, sizes.slots,
        keeper->images, sizes.slots * sizes.pages,
        keeper->chip_words, sizes.chip * sizes.words,
        keeper->chip_records, sizes.chip,
        keeper->chip_next, 1,
        keeper->line, 32,
        keeper->used, sizes.accounts);
}

static inline KeeperAnswer keeper_easy_mend(Keeper *keeper, KeeperChange *changes, size_t places)
{
    const KeeperSizes sizes = keeper->sizes;
    return keeper_mend(
        sizes,
        keeper->records, sizes.records * sizes.words,
        keeper->numbers, sizes.slots,
        keeper->accounts, sizes.slots,
        keeper->maps, sizes.slots * sizes.pages,
        keeper->limits, sizes.accounts,
        keeper->parents, sizes.accounts,
        keeper->highest, 1,
        (uint32_t *)changes, 4 * places);
}

static inline KeeperAnswer keeper_easy_export(const Keeper *keeper, size_t slot, uint8_t *sheet, size_t sheet_count)
{
    const KeeperSizes sizes = keeper->sizes;
    return keeper_export(
        sizes,
        slot,
        sheet, sheet_count,
        keeper->frames, sizes.frames,
        *keeper->pool,
        keeper->records, sizes.records * sizes.words,
        keeper->numbers, sizes.slots,
        keeper->accounts, sizes.slots,
        keeper->maps, sizes.slots * sizes.pages,
        keeper->limits, sizes.accounts,
        keeper->parents, sizes.accounts,
        keeper->highest, 1,
        keeper->frame_words, sizes.frames * sizes.words,
        keeper->free_queue, sizes.frames,
        keeper->removal_list, sizes.frames,
        keeper->addresses, sizes.slots * sizes.pages,
        keeper->states, sizes.records,
        keeper->owners, sizes.records,
        keeper->free_map, (sizes.records + 31) / 32,
        keeper->active, sizes.slots,
        keeper->updating, sizes.slots,
        keeper->images, sizes.slots * sizes.pages,
        keeper->chip_words, sizes.chip * sizes.words,
        keeper->chip_records, sizes.chip,
        keeper->chip_next, 1,
        keeper->line, 32,
        keeper->used, sizes.accounts);
}

static inline KeeperAnswer keeper_easy_import(Keeper *keeper, size_t slot, size_t account, uint32_t number, const uint8_t *sheet, size_t sheet_count)
{
    const KeeperSizes sizes = keeper->sizes;
    return keeper_import(
        sizes,
        slot,
        account,
        number,
        sheet, sheet_count,
        keeper->frames, sizes.frames,
        keeper->pool,
        keeper->records, sizes.records * sizes.words,
        keeper->numbers, sizes.slots,
        keeper->accounts, sizes.slots,
        keeper->maps, sizes.slots * sizes.pages,
        keeper->limits, sizes.accounts,
        keeper->parents, sizes.accounts,
        keeper->highest, 1,
        keeper->frame_words, sizes.frames * sizes.words,
        keeper->free_queue, sizes.frames,
        keeper->removal_list, sizes.frames,
        keeper->addresses, sizes.slots * sizes.pages,
        keeper->states, sizes.records,
        keeper->owners, sizes.records,
        keeper->free_map, (sizes.records + 31) / 32,
        keeper->active, sizes.slots,
        keeper->updating, sizes.slots,
        keeper->images, sizes.slots * sizes.pages,
        keeper->chip_words, sizes.chip * sizes.words,
        keeper->chip_records, sizes.chip,
        keeper->chip_next, 1,
        keeper->line, 32,
        keeper->used, sizes.accounts);
}

/* The events, one function each; the values are in the order of the requests. */
static inline KeeperAnswer keeper_asked(
    Keeper *keeper, uint32_t kind, uint32_t first, uint32_t second, uint32_t third, uint32_t fourth)
{
    KeeperRequest request;
    request.kind = kind;
    request.first = first;
    request.second = second;
    request.third = third;
    request.fourth = fourth;
    return keeper_easy_apply(keeper, request);
}

static inline KeeperAnswer keeper_create(Keeper *keeper, uint32_t slot, uint32_t account, uint32_t number)
{
    return keeper_asked(keeper, KEEPER_CREATE, slot, account, number, 0);
}

static inline KeeperAnswer keeper_delete(Keeper *keeper, uint32_t slot)
{
    return keeper_asked(keeper, KEEPER_DELETE, slot, 0, 0, 0);
}

static inline KeeperAnswer keeper_activate(Keeper *keeper, uint32_t slot)
{
    return keeper_asked(keeper, KEEPER_ACTIVATE, slot, 0, 0, 0);
}

static inline KeeperAnswer keeper_deactivate(Keeper *keeper, uint32_t slot)
{
    return keeper_asked(keeper, KEEPER_DEACTIVATE, slot, 0, 0, 0);
}

static inline KeeperAnswer keeper_fault(Keeper *keeper, uint32_t slot, uint32_t page)
{
    return keeper_asked(keeper, KEEPER_FAULT, slot, page, 0, 0);
}

static inline KeeperAnswer keeper_read(Keeper *keeper, uint32_t slot, uint32_t page, uint32_t word)
{
    return keeper_asked(keeper, KEEPER_READ, slot, page, word, 0);
}

static inline KeeperAnswer keeper_write(Keeper *keeper, uint32_t slot, uint32_t page, uint32_t word, uint32_t value)
{
    return keeper_asked(keeper, KEEPER_WRITE, slot, page, word, value);
}

static inline KeeperAnswer keeper_claim(Keeper *keeper)
{
    return keeper_asked(keeper, KEEPER_CLAIM, 0, 0, 0, 0);
}

static inline KeeperAnswer keeper_wire(Keeper *keeper, uint32_t slot, uint32_t page)
{
    return keeper_asked(keeper, KEEPER_WIRE, slot, page, 0, 0);
}

static inline KeeperAnswer keeper_unwire(Keeper *keeper, uint32_t slot, uint32_t page)
{
    return keeper_asked(keeper, KEEPER_UNWIRE, slot, page, 0, 0);
}

static inline KeeperAnswer keeper_truncate(Keeper *keeper, uint32_t slot, uint32_t k)
{
    return keeper_asked(keeper, KEEPER_TRUNCATE, slot, k, 0, 0);
}

static inline KeeperAnswer keeper_update(Keeper *keeper, uint32_t slot)
{
    return keeper_asked(keeper, KEEPER_UPDATE, slot, 0, 0, 0);
}

static inline KeeperAnswer keeper_page_done(Keeper *keeper, uint32_t frame, uint32_t good)
{
    return keeper_asked(keeper, KEEPER_PAGE_DONE, frame, good, 0, 0);
}

static inline KeeperAnswer keeper_map_done(Keeper *keeper, uint32_t slot, uint32_t good)
{
    return keeper_asked(keeper, KEEPER_MAP_DONE, slot, good, 0, 0);
}

static inline KeeperAnswer keeper_limit(Keeper *keeper, uint32_t account, uint32_t pages)
{
    return keeper_asked(keeper, KEEPER_LIMIT, account, pages, 0, 0);
}

static inline KeeperAnswer keeper_move(Keeper *keeper, uint32_t giver, uint32_t taker, uint32_t pages)
{
    return keeper_asked(keeper, KEEPER_MOVE, giver, taker, pages, 0);
}

static inline KeeperAnswer keeper_join(Keeper *keeper, uint32_t slot, uint32_t page)
{
    return keeper_asked(keeper, KEEPER_JOIN, slot, page, 0, 0);
}

static inline KeeperAnswer keeper_turn(Keeper *keeper)
{
    return keeper_asked(keeper, KEEPER_TURN, 0, 0, 0, 0);
}

/* A refusal in words. */
static inline const char *keeper_text(uint32_t refusal)
{
    switch (refusal) {
    case KEEPER_DONE: return "carried out in full";
    case KEEPER_NO_FIT: return "sizes out of limits, or a table of another length";
    case KEEPER_NO_RULE: return "the tables break a rule";
    case KEEPER_NO_RANGE: return "a value out of range, or a kind that is no event";
    case KEEPER_NO_DESIGN: return "the slot is empty";
    case KEEPER_SLOT_FILLED: return "create, import: the slot is filled";
    case KEEPER_NUMBER_TAKEN: return "create, import: the number stands in a slot";
    case KEEPER_MAP_NOT_EMPTY: return "delete: the map still lists pages";
    case KEEPER_NOT_ACTIVE: return "the design is not active";
    case KEEPER_ACTIVE: return "activate, delete, export: the design is active";
    case KEEPER_UPDATING: return "update, deactivate: an update of it is under way";
    case KEEPER_PAGES_IN: return "deactivate: a page of it is in a frame";
    case KEEPER_MAP_OLD: return "deactivate: its map is not up to date, or a record of it is nulled or released";
    case KEEPER_PAGE_OUT: return "the page is in no frame";
    case KEEPER_IN_TRANSFER: return "a page concerned is in transfer; of a read or a look: it is being read";
    case KEEPER_PAGE_IN: return "fault: the page is in a frame";
    case KEEPER_WIRED: return "a page concerned is wired";
    case KEEPER_NOT_WIRED: return "unwire: the page is not wired";
    case KEEPER_AT_LIMIT: return "write to a page that is not charged: the account that pays is at its limit or above; import: it has too few pages left";
    case KEEPER_NO_RECORD: return "fault: no record is free; import: fewer are free than the sheet has pages";
    case KEEPER_NO_FRAME: return "fault: no frame is free";
    case KEEPER_NOTHING_TO_CLAIM: return "claim, turn: the removal list is empty";
    case KEEPER_NO_TRANSFER: return "done: no such transfer or update is under way";
    case KEEPER_LIST_SHORT: return "mend: the list has fewer than S * (N + 2) places";
    case KEEPER_NO_MOVE: return "move: not parent and child, no pages, more than the giver has, or the taker would pass 65,535";
    case KEEPER_OVER_LIMIT: return "move: an account whose limit or count it changes would have more used than its limit";
    case KEEPER_LINE_FULL: return "join: 32 pages are waiting";
    case KEEPER_SHEET_WRONG: return "import: these bytes are no sheet";
    case KEEPER_SHEET_OTHER: return "import: the sheet is of a board with another W or N";
    case KEEPER_SHEET_SHORT: return "export: the buffer has fewer bytes than the sheet";
    case KEEPER_NUMBER_HIGH: return "create, import: the number is 2,147,483,648 or more";
    case KEEPER_NUMBER_GIVEN: return "create, import: the number is not above the highest ever given";
    default: return "no refusal of this keeper";
    }
}

/* A change's reason in words. */
static inline const char *keeper_reason(uint32_t reason)
{
    switch (reason) {
    case KEEPER_SAME_NUMBER: return "the slot's number stands in a lower slot, so the slot is emptied";
    case KEEPER_EMPTY_SLOT: return "the slot is empty, so its account is 0 and its map zero";
    case KEEPER_WRONG_ACCOUNT: return "there is no such account, so it becomes 0";
    case KEEPER_WRONG_ENTRY: return "there is no such record, so the page is one of zeros";
    case KEEPER_SHARED_RECORD: return "the record stands in another entry too, so it is in none";
    default: return "no reason of this keeper";
    }
}
/* end of tables and calls */

/* ── the block ── */

/* How many bytes all tables take, in one block; 0 for sizes out of limits. */
static inline size_t keeper_workspace(KeeperSizes sizes)
{
    Keeper keeper;
    keeper.sizes = sizes;
    return keeper_sizes_fit(sizes) ? keeper_lay(&keeper, NULL) : 0;
}

/* What keeper_place answers. */
enum {
    KEEPER_PLACED = 0,
    KEEPER_BAD_SIZES = 1,        /* a size is 0 or above its most */
    KEEPER_BLOCK_SHORT = 2,      /* fewer bytes than keeper_workspace says, or no block */
    KEEPER_BLOCK_MISALIGNED = 3  /* the block is at no multiple of KEEPER_ALIGNMENT */
};

/* Lays all tables into a block of so many bytes. Refused, keeper and block are as they were. The block's bytes stay either way. */
static inline int keeper_place(Keeper *keeper, KeeperSizes sizes, void *block, size_t bytes)
{
    if (!keeper_sizes_fit(sizes))
        return KEEPER_BAD_SIZES;
    if (block == NULL || bytes < keeper_workspace(sizes))
        return KEEPER_BLOCK_SHORT;
    if ((uintptr_t)block % KEEPER_ALIGNMENT != 0)
        return KEEPER_BLOCK_MISALIGNED;
    keeper->sizes = sizes;
    keeper_lay(keeper, (unsigned char *)block);
    return KEEPER_PLACED;
}

/* A page's words, W of them, as keeper_page_look finds them; none where the look is refused. Words are changed by keeper_write alone. */
static inline const uint32_t *keeper_words(const Keeper *keeper, uint32_t slot, uint32_t page)
{
    KeeperPart part = keeper_easy_page_look(keeper, slot, page);
    return part.refusal == KEEPER_DONE ? keeper->frame_words + part.start : NULL;
}

/* The lowest number that a create or an import takes now: no number is given twice, and a cut may have skipped one. 0 if none is left. */
static inline uint32_t keeper_next_number(const Keeper *keeper)
{
    return keeper->highest[0] < INT32_MAX ? keeper->highest[0] + 1 : 0;
}

/* ── what is to be transferred ── */

enum { KEEPER_NO_WAY = 0, KEEPER_READING = 1, KEEPER_WRITING = 2 };

/* A transfer under way. Reading: once the device has confirmed the record, report page done. Writing: store the words in the record,
 * then report page done. */
typedef struct {
    uint32_t way, frame, slot, page, record;
    const uint32_t *words; /* the frame's W words */
} KeeperTransfer;

/* The transfer of a frame; `way` is KEEPER_NO_WAY if it has none. */
static inline KeeperTransfer keeper_transfer(const Keeper *keeper, size_t frame)
{
    KeeperTransfer transfer;
    memset(&transfer, 0, sizeof transfer);
    if (frame < keeper->sizes.frames && keeper->frames[frame].transfer != KEEPER_NO_WAY && keeper->frames[frame].page != 0) {
        const uint32_t page = keeper->frames[frame].page - 1u;
        transfer.way = keeper->frames[frame].transfer;
        transfer.frame = (uint32_t)frame;
        transfer.slot = page / (uint32_t)keeper->sizes.pages;
        transfer.page = page % (uint32_t)keeper->sizes.pages;
        transfer.record = keeper->addresses[page] - 1u;
        transfer.words = keeper->frame_words + frame * keeper->sizes.words;
    }
    return transfer;
}

/* The first transfer in this frame or a later one. All of them:
 *   for (t = keeper_next_transfer(k, 0); t.way; t = keeper_next_transfer(k, t.frame + 1)) */
static inline KeeperTransfer keeper_next_transfer(const Keeper *keeper, size_t frame)
{
    while (frame < keeper->sizes.frames && keeper->frames[frame].transfer == KEEPER_NO_WAY)
        frame++;
    return keeper_transfer(keeper, frame);
}

/* The first slot from this one on whose map update is under way, or S; its image is keeper_image. */
static inline uint32_t keeper_next_update(const Keeper *keeper, uint32_t slot)
{
    while (slot < keeper->sizes.slots && !keeper->updating[slot])
        slot++;
    return slot;
}

/* What an update under way is to store as the slot's map: N entries. */
static inline const uint16_t *keeper_image(const Keeper *keeper, uint32_t slot)
{
    return keeper->images + slot * keeper->sizes.pages;
}

/* The frame that a page is in, or F. */
static inline size_t keeper_frame_of(const Keeper *keeper, uint32_t slot, uint32_t page)
{
    const uint32_t wanted = slot * (uint32_t)keeper->sizes.pages + page + 1;
    size_t frame = 0;
    while (frame < keeper->sizes.frames && keeper->frames[frame].page != wanted)
        frame++;
    return frame;
}

/* ── work in steps ── */

/* What a step asks for. After TRANSFER and MAP: do it, report it, take the next step. A step that is taken again before the report
 * asks for the same. */
enum {
    KEEPER_STEP_DONE = 0,     /* all is done */
    KEEPER_STEP_TRANSFER = 1, /* `transfer` is to be made; report keeper_page_done(keeper, transfer.frame, good) */
    KEEPER_STEP_MAP = 2,      /* keeper_image(keeper, slot) is to be stored as the slot's map; report keeper_map_done */
    KEEPER_STEP_LEFT = 3,     /* save: `page` stays unsaved, by `why`; the save goes on with the next step */
    KEEPER_STEP_REFUSED = 4   /* the keeper refused, by `refusal`; nothing more is done */
};

/* Why a save leaves a page unsaved. */
enum {
    KEEPER_LEFT_WIRED = 1,  /* it is wired: unwire it and save again */
    KEEPER_LEFT_CHANGED = 2 /* its write failed, or it was written again meanwhile: save again */
};

typedef struct {
    uint32_t what, slot, page, why, refusal;
    KeeperTransfer transfer;
} KeeperStep;

static inline KeeperStep keeper_step(uint32_t what, uint32_t slot, uint32_t page)
{
    KeeperStep step;
    memset(&step, 0, sizeof step);
    step.what = what;
    step.slot = slot;
    step.page = page;
    return step;
}

static inline KeeperStep keeper_step_refused(uint32_t slot, uint32_t page, uint32_t refusal)
{
    KeeperStep step = keeper_step(KEEPER_STEP_REFUSED, slot, page);
    step.refusal = refusal;
    return step;
}

static inline KeeperStep keeper_step_transfer(KeeperTransfer transfer)
{
    KeeperStep step = keeper_step(KEEPER_STEP_TRANSFER, transfer.slot, transfer.page);
    step.transfer = transfer;
    return step;
}

/* Brings a page into a frame: faults, and claims while no frame is free. Taken until it says DONE or REFUSED. A failed transfer is tried
 * again by the next step: a driver whose device is gone stops. REFUSED with 21: all frames are wired. */
static inline KeeperStep keeper_bring(Keeper *keeper, uint32_t slot, uint32_t page)
{
    for (;;) {
        size_t frame = slot < keeper->sizes.slots && page < keeper->sizes.pages ? keeper_frame_of(keeper, slot, page) : keeper->sizes.frames;
        if (frame < keeper->sizes.frames)
            return keeper->frames[frame].transfer ? keeper_step_transfer(keeper_transfer(keeper, frame)) : keeper_step(KEEPER_STEP_DONE, slot, page);
        uint32_t refusal = keeper_fault(keeper, slot, page).refusal;
        if (refusal == KEEPER_NO_FRAME) {
            KeeperTransfer before = keeper_next_transfer(keeper, 0);
            if (before.way)
                return keeper_step_transfer(before);
            refusal = keeper_claim(keeper).refusal;
            if (refusal == KEEPER_DONE && keeper_next_transfer(keeper, 0).way)
                return keeper_step_transfer(keeper_next_transfer(keeper, 0));
        }
        if (refusal != KEEPER_DONE)
            return keeper_step_refused(slot, page, refusal);
    }
}

/* ── save ── */

/* A save of a design: one struct a design, begun by keeper_save_begin. */
typedef struct {
    uint32_t slot, stage, left; /* left: how many pages stay unsaved */
    uint32_t back;              /* set it to 1 after the begin: pages that are saved are brought back into frames at the end */
    uint8_t tried[KEEPER_MOST_PAGES], named[KEEPER_MOST_PAGES];
    uint16_t image[KEEPER_MOST_PAGES];
} KeeperSave;

enum { KEEPER_SAVE_PAGES = 0, KEEPER_SAVE_UPDATE = 1, KEEPER_SAVE_MAP = 2, KEEPER_SAVE_BACK = 3, KEEPER_SAVE_OVER = 4 };

static inline KeeperSave keeper_save_begin(uint32_t slot)
{
    KeeperSave save;
    memset(&save, 0, sizeof save);
    save.slot = slot;
    return save;
}

/* Whether a frame has a changed page of the slot that is in no transfer. */
static inline int keeper_changed(const Keeper *keeper, uint32_t slot, size_t frame)
{
    const KeeperFrame *held = keeper->frames + frame;
    return held->page != 0 && (held->page - 1u) / keeper->sizes.pages == slot && held->modified && held->transfer == KEEPER_NO_WAY;
}

static inline uint32_t keeper_page_in(const Keeper *keeper, size_t frame)
{
    return (keeper->frames[frame].page - 1u) % (uint32_t)keeper->sizes.pages;
}

/* Wires or unwires the pages of these frames, in this order. */
static inline uint32_t keeper_hold(Keeper *keeper, const uint16_t *frames, size_t count, int wired)
{
    uint32_t refusal = KEEPER_DONE;
    for (size_t at = 0; at < count && refusal == KEEPER_DONE; at++) {
        const uint32_t page = keeper->frames[frames[at]].page - 1u, pages = (uint32_t)keeper->sizes.pages;
        refusal = (wired ? keeper_wire(keeper, page / pages, page % pages) : keeper_unwire(keeper, page / pages, page % pages)).refusal;
    }
    return refusal;
}

/* Claims the changed pages of the design that were not tried yet, and no other: the rest of the removal list is wired meanwhile, and is in its
 * old order after it, with initial off. `count` is how many were claimed. */
static inline uint32_t keeper_save_claims(Keeper *keeper, KeeperSave *save, size_t *count)
{
    uint16_t others[KEEPER_MOST_FRAMES];
    size_t held = 0;
    *count = 0;
    for (size_t at = 0; at < keeper->sizes.frames && keeper->removal_list[at] != 0; at++) {
        const size_t frame = keeper->removal_list[at] - 1u;
        if (keeper_changed(keeper, save->slot, frame) && !save->tried[keeper_page_in(keeper, frame)])
            ++*count, save->tried[keeper_page_in(keeper, frame)] = 1;
        else
            others[held++] = (uint16_t)frame;
    }
    if (*count == 0)
        return KEEPER_DONE;
    uint32_t refusal = keeper_hold(keeper, others, held, 1);
    for (size_t claims = 0; claims < *count && refusal == KEEPER_DONE; claims++)
        refusal = keeper_claim(keeper).refusal;
    const uint32_t after = keeper_hold(keeper, others, held, 0);
    return refusal != KEEPER_DONE ? refusal : after;
}

/* The open write of the design, if there is one. */
static inline KeeperTransfer keeper_save_write(const Keeper *keeper, uint32_t slot)
{
    KeeperTransfer transfer = keeper_next_transfer(keeper, 0);
    while (transfer.way && (transfer.way != KEEPER_WRITING || transfer.slot != slot))
        transfer = keeper_next_transfer(keeper, transfer.frame + 1);
    return transfer;
}

/* Names the next page that stays unsaved; DONE if there is none. */
static inline KeeperStep keeper_save_left(const Keeper *keeper, KeeperSave *save)
{
    for (size_t frame = 0; frame < keeper->sizes.frames; frame++) {
        if (!keeper_changed(keeper, save->slot, frame) || save->named[keeper_page_in(keeper, frame)])
            continue;
        KeeperStep step = keeper_step(KEEPER_STEP_LEFT, save->slot, keeper_page_in(keeper, frame));
        step.why = keeper->frames[frame].wired ? KEEPER_LEFT_WIRED : KEEPER_LEFT_CHANGED;
        save->named[step.page] = 1;
        save->left++;
        return step;
    }
    return keeper_step(KEEPER_STEP_DONE, save->slot, 0);
}

/* The first part of a save: the changed pages go to the disk. DONE: the map may be stored. */
static inline KeeperStep keeper_save_pages(Keeper *keeper, KeeperSave *save)
{
    for (;;) {
        size_t claimed;
        KeeperTransfer open = keeper_save_write(keeper, save->slot);
        if (open.way)
            return keeper_step_transfer(open);
        uint32_t refusal = keeper_save_claims(keeper, save, &claimed);
        if (refusal != KEEPER_DONE)
            return keeper_step_refused(save->slot, 0, refusal);
        if (claimed == 0)
            return keeper_save_left(keeper, save);
    }
}

/* The last part, if it is wanted: the pages that were claimed and are listed come back into frames. */
static inline KeeperStep keeper_save_back(Keeper *keeper, KeeperSave *save)
{
    for (uint32_t page = 0; page < keeper->sizes.pages && save->back; page++) {
        if (!save->tried[page] || keeper->maps[save->slot * keeper->sizes.pages + page] == 0)
            continue;
        KeeperStep step = keeper_bring(keeper, save->slot, page);
        if (step.what != KEEPER_STEP_DONE)
            return step;
        save->tried[page] = 0;
    }
    return keeper_step(KEEPER_STEP_DONE, save->slot, 0);
}

/* One step of a save: every changed page of the design goes to the disk, and the map that lists them. Taken until it says DONE or REFUSED.
 * Pages that are all zeros are written by no transfer; the map lists them no more. A failed map done begins the update again. `left` of
 * the save counts the pages that were named by LEFT: wired ones, and those whose write failed. */
static inline KeeperStep keeper_save(Keeper *keeper, KeeperSave *save)
{
    if (save->slot >= keeper->sizes.slots)
        return keeper_step_refused(save->slot, 0, KEEPER_NO_RANGE);
    const size_t bytes = keeper->sizes.pages * sizeof *keeper->images;
    uint16_t *map = keeper->maps + save->slot * keeper->sizes.pages;
    if (save->stage == KEEPER_SAVE_PAGES) {
        KeeperStep step = keeper_save_pages(keeper, save);
        if (step.what != KEEPER_STEP_DONE)
            return step;
        save->stage = KEEPER_SAVE_UPDATE;
    }
    if (save->stage <= KEEPER_SAVE_MAP && keeper->updating[save->slot])
        return keeper_step(KEEPER_STEP_MAP, save->slot, 0);
    if (save->stage == KEEPER_SAVE_UPDATE || (save->stage == KEEPER_SAVE_MAP && memcmp(map, save->image, bytes) != 0)) {
        const uint32_t refusal = keeper_update(keeper, save->slot).refusal;
        if (refusal != KEEPER_DONE)
            return keeper_step_refused(save->slot, 0, refusal);
        memcpy(save->image, keeper_image(keeper, save->slot), bytes);
        save->stage = KEEPER_SAVE_MAP;
        return keeper_step(KEEPER_STEP_MAP, save->slot, 0);
    }
    if (save->stage == KEEPER_SAVE_MAP)
        save->stage = KEEPER_SAVE_BACK;
    if (save->stage == KEEPER_SAVE_BACK) {
        KeeperStep step = keeper_save_back(keeper, save);
        if (step.what != KEEPER_STEP_DONE)
            return step;
        save->stage = KEEPER_SAVE_OVER;
    }
    return keeper_step(KEEPER_STEP_DONE, save->slot, 0);
}

#endif
