/* Design sheets: export and import. A sheet is a run of fields, each a tag, a length and so many bytes, every number high byte first. */
#include <string.h>
#include "inside.h"

enum { NUMBER = 1, PAGE = 2, SIZES = 3, END = 4 }; /* the tags */
enum { HEAD = 3 }; /* the bytes of a tag and a length */

static uint32_t get16(const uint8_t *at) { return (uint32_t)at[0] << 8 | at[1]; }
static uint32_t get32(const uint8_t *at) { return get16(at) << 16 | get16(at + 2); }

static uint8_t *put16(uint8_t *at, uint32_t value)
{
    at[0] = (uint8_t)(value >> 8);
    at[1] = (uint8_t)value;
    return at + 2;
}

static uint8_t *put32(uint8_t *at, uint32_t value)
{
    return put16(put16(at, value >> 16), value & 0xFFFF);
}

/* ── a sheet taken apart ── */

/* What is left of a sheet. */
struct rest { const uint8_t *at; size_t len; };

/* What a sheet says; its fields of pages, all of one length, begin at `first`. */
struct sheet { uint32_t words, pages, number; size_t count; const uint8_t *first; };

/* The bytes of the next field, if it has this tag and this length and is all there, or null. */
static const uint8_t *field(struct rest *rest, uint8_t tag, size_t length)
{
    const uint8_t *at = rest->at;
    if (rest->len < HEAD || at[0] != tag || get16(at + 1) != length || rest->len - HEAD < length)
        return NULL;
    rest->at += HEAD + length;
    rest->len -= HEAD + length;
    return at + HEAD;
}

static bool no_words(const uint8_t *at, size_t words)
{
    uint32_t found = 0;
    for (size_t word = 0; word < words && found == 0; word++)
        found = get32(at + 4 * word);
    return found == 0;
}

/* The pages: rising, below the sheet's own N, none all zeros. */
static bool parse_pages(struct rest *rest, struct sheet *sheet)
{
    uint32_t lowest = 0;
    sheet->first = rest->at;
    for (sheet->count = 0; rest->len > 0 && rest->at[0] == PAGE; sheet->count++) {
        const uint8_t *at = field(rest, PAGE, 2 + 4 * (size_t)sheet->words);
        if (at == NULL || get16(at) < lowest || get16(at) >= sheet->pages || no_words(at + 2, sheet->words))
            return false;
        lowest = get16(at) + 1;
    }
    return true;
}

/* Whether all of these bytes are a sheet, and what it says. */
static bool parse(const uint8_t *bytes, size_t count, struct sheet *sheet)
{
    struct rest rest = {bytes, count};
    const uint8_t *at = field(&rest, SIZES, 4);
    if (at == NULL)
        return false;
    sheet->words = get16(at);
    sheet->pages = get16(at + 2);
    at = field(&rest, NUMBER, 4);
    if (at == NULL || get32(at) == 0)
        return false;
    sheet->number = get32(at);
    return parse_pages(&rest, sheet) && field(&rest, END, 0) != NULL && rest.len == 0;
}

/* ── export ── */
static const uint32_t *listed(const struct keeper *k, size_t page)
{
    uint16_t entry = k->disk.maps.at[page];
    return entry == 0 ? NULL : k->disk.records.at + (entry - 1u) * k->sizes.words;
}

/* A page that is listed but holds zeros has no field. */
static bool is_shown(const struct keeper *k, const uint32_t *words)
{
    return words != NULL && !all_zero(words, k->sizes.words);
}

static size_t sheet_length(const struct keeper *k, size_t slot)
{
    size_t pages = 0, start = slot * k->sizes.pages;
    for (size_t page = start; page < start + k->sizes.pages; page++)
        pages += is_shown(k, listed(k, page));
    return 3 * HEAD + 8 + pages * (HEAD + 2 + 4 * k->sizes.words);
}

static uint8_t *put_head(uint8_t *at, uint8_t tag, size_t length)
{
    *at = tag;
    return put16(at + 1, (uint32_t)length);
}

static uint8_t *put_page(uint8_t *at, size_t page, const uint32_t *words, size_t count)
{
    at = put16(put_head(at, PAGE, 2 + 4 * count), (uint32_t)page);
    for (size_t word = 0; word < count; word++)
        at = put32(at, words[word]);
    return at;
}

static void put_sheet(const struct keeper *k, size_t slot, uint8_t *at)
{
    at = put16(put16(put_head(at, SIZES, 4), (uint32_t)k->sizes.words), (uint32_t)k->sizes.pages);
    at = put32(put_head(at, NUMBER, 4), k->disk.numbers.at[slot]);
    for (size_t page = 0; page < k->sizes.pages; page++) {
        const uint32_t *words = listed(k, slot * k->sizes.pages + page);
        if (is_shown(k, words))
            at = put_page(at, page, words, k->sizes.words);
    }
    put_head(at, END, 0);
}

struct answer keeper_export(const struct keeper *k, size_t slot, uint8_t *sheet, size_t sheet_count)
{
    uint32_t refusal = common(k);
    if (refusal == 0)
        refusal = slot >= k->sizes.slots ? 3 : k->disk.numbers.at[slot] == 0 ? 4 : k->memory.active.at[slot] ? 9 : 0;
    if (refusal != 0)
        return (struct answer){.refusal = refusal};
    size_t length = sheet_length(k, slot);
    if (length > sheet_count)
        return (struct answer){.refusal = 31};
    put_sheet(k, slot, sheet);
    return (struct answer){.result = (uint32_t)length};
}

/* ── import ── */

/* Questions 29, 30, and for all pages together 18 and 19. */
static uint32_t refuses_sheet(const struct keeper *k, size_t account, const uint8_t *bytes, size_t count, struct sheet *sheet)
{
    if (!parse(bytes, count, sheet))
        return 29;
    if (sheet->words != k->sizes.words || sheet->pages != k->sizes.pages)
        return 30;
    size_t pays = payer(k, k->disk.limits.at, account);
    if (sheet->count > 0 && k->memory.used.at[pays] + sheet->count > k->disk.limits.at[pays])
        return 18;
    return sheet->count > k->memory.pool->free ? 19 : 0;
}

/* Each page into a record: the first by the hand, the next ones near the one before. `map`: the entries that the slot gets. */
static void store_pages(struct keeper *k, size_t slot, const struct sheet *sheet, uint16_t *map)
{
    size_t words = k->sizes.words, record = 0;
    const uint8_t *at = sheet->first + HEAD;
    for (size_t number = 0; number < sheet->count; number++, at += HEAD + 2 + 4 * words) {
        record = number == 0 ? pick_by_hand(k) : pick_near(k, record);
        take(k, record, slot, FILED);
        for (size_t word = 0; word < words; word++)
            k->disk.records.at[record * words + word] = get32(at + 2 + 4 * word);
        map[get16(at)] = (uint16_t)(record + 1);
    }
}

struct answer keeper_import(struct keeper *k, size_t slot, size_t account, uint32_t number, const uint8_t *bytes, size_t count)
{
    struct sheet sheet;
    uint16_t map[MOST_PAGES] = {0};
    uint32_t refusal = common(k);
    if (refusal == 0 && (slot >= k->sizes.slots || account >= k->sizes.accounts || number == 0))
        refusal = 3;
    if (refusal == 0)
        refusal = refuses_create(k, slot, number);
    if (refusal == 0)
        refusal = refuses_sheet(k, account, bytes, count, &sheet);
    if (refusal != 0)
        return (struct answer){.refusal = refusal};
    k->disk.highest.at[0] = number;
    store_pages(k, slot, &sheet, map);
    k->memory.used.at[payer(k, k->disk.limits.at, account)] += (uint16_t)sheet.count;
    k->disk.numbers.at[slot] = number;
    k->disk.accounts.at[slot] = (uint16_t)account;
    memcpy(k->disk.maps.at + slot * k->sizes.pages, map, k->sizes.pages * sizeof *map);
    return (struct answer){.result = sheet.number};
}
