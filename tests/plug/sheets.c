/* Not proved: the weaver's design sheets. It exports designs at rest, imports what it exported or sheets of its own making, and tells of every page. */
#include "filedisk_inside.h"
#include "weaver.h"

enum { MOST_SHEET = KEEPER_SHEET_BYTES(PLUG_MOST_PAGES, PLUG_MOST_WORDS) };

/* A sheet, and how many bytes and pages it has. */
typedef struct {
    uint8_t bytes[MOST_SHEET];
    size_t length;
    uint32_t pages, number;
} Sheet;

/* ── the stores, watched ── */

/* Where the next record's store of an import is to go, pages rising: to the record that the slot's map names after so many others. */
static uint64_t next_record(const Run *run)
{
    const Keeper *keeper = run->own->keeper;
    const uint16_t *map = keeper->maps + run->slot * keeper->sizes.pages;
    size_t page = 0;
    for (uint32_t left = run->record_stores; page < keeper->sizes.pages; page++)
        if (map[page] != 0 && left-- == 0)
            break;
    return page == keeper->sizes.pages ? 0 : run->disk.table_at[KEEPER_TABLE_RECORDS] + 4 * (map[page] - 1u) * keeper->sizes.words;
}

/* A write to the journal's start is a store. One with several places is the slot's: it is told before it begins. The others are of the highest number,
 * first, and of records, in order. */
static int watched_write(void *self, uint64_t at, const void *from, size_t bytes)
{
    enum { PIECES = 12, PLACE = 24 }; /* where an entry of the journal has their number, and the place of the first */
    Run *run = self;
    const unsigned char *entry = from;
    const int store = run->numbering && at == FILEDISK_BLOCK, highest = store && is_highest(run, filedisk_get(entry + PLACE, 8));
    if (is_left_out(run, at, entry))
        return 0;
    if (run->importing && store && filedisk_get(entry + PIECES, 4) > 1) {
        tell(run, NOTE_SLOT, run->slot, run->number, run->account);
    } else if (run->importing && store && !highest) {
        if (filedisk_get(entry + PLACE, 8) != next_record(run) && run->own->wrong == WRONG_NONE)
            tell(run, NOTE_REFUSED, run->slot, run->record_stores, 0);
        run->record_stores++;
    }
    return run->device.write(run->device.self, at, from, bytes);
}

static int watched_read(void *self, uint64_t at, void *to, size_t bytes)
{
    Run *run = self;
    return run->device.read(run->device.self, at, to, bytes);
}

static int watched_sync(void *self)
{
    Run *run = self;
    return run->device.sync(run->device.self);
}

FileBlocks watched(Run *run, FileBlocks device)
{
    const FileBlocks blocks = {run, watched_read, watched_write, watched_sync};
    run->device = device;
    return blocks;
}

/* ── sheets ── */
static void put(Sheet *sheet, size_t width, uint32_t value)
{
    for (size_t byte = width; byte > 0; byte--)
        sheet->bytes[sheet->length++] = (uint8_t)(value >> 8 * (byte - 1));
}

static uint32_t get(const uint8_t *at, size_t width)
{
    uint32_t value = 0;
    for (size_t byte = 0; byte < width; byte++)
        value = value << 8 | at[byte];
    return value;
}

static void put_head(Sheet *sheet, uint32_t tag, size_t length)
{
    put(sheet, 1, tag);
    put(sheet, 2, (uint32_t)length);
}

/* Some pages, each of a version of its own, and any number. */
static void made_sheet(Run *run, Sheet *sheet)
{
    const KeeperSizes sizes = run->own->keeper->sizes;
    memset(sheet, 0, sizeof *sheet);
    sheet->number = 1 + chance(run, 1000);
    put_head(sheet, 3, 4);
    put(sheet, 2, (uint32_t)sizes.words);
    put(sheet, 2, (uint32_t)sizes.pages);
    put_head(sheet, 1, 4);
    put(sheet, 4, sheet->number);
    for (uint32_t page = 0; page < sizes.pages; page++) {
        if (chance(run, 2) == 0)
            continue;
        put_head(sheet, 2, 2 + 4 * sizes.words);
        put(sheet, 2, page);
        for (size_t word = 0; word < sizes.words; word++)
            put(sheet, 4, plug_word(run->own->next_version, word));
        run->own->next_version++;
        sheet->pages++;
    }
    put_head(sheet, 4, 0);
}

/* The sheet of a design at rest; the buffer's bytes behind it stay. */
static int exported(Run *run, Sheet *sheet, uint32_t slot)
{
    const Keeper *keeper = run->own->keeper;
    memset(sheet, 0xA5, sizeof *sheet);
    const KeeperAnswer answer = keeper_easy_export(keeper, slot, sheet->bytes, MOST_SHEET);
    sheet->length = answer.result;
    sheet->number = keeper->numbers[slot];
    sheet->pages = (uint32_t)((sheet->length - 17) / (5 + 4 * keeper->sizes.words));
    const int wrong = answer.refusal != KEEPER_DONE || (sheet->length < MOST_SHEET && sheet->bytes[sheet->length] != 0xA5);
    if (wrong)
        tell(run, NOTE_REFUSED, slot, 0, answer.refusal);
    return wrong ? -1 : 0;
}

/* What stands in the sheet, page by page, as the books want it. */
static void tell_sheet(Run *run, const Sheet *sheet, uint32_t slot, uint32_t number, uint32_t from)
{
    const size_t words = run->own->keeper->sizes.words;
    const uint8_t *at = sheet->bytes + 14;
    tell(run, NOTE_SHEET, slot, number, from);
    for (uint32_t page = 0; page < sheet->pages; page++, at += 5 + 4 * words) {
        uint32_t own[PLUG_MOST_WORDS];
        for (size_t word = 0; word < words; word++)
            own[word] = get(at + 5 + 4 * word, 4);
        tell_words(run, NOTE_SHEET_PAGE, slot, get(at + 3, 2), 0, own);
    }
}

void export_design(Run *run, uint32_t slot)
{
    Sheet sheet;
    if (exported(run, &sheet, slot) != 0)
        return;
    tell_sheet(run, &sheet, slot, run->own->keeper->numbers[slot], slot + 1);
    tell(run, NOTE_SHEET_END, slot, 0, 0);
}

/* ── import ── */

/* A slot whose design is at rest, from some one on, + 1; 0 if there is none. */
static uint32_t at_rest(Run *run)
{
    const Keeper *keeper = run->own->keeper;
    const uint32_t slots = (uint32_t)keeper->sizes.slots, first = chance(run, slots);
    for (uint32_t more = 0; more < slots; more++)
        if (keeper->numbers[(first + more) % slots] != 0 && !keeper->active[(first + more) % slots])
            return (first + more) % slots + 1;
    return 0;
}

void import_design(Run *run, uint32_t slot)
{
    Sheet sheet;
    Keeper *keeper = run->own->keeper;
    const int wrong = run->own->wrong == WRONG_SLOT_FIRST || run->own->wrong == WRONG_SLOT_IN_TWO;
    const uint32_t from = chance(run, 2) == 0 ? at_rest(run) : 0;
    if (from == 0)
        made_sheet(run, &sheet);
    else if (exported(run, &sheet, from - 1) != 0)
        return;
    run->slot = slot, run->number = new_number(run), run->account = chance(run, (uint32_t)keeper->sizes.accounts);
    tell_sheet(run, &sheet, slot, run->number, from);
    tell(run, NOTE_SHEET_END, slot, 1, 0);
    run->importing = run->numbering = 1, run->record_stores = run->highest_stores = 0;
    const KeeperAnswer answer = without_import(&run->disk, keeper, run->own->wrong, slot, run->account, run->number, sheet.bytes, sheet.length);
    run->importing = run->numbering = 0;
    if (answer.refusal != KEEPER_AT_LIMIT && answer.refusal != KEEPER_NO_RECORD)
        must_be_done(run, answer, slot, run->number);
    if (answer.refusal == KEEPER_DONE && !wrong && (answer.result != sheet.number || run->record_stores != sheet.pages || run->highest_stores != 1))
        tell(run, NOTE_REFUSED, slot, run->number, answer.result);
    if (!run->disk.dead)
        tell(run, NOTE_IMPORT_END, slot, answer.refusal == KEEPER_DONE, 0);
    remember(run);
}
