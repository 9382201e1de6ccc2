/* import PACK SLOT ACCOUNT NUMBER SHEET: makes the design of a sheet in an empty slot of a pack, of the form of examples/filedisk.h, for an account, with
 * a number. Not proved but for the keeper's own calls; tested by tests/sheets.sh. The import is tried on a copy in memory first, so a refused one writes
 * nothing to PACK. Then its stores go to PACK by the journal, the slot as the last of them: whatever fails, all designs that were there are as they were,
 * and the new one is there whole or not at all. On a refusal or a failure: a line that says what to do, and status 1. */
#define _POSIX_C_SOURCE 200809L
#include "packs.h"
#include "sheets.h"

/* What is asked for. */
typedef struct {
    const char *pack, *path;
    uint32_t slot, account, number;
    const uint8_t *bytes;
    size_t count;
} Asked;

static int out_of_range(const Asked *asked, KeeperSizes sizes)
{
    if (asked->slot >= sizes.slots)
        fprintf(stderr, "import: %s: there is no slot %u: its slots are 0 to %zu\n", asked->pack, (unsigned)asked->slot, sizes.slots - 1);
    else if (asked->account >= sizes.accounts)
        fprintf(stderr, "import: %s: there is no account %u: its accounts are 0 to %zu\n", asked->pack, (unsigned)asked->account, sizes.accounts - 1);
    else
        fprintf(stderr, "import: %s: a design's number is 1 or more\n", asked->pack);
    return 1;
}

static int number_high(const Asked *asked)
{
    fprintf(stderr, "import: %s: number %u is too high: give the design one of 2147483647 or less\n", asked->pack, (unsigned)asked->number);
    return 1;
}

static int slot_filled(const Asked *asked, const Keeper *keeper)
{
    fprintf(stderr, "import: %s: slot %u has design %u: choose an empty one", asked->pack, (unsigned)asked->slot, (unsigned)keeper->numbers[asked->slot]);
    int none = 1;
    for (size_t slot = 0; slot < keeper->sizes.slots; slot++)
        if (keeper->numbers[slot] == 0) {
            fprintf(stderr, "%s %zu", none ? ":" : ",", slot);
            none = 0;
        }
    fputs(none ? "; there is none: a design is to be deleted first\n" : "\n", stderr);
    return 1;
}

static int number_taken(const Asked *asked, const Keeper *keeper)
{
    size_t slot = 0;
    while (slot + 1 < keeper->sizes.slots && keeper->numbers[slot] != asked->number)
        slot++;
    fprintf(stderr, "import: %s: number %u stands in slot %zu: give the design a number of its own\n", asked->pack, (unsigned)asked->number, slot);
    return 1;
}

static int number_given(const Asked *asked, const Keeper *keeper)
{
    const uint32_t next = keeper_next_number(keeper);
    fprintf(stderr, "import: %s: number %u was given before, or skipped: ", asked->pack, (unsigned)asked->number);
    if (next != 0)
        fprintf(stderr, "give the design %u or a higher one\n", (unsigned)next);
    else
        fputs("no number is left on this pack\n", stderr);
    return 1;
}

/* Who pays for a design of the account: it, or the first on the way up with a limit above 0, or account 0. */
static size_t payer(const Keeper *keeper, size_t account)
{
    while (account > 0 && keeper->limits[account] == 0)
        account = keeper->parents[account];
    return account;
}

/* What is said about a sheet that is one. */
static int sheet_refused(const Asked *asked, const Keeper *keeper, const Sheet *sheet, uint32_t refusal)
{
    const size_t pays = payer(keeper, asked->account);
    if (refusal == KEEPER_SHEET_OTHER)
        fprintf(stderr, "import: %s: it has %u pages of %u words, %s has %zu pages of %zu words: only a pack of the same W and N takes it\n", asked->path,
                (unsigned)sheet->pages, (unsigned)sheet->words, asked->pack, keeper->sizes.pages, keeper->sizes.words);
    else if (refusal == KEEPER_AT_LIMIT)
        fprintf(stderr, "import: %s: the sheet has %zu pages; account %zu, which pays, uses %u of %u: raise its limit, or take another account\n", asked->pack,
                sheet->count, pays, (unsigned)keeper->used[pays], (unsigned)keeper->limits[pays]);
    else
        fprintf(stderr, "import: %s: the sheet has %zu pages, %u records are free: truncate pages of other designs and update them\n", asked->pack,
                sheet->count, (unsigned)keeper->pool->free);
    return 1;
}

/* The keeper's refusal in words. It has left everything as it was. */
static int refused(const Asked *asked, const Keeper *keeper, uint32_t refusal)
{
    Sheet sheet;
    size_t where;
    const char *wrong = take_apart(asked->bytes, asked->count, &sheet, &where);
    switch (refusal) {
    case KEEPER_NO_RANGE: return out_of_range(asked, keeper->sizes);
    case KEEPER_NUMBER_HIGH: return number_high(asked);
    case KEEPER_SLOT_FILLED: return slot_filled(asked, keeper);
    case KEEPER_NUMBER_TAKEN: return number_taken(asked, keeper);
    case KEEPER_NUMBER_GIVEN: return number_given(asked, keeper);
    case KEEPER_SHEET_WRONG: return no_sheet("import", asked->path, wrong ? wrong : "the keeper refuses it", where);
    case KEEPER_SHEET_OTHER: case KEEPER_AT_LIMIT: case KEEPER_NO_RECORD: return sheet_refused(asked, keeper, &sheet, refusal);
    default: return complain("import", asked->pack, keeper_text(refusal));
    }
}

/* Into the pack, which is open for this program alone. */
static int imported(const Asked *asked, FileBlocks blocks)
{
    FileDisk disk;
    Keeper keeper;
    if (read_tables("import", asked->pack, &disk, blocks, &keeper) != 0 || restart_pack("import", asked->pack, &disk, &keeper) != 0)
        return 1;
    KeeperAnswer answer = keeper_easy_import(&keeper, asked->slot, asked->account, asked->number, asked->bytes, asked->count);
    if (answer.refusal != KEEPER_DONE)
        return refused(asked, &keeper, answer.refusal);
    if (filedisk_open(&disk, blocks, &keeper) != FILEDISK_GOOD)
        return complain("import", asked->pack, disk.line);
    answer = filedisk_import(&disk, &keeper, asked->slot, asked->account, asked->number, asked->bytes, asked->count);
    if (answer.refusal == FILEDISK_DIED)
        return complain("import", asked->pack, "the device failed in a store: the design is there whole or not at all; import it again, under a higher number if this one is refused; if the slot is, it is there");
    if (answer.refusal != KEEPER_DONE)
        return refused(asked, &keeper, answer.refusal);
    printf("%s is design %u in slot %u of %s; on the board that it came from it was %u\n", asked->path, (unsigned)asked->number, (unsigned)asked->slot,
           asked->pack, (unsigned)answer.result);
    return 0;
}

int main(int count, char **words)
{
    FileDisk disk;
    FileBlocks blocks;
    Asked asked;
    if (count != 6 || !is_number(words[2], &asked.slot) || !is_number(words[3], &asked.account) || !is_number(words[4], &asked.number)) {
        fprintf(stderr, "usage: import PACK SLOT ACCOUNT NUMBER SHEET; SLOT, ACCOUNT and NUMBER are numbers\n");
        return 1;
    }
    asked.pack = words[1], asked.path = words[5];
    asked.bytes = read_sheet("import", asked.path, &asked.count);
    if (asked.bytes == NULL)
        return 1;
    if (filedisk_file(&disk, &blocks, asked.pack, FILEDISK_OPEN) != FILEDISK_GOOD)
        return complain("import", asked.pack, disk.line);
    const int bad = imported(&asked, blocks);
    filedisk_close(&blocks);
    return bad;
}
