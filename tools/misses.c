/* Not proved, tested by tools/test_misses.py: how often a list of page uses misses, by the proved keeper itself.
 * Reads page numbers (0 to 16,383, 256 to a slot) from standard input. Alone: prints a line 'frames misses' for each of 1 to 64 frames.
 * With a number of frames: every page is on the disk at the start, and a line 'places misses reads' is printed for a chip of each of 1 to
 * 256 places: how many of the misses are reads from the disk. */
#include <stdio.h>
#include <stdlib.h>
#include "keeper_easy.h"

enum { MOST_USES = 1000000, PAGES = KEEPER_MOST_PAGES };

static uint32_t *uses;
static size_t count, highest;

static int done(KeeperAnswer answer, const char *what)
{
    if (answer.refusal != KEEPER_DONE)
        fprintf(stderr, "misses: %s: %s\n", what, keeper_text(answer.refusal));
    return answer.refusal == KEEPER_DONE;
}

/* A keeper of one design a slot, all active, with a record for every page. */
static int set_up(Keeper *keeper)
{
    if (!done(keeper_easy_format(keeper, NULL), "format") || !done(keeper_easy_restart(keeper), "restart"))
        return 0;
    if (!done(keeper_limit(keeper, 0, 65535), "limit"))
        return 0;
    for (uint32_t slot = 0; slot < keeper->sizes.slots; slot++)
        if (!done(keeper_create(keeper, slot, 0, slot + 1), "create") || !done(keeper_activate(keeper, slot), "activate"))
            return 0;
    return 1;
}

/* The same, from a disk that lists every page that is used: each is read from there once it is live. */
static int set_up_stored(Keeper *keeper)
{
    size_t taken = 0;
    if (!done(keeper_easy_format(keeper, NULL), "format"))
        return 0;
    keeper->limits[0] = 65535;
    for (size_t slot = 0; slot < keeper->sizes.slots; slot++)
        keeper->numbers[slot] = (uint32_t)slot + 1;
    for (size_t use = 0; use < count; use++)
        if (keeper->maps[uses[use]] == 0) {
            if (taken == keeper->sizes.records) {
                fprintf(stderr, "misses: more pages than %d records\n", KEEPER_MOST_RECORDS);
                return 0;
            }
            keeper->records[taken] = 1;
            keeper->maps[uses[use]] = (uint16_t)++taken;
        }
    if (!done(keeper_easy_restart(keeper), "restart"))
        return 0;
    for (uint32_t slot = 0; slot < keeper->sizes.slots; slot++)
        if (!done(keeper_activate(keeper, slot), "activate"))
            return 0;
    return 1;
}

/* Brings a page in; how many reads from the disk that takes, or -1 if a call is refused. */
static long bring(Keeper *keeper, uint32_t slot, uint32_t page)
{
    long reads = 0;
    KeeperStep step = keeper_bring(keeper, slot, page);
    for (; step.what == KEEPER_STEP_TRANSFER; step = keeper_bring(keeper, slot, page)) {
        reads += step.transfer.way == KEEPER_READING;
        if (!done(keeper_page_done(keeper, step.transfer.frame, 1), "page done"))
            return -1;
    }
    if (step.what == KEEPER_STEP_DONE)
        return reads;
    fprintf(stderr, "misses: page %u of slot %u: %s\n", (unsigned)page, (unsigned)slot, keeper_text(step.refusal));
    return -1;
}

/* How many uses find their page in no frame, and how many of these read it from the disk; -1 if a call is refused. */
static long misses(Keeper *keeper, long *reads)
{
    long missed = 0;
    *reads = 0;
    for (size_t use = 0; use < count; use++) {
        const uint32_t slot = uses[use] / PAGES, page = uses[use] % PAGES;
        if (keeper_frame_of(keeper, slot, page) == keeper->sizes.frames) {
            const long taken = bring(keeper, slot, page);
            if (taken < 0)
                return -1;
            missed++;
            *reads += taken;
        }
        if (!done(keeper_read(keeper, slot, page, 0), "read"))
            return -1;
    }
    return missed;
}

/* One keeper over all uses: so many frames and places of the chip, from an empty disk or from one that has the pages. */
static long ran(size_t frames, size_t places, int stored, long *reads)
{
    Keeper keeper;
    const size_t slots = highest / PAGES + 1, pages = slots > 1 ? PAGES : highest + 1;
    const size_t records = slots * pages < KEEPER_MOST_RECORDS ? slots * pages : KEEPER_MOST_RECORDS;
    const KeeperSizes sizes = {1, records, frames, slots, pages, 1, places};
    const size_t bytes = keeper_workspace(sizes);
    void *block = malloc(bytes);
    long missed = -1;
    if (block != NULL && keeper_place(&keeper, sizes, block, bytes) == KEEPER_PLACED && (stored ? set_up_stored(&keeper) : set_up(&keeper)))
        missed = misses(&keeper, reads);
    free(block);
    return missed;
}

/* The page uses, from standard input. */
static int read_uses(void)
{
    unsigned long page;
    uses = malloc(MOST_USES * sizeof *uses);
    while (uses && count < MOST_USES && scanf("%lu", &page) == 1 && page < (unsigned long)KEEPER_MOST_SLOTS * PAGES) {
        uses[count++] = (uint32_t)page;
        highest = page > highest ? page : highest;
    }
    if (!feof(stdin))
        fprintf(stderr, "misses: not a page number below %d, or more than %d of them\n", KEEPER_MOST_SLOTS * PAGES, MOST_USES);
    return feof(stdin);
}

int main(int words, char **word)
{
    const size_t frames = words > 1 ? strtoul(word[1], NULL, 10) : 0, most = frames ? KEEPER_MOST_CHIP : KEEPER_MOST_FRAMES;
    long missed = 0, reads;
    if (!read_uses())
        return 1;
    for (size_t size = 1; size <= most && missed >= 0; size++) {
        missed = frames ? ran(frames, size, 1, &reads) : ran(size, 1, 0, &reads);
        if (missed >= 0 && frames)
            printf("%zu %ld %ld\n", size, missed, reads);
        else if (missed >= 0)
            printf("%zu %ld\n", size, missed);
    }
    free(uses);
    return missed < 0;
}
