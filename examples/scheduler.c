/* Not proved, tested by tests/firmware.sh: a scheduler over keeper_easy.h. Weavers ask for pages, which wait in the keeper's line; a loop of turns and
 * done reports serves them in order of arrival, over fewer frames than pages. What it prints is examples/scheduler.out. */
#include <stdio.h>
#include <stdlib.h>
#include "keeper_easy.h"

enum { WORDS = 4, MILLS = 2, PAGES = 4 };
static const KeeperSizes sizes = {.words = WORDS, .records = 8, .frames = 2, .slots = MILLS + 1, .pages = PAGES, .accounts = 1, .chip = 1};
static Keeper keeper;

/* The device. The lent tables are all that there is here, so each transfer ends well at once, and is reported. */
static void transfers(void)
{
    for (KeeperTransfer t = keeper_next_transfer(&keeper, 0); t.way; t = keeper_next_transfer(&keeper, t.frame + 1)) {
        printf("  %s of page %u of slot %u is done\n", t.way == KEEPER_READING ? "the read" : "the write", (unsigned)t.page, (unsigned)t.slot);
        keeper_page_done(&keeper, (uint32_t)t.frame, 1);
    }
}

/* A weaver whose page is served adds a thread to each word; it stays there until a later turn claims its frame. */
static void weave(uint32_t slot, uint32_t page)
{
    for (uint32_t word = 0; word < WORDS; word++)
        keeper_write(&keeper, slot, page, word, keeper_read(&keeper, slot, page, word).result + 1 + word);
    printf("  page %u of slot %u is woven:", (unsigned)page, (unsigned)slot);
    for (uint32_t word = 0; word < WORDS; word++)
        printf(" %u", (unsigned)keeper_words(&keeper, slot, page)[word]);
    puts("");
}

static void ask(uint32_t slot, uint32_t page)
{
    const KeeperAnswer answer = keeper_join(&keeper, slot, page);
    printf("page %u of slot %u %s\n", (unsigned)page, (unsigned)slot, answer.refusal == KEEPER_DONE ? "waits" : keeper_text(answer.refusal));
}

/* Turns and dones until nobody waits; how many turns it took, or 0 if a turn is refused. */
static unsigned schedule(void)
{
    unsigned turns = 0;
    while (keeper.line[0] != 0) {
        transfers();
        const uint32_t first = keeper.line[0] - 1u, slot = first / PAGES, page = first % PAGES;
        const KeeperAnswer answer = keeper_turn(&keeper);
        if (answer.refusal != KEEPER_DONE) {
            printf("turn refused: %s\n", keeper_text(answer.refusal));
            return 0;
        }
        printf("turn %u, page %u of slot %u: ", ++turns, (unsigned)page, (unsigned)slot);
        if (answer.result == 1)
            puts("served"), weave(slot, page);
        else if (answer.result != 0)
            printf("sent away: %s\n", keeper_text(answer.result));
        else
            puts(keeper_frame_of(&keeper, slot, page) < sizes.frames ? "it gets a frame" : "a frame is claimed for it");
    }
    return turns;
}

int main(void)
{
    const size_t bytes = keeper_workspace(sizes);
    void *block = malloc(bytes);
    if (keeper_place(&keeper, sizes, block, bytes) != KEEPER_PLACED || keeper_easy_format(&keeper, NULL).refusal != KEEPER_DONE
        || keeper_easy_restart(&keeper).refusal != KEEPER_DONE || keeper_limit(&keeper, 0, 8).refusal != KEEPER_DONE)
        return 1;
    for (uint32_t slot = 0; slot < MILLS; slot++)
        if (keeper_create(&keeper, slot, 0, 101 + slot).refusal != KEEPER_DONE || keeper_activate(&keeper, slot).refusal != KEEPER_DONE)
            return 1;
    ask(0, 0), ask(1, 0), ask(0, 1), ask(2, 0), ask(0, 0), ask(1, 0);
    const unsigned turns = schedule();
    printf("%u turns for 6 requests, at most %u\n", turns, 3 * 6u);
    /* all frames wired: nothing can be claimed, and the turn says so */
    for (size_t frame = 0; frame < sizes.frames; frame++)
        keeper_wire(&keeper, (keeper.frames[frame].page - 1u) / PAGES, (keeper.frames[frame].page - 1u) % PAGES);
    ask(1, 3);
    schedule();
    free(block);
    return turns == 0 || turns > 3 * 6;
}
