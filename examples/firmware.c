/* Not proved, tested by tests/firmware.sh. Two mills weave a design each; the power fails while pages and maps are on their way to the disk; both designs are read back.
 *   python3 tools/prove.py --lib keeper && cc -std=c11 -Wall -Iinclude examples/firmware.c target/staticlib/libkeeper.a -o target/firmware && target/firmware */
#include <stdio.h>
#include <string.h>
#include "keeper.h"

enum { W = 4, R = 8, F = 3, S = 2, N = 4, Q = 2, B = 2 };

static const KeeperSizes sizes = {.words = W, .records = R, .frames = F, .slots = S, .pages = N, .accounts = Q, .chip = B};

/* What survives a cut: a header block with the sizes that the disk was formatted with, and the disk part. Here the device and the
 * copy of it that is lent are one. */
static struct {
    KeeperSizes header;
    KEEPER_DISK_TABLES(W, R, F, S, N, Q, B)
} disk;

/* What does not. */
static struct {
    KEEPER_MEMORY_TABLES(W, R, F, S, N, Q, B)
} memory;

#define EVERYTHING KEEPER_LEND(memory.frames), &memory.pool, KEEPER_LEND_DISK(disk), KEEPER_LEND_MEMORY(memory)

static unsigned refused; /* calls that were refused */

/* What `done` gives for a call that was refused: no frame, and no number of looks. */
#define REFUSED UINT32_MAX

static uint32_t done(const char *what, KeeperAnswer answer)
{
    if (answer.refusal != KEEPER_DONE) {
        printf("%s: refused, %u\n", what, (unsigned)answer.refusal);
        refused++;
        return REFUSED;
    }
    return answer.result;
}

static uint32_t ask(const char *what, uint32_t kind, uint32_t first, uint32_t second, uint32_t third, uint32_t fourth)
{
    KeeperRequest request = {kind, first, second, third, fourth};
    return done(what, keeper_apply(sizes, request, EVERYTHING));
}

static void print_sizes(const char *before, const KeeperSizes *z)
{
    printf("%s W %zu R %zu F %zu S %zu N %zu Q %zu B %zu", before, z->words, z->records, z->frames, z->slots, z->pages, z->accounts, z->chip);
}

/* Whether the disk was formatted with these sizes. Asked before every restart: the keeper itself sees only lengths, and other
 * sizes can have the same ones. */
static int opens(const KeeperSizes *wanted)
{
    if (memcmp(&disk.header, wanted, sizeof *wanted) == 0)
        return 1;
    print_sizes("not opened with", wanted);
    print_sizes(": this disk has", &disk.header);
    puts("");
    return 0;
}

static void restart(void)
{
    if (!opens(&sizes)) {
        refused++;
        return;
    }
    done("restart", keeper_restart(sizes, EVERYTHING));
    printf("restart: %u records free\n", (unsigned)memory.pool.free);
}

/* The page comes into a frame; what it holds on the disk is read first. */
static void bring(uint32_t slot, uint32_t page)
{
    uint32_t frame = ask("fault", KEEPER_FAULT, slot, page, 0, 0);
    if (frame < F && memory.frames[frame].transfer == 1)
        ask("page done", KEEPER_PAGE_DONE, frame, 1, 0, 0);
}

/* A page is woven: its words count up from the first. Then its frame is claimed, and a write begins. Result: the frame,
 * or F where there is none. */
static uint32_t weave(uint32_t slot, uint32_t page, uint32_t first)
{
    bring(slot, page);
    for (uint32_t word = 0; word < W; word++)
        ask("write", KEEPER_WRITE, slot, page, word, first + word);
    uint32_t looks = ask("claim", KEEPER_CLAIM, 0, 0, 0, 0), frame = 0;
    if (looks == REFUSED)
        return F;
    while (frame < F && (memory.frames[frame].page != slot * N + page + 1 || memory.frames[frame].transfer != 2))
        frame++;
    printf("mill %u weaves page %u from %u on: %u looks, a write from frame %u begins\n", slot, page, first, looks, frame);
    return frame;
}

/* The words of a page whose write is under way: the weaver does not wait for its end. */
static void read_on(uint32_t slot, uint32_t page)
{
    printf("mill %u reads page %u while it is being written:", slot, page);
    for (uint32_t word = 0; word < W; word++)
        printf(" %u", (unsigned)ask("read", KEEPER_READ, slot, page, word, 0));
    puts("");
}

static void show(uint32_t slot, uint32_t page)
{
    bring(slot, page);
    KeeperPart part = keeper_page_look(sizes, slot, page, KEEPER_LEND(memory.frames), memory.pool, KEEPER_LEND_DISK(disk),
                                       KEEPER_LEND_MEMORY(memory));
    printf("mill %u page %u:", slot, page);
    for (size_t word = part.start; word < part.start + part.count; word++)
        printf(" %u", (unsigned)memory.frame_words[word]);
    printf(part.refusal == KEEPER_DONE ? "\n" : " refused, %u\n", (unsigned)part.refusal);
    ask("claim", KEEPER_CLAIM, 0, 0, 0, 0);
}

/* What the device does at a cut: of the transfers under way these land, whole; the others do not. */
static void land_page(uint32_t frame)
{
    size_t record = memory.addresses[memory.frames[frame].page - 1] - 1;
    memcpy(&disk.records[record * W], &memory.frame_words[frame * W], W * sizeof(uint32_t));
}

static void land_map(uint32_t slot)
{
    memcpy(&disk.maps[slot * N], &memory.images[slot * N], N * sizeof(uint16_t));
}

static void set_up(void)
{
    static const uint16_t parents[Q] = {0}; /* every account under account 0 */
    done("format", keeper_format(sizes, KEEPER_LEND(parents), KEEPER_LEND_DISK(disk)));
    disk.header = sizes; /* after the tables: a disk that was half formatted has no header */
    restart();
    for (uint32_t mill = 0; mill < S; mill++) {
        ask("limit", KEEPER_LIMIT, mill, N, 0, 0);
        ask("create", KEEPER_CREATE, mill, mill, 101 + mill, 0);
        ask("activate", KEEPER_ACTIVATE, mill, 0, 0, 0);
    }
}

int main(void)
{
    set_up();
    /* The first page of each design reaches the disk, and so do the maps that list them. */
    for (uint32_t mill = 0; mill < S; mill++) {
        ask("page done", KEEPER_PAGE_DONE, weave(mill, 0, mill == 0 ? 10 : 20), 1, 0, 0);
        ask("update", KEEPER_UPDATE, mill, 0, 0, 0);
        ask("map done", KEEPER_MAP_DONE, mill, 1, 0, 0);
    }
    /* So do the second pages; the maps that list them are on their way. */
    for (uint32_t mill = 0; mill < S; mill++) {
        ask("page done", KEEPER_PAGE_DONE, weave(mill, 1, mill == 0 ? 30 : 40), 1, 0, 0);
        ask("update", KEEPER_UPDATE, mill, 0, 0, 0);
    }
    /* The first pages are woven again, and are on their way; the weavers read on. */
    weave(0, 0, 50);
    uint32_t frame = weave(1, 0, 60);
    for (uint32_t mill = 0; mill < S; mill++)
        read_on(mill, 0);

    puts("the power fails: mill 0's map and mill 1's page have landed, mill 1's map and mill 0's page have not");
    land_map(0);
    if (frame < F)
        land_page(frame);
    memset(&memory, 0xA5, sizeof memory);

    /* Firmware for pages of twice the words, half as many: every table of the disk part has its length there too. */
    const KeeperSizes other = {.words = 2 * W, .records = R / 2, .frames = F, .slots = S, .pages = N, .accounts = Q, .chip = B};
    if (opens(&other))
        refused++;

    restart();
    for (uint32_t mill = 0; mill < S; mill++)
        ask("activate", KEEPER_ACTIVATE, mill, 0, 0, 0);
    for (uint32_t mill = 0; mill < S; mill++)
        for (uint32_t page = 0; page < 3; page++)
            show(mill, page);
    printf("%u calls refused\n", refused);
    return refused != 0;
}
