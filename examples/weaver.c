/* Not proved, tested by tests/weaver.sh: a whole firmware over a file, with keeper_easy.h and filedisk.h. Each run is a power-on.
 *   weaver FILE weave SLOT PAGE FIRST    writes the page's words, counting up from FIRST, and saves the design
 *   weaver FILE show                     what every design has
 *   weaver FILE format [erase]           a new disk; of a file that has anything in it, it says what that is, and wants the word erase
 * A file that is not there is made and formatted by the first weave. Nothing else formats by itself. */
#include <stdio.h>
#include <stdlib.h>
#include "filedisk.h"

enum { WORDS = 4 };
static const KeeperSizes sizes = {.words = WORDS, .records = 16, .frames = 4, .slots = 2, .pages = 6, .accounts = 2, .chip = 4};
static Keeper keeper;
static FileDisk disk;

static int failed(const char *what, uint32_t refusal)
{
    printf("%s: %s\n", what, refusal == FILEDISK_DIED || disk.dead ? disk.line : keeper_text(refusal));
    return 1;
}

/* The first design is 101, each other one has the next number; a cut inside a create skips one. */
static uint32_t new_number(void)
{
    const uint32_t next = keeper_next_number(&keeper);
    return next > 101 ? next : 101;
}

/* Opens the disk, or makes it if it may and there is no such file, and gives every slot a design. */
static int power_on(const char *path, FileBlocks *blocks, int makes)
{
    const int made = makes ? filedisk_file(&disk, blocks, path, FILEDISK_NEW) : FILEDISK_THERE;
    int answer = made == FILEDISK_THERE ? filedisk_file(&disk, blocks, path, FILEDISK_OPEN) : made;
    if (answer == FILEDISK_GOOD)
        answer = made == FILEDISK_GOOD ? filedisk_format(&disk, *blocks, &keeper, NULL) : filedisk_open(&disk, *blocks, &keeper);
    if (answer != FILEDISK_GOOD)
        return failed(path, FILEDISK_DIED);
    for (uint32_t slot = 0; slot < sizes.slots; slot++) {
        uint32_t refusal = KEEPER_DONE;
        if (keeper.numbers[slot] == 0)
            refusal = filedisk_limit(&disk, &keeper, slot, (uint32_t)sizes.pages).refusal;
        if (keeper.numbers[slot] == 0 && refusal == KEEPER_DONE)
            refusal = filedisk_create(&disk, &keeper, slot, slot, new_number()).refusal;
        if (refusal == KEEPER_DONE)
            refusal = keeper_activate(&keeper, slot).refusal;
        if (refusal != KEEPER_DONE)
            return failed(path, refusal);
    }
    return 0;
}

/* A page's words in one call; writes store nothing to the disk part, so nothing is brought to the device. The first refusal, or 0. */
static uint32_t write_page(uint32_t slot, uint32_t page, uint32_t first)
{
    KeeperRequest requests[WORDS];
    KeeperAnswer answers[WORDS];
    for (uint32_t word = 0; word < WORDS; word++)
        requests[word] = (KeeperRequest){KEEPER_WRITE, slot, page, word, first + word};
    keeper_easy_apply_all(&keeper, requests, answers, WORDS);
    for (uint32_t word = 0; word < WORDS; word++)
        if (answers[word].refusal != KEEPER_DONE)
            return answers[word].refusal;
    return KEEPER_DONE;
}

static int weave(const uint32_t values[3])
{
    uint32_t left, refusal = filedisk_bring(&disk, &keeper, values[0], values[1]);
    if (refusal == KEEPER_DONE)
        refusal = write_page(values[0], values[1], values[2]);
    if (refusal == KEEPER_DONE)
        refusal = filedisk_save(&disk, &keeper, values[0], &left);
    return refusal == KEEPER_DONE ? 0 : failed("weave", refusal);
}

static int show(void)
{
    for (uint32_t slot = 0; slot < sizes.slots; slot++)
        for (uint32_t page = 0; page < sizes.pages; page++) {
            if (keeper.maps[slot * sizes.pages + page] == 0)
                continue;
            uint32_t refusal = filedisk_bring(&disk, &keeper, slot, page);
            if (refusal != KEEPER_DONE)
                return failed("show", refusal);
            printf("design %u page %u:", (unsigned)keeper.numbers[slot], (unsigned)page);
            for (size_t word = 0; word < sizes.words; word++)
                printf(" %u", (unsigned)keeper_words(&keeper, slot, page)[word]);
            puts("");
        }
    return 0;
}

/* What stands in a file, which stays as it is. */
static void describe(FileBlocks blocks)
{
    if (filedisk_read(&disk, blocks, &keeper) != FILEDISK_GOOD)
        printf("%s\n", disk.line);
    for (size_t at = 0; at < sizes.slots * sizes.pages && !disk.dead; at++)
        if (keeper.maps[at] != 0)
            printf("design %u page %u\n", (unsigned)keeper.numbers[at / sizes.pages], (unsigned)(at % sizes.pages));
}

/* A new disk. Of a file that has anything in it, it says what that is, and goes no further without the word. */
static int format(const char *path, int may_erase)
{
    FileBlocks blocks;
    int answer = filedisk_file(&disk, &blocks, path, FILEDISK_NEW);
    if (answer == FILEDISK_THERE)
        answer = filedisk_file(&disk, &blocks, path, FILEDISK_OPEN);
    if (answer != FILEDISK_GOOD)
        return failed(path, FILEDISK_DIED);
    if (filedisk_bytes(&blocks) > 0 && !may_erase) {
        printf("%s has %llu bytes. This would be erased:\n", path, (unsigned long long)filedisk_bytes(&blocks));
        describe(blocks);
        printf("To erase it: weaver %s format erase\n", path);
        return 1;
    }
    return filedisk_format(&disk, blocks, &keeper, NULL) == FILEDISK_GOOD ? 0 : failed(path, FILEDISK_DIED);
}

/* A number from 0 to 4,294,967,295, and nothing else. */
static int is_number(const char *word, uint32_t *value)
{
    char *end;
    const unsigned long long number = strtoull(word, &end, 10);
    *value = (uint32_t)number;
    return word[0] >= '0' && word[0] <= '9' && *end == 0 && number <= UINT32_MAX;
}

static int usage(void)
{
    puts("weaver FILE weave SLOT PAGE FIRST\nweaver FILE show\nweaver FILE format [erase]");
    return 2;
}

int main(int count, char **words)
{
    FileBlocks blocks;
    uint32_t values[3] = {0, 0, 0};
    const char *command = count > 2 ? words[2] : "";
    const int weaves = count == 6 && strcmp(command, "weave") == 0, shows = count == 3 && strcmp(command, "show") == 0;
    const int erases = count == 4 && strcmp(words[3], "erase") == 0, formats = strcmp(command, "format") == 0 && (count == 3 || erases);
    if (weaves && !(is_number(words[3], values) && is_number(words[4], values + 1) && is_number(words[5], values + 2))) {
        printf("weave: SLOT, PAGE and FIRST are numbers from 0 to %u\n", UINT32_MAX);
        return 2;
    }
    if (!weaves && !shows && !formats)
        return usage();
    const size_t bytes = keeper_workspace(sizes);
    if (keeper_place(&keeper, sizes, malloc(bytes), bytes) != KEEPER_PLACED)
        return 1;
    if (formats)
        return format(words[1], erases);
    if (power_on(words[1], &blocks, weaves) != 0)
        return 1;
    return weaves ? weave(values) : show();
}
