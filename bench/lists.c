/* A list of 1,000 requests in one call, by whatever library of the keeper it is linked with: one that has no chip, or one with a chip of one place.
   bench/run.py builds it with each, for the lists that `bench write` has put into files, and makes the table. lists FILE SECONDS prints the
   least time in nanoseconds an event; lists FILE makes the call once, for callgrind to count. */
#include <stdbool.h>
#include <stdio.h>
#include <stdlib.h>
#include <string.h>
#include "keeper_easy.h"
#include "clock.h"

/* so many bytes before the library's code: where it lies in a line of 64 bytes decides how fast its short loops are */
#ifndef PLACE
#define PLACE 64
#endif
#define TEXT(number) #number
#define SKIP(number) ".text\n.skip " TEXT(number) ", 0x90\n"
__asm__(SKIP(PLACE));

enum { MOST = 1000, SIZES = 6, FRAME_BYTES = 7 /* an eighth is never looked at */ };

static Keeper lent;
static uint32_t count;
static KeeperRequest list[MOST];
static KeeperAnswer answers[MOST], wanted[MOST];
static unsigned char *tables, *end; /* of the file: at the start, and what the call must leave */

static void fail(const char *what)
{
    fprintf(stderr, "lists: %s\n", what);
    exit(1);
}

static void take(FILE *file, void *at, size_t bytes)
{
    if (fread(at, 1, bytes, file) != bytes)
        fail("a short file");
}

/* A table that the file has: all but the chip's. */
static bool is_written(const KeeperTable *table)
{
    return strncmp(table->name, "chip", 4) != 0;
}

/* What the file has of the tables, in bytes. */
static size_t written(void)
{
    size_t bytes = 0;
    for (size_t number = 0; number < KEEPER_TABLE_COUNT; number++) {
        const KeeperTable table = keeper_table(&lent, number);
        bytes += is_written(&table) ? table.width * table.count : 0;
    }
    return bytes;
}

static void read_list(const char *name)
{
    FILE *file = fopen(name, "rb");
    uint32_t values[KEEPER_SIZE_COUNT];
    for (size_t size = SIZES; size < KEEPER_SIZE_COUNT; size++)
        values[size] = 1;
    if (!file)
        fail("no file");
    take(file, values, SIZES * sizeof *values);
    take(file, &count, sizeof count);
    const KeeperSizes sizes = keeper_sizes_of(values);
    const size_t block = keeper_workspace(sizes);
    if (count > MOST || keeper_place(&lent, sizes, calloc(1, block), block) != KEEPER_PLACED)
        fail("no memory");
    take(file, list, count * sizeof *list);
    take(file, wanted, count * sizeof *wanted);
    const size_t bytes = written();
    tables = malloc(bytes), end = malloc(bytes);
    take(file, tables, bytes);
    take(file, end, bytes);
    fclose(file);
}

/* All tables as at the start; the chip's are empty. */
static void begin(void)
{
    const unsigned char *from = tables;
    for (size_t number = 0; number < KEEPER_TABLE_COUNT; number++) {
        const KeeperTable table = keeper_table(&lent, number);
        const size_t bytes = table.width * table.count;
        if (is_written(&table))
            memcpy(table.at, from, bytes), from += bytes;
        else
            memset(table.at, 0, bytes);
    }
}

/* The answers and the tables are those of the file. */
static void check(void)
{
    const unsigned char *from = end;
    if (memcmp(answers, wanted, count * sizeof *answers) != 0)
        fail("other answers");
    for (size_t number = 0; number < KEEPER_TABLE_COUNT; number++) {
        const KeeperTable table = keeper_table(&lent, number);
        const size_t looked = number == KEEPER_TABLE_FRAMES ? FRAME_BYTES : table.width;
        for (size_t n = 0; is_written(&table) && n < table.count; n++, from += table.width)
            if (memcmp((unsigned char *)table.at + n * table.width, from, looked) != 0)
                fail("other tables");
    }
}

int main(int words, char **word)
{
    if (words < 2)
        fail("lists FILE [SECONDS]");
    read_list(word[1]);
    uint64_t least = UINT64_MAX, own = UINT64_MAX;
    const uint64_t from = ticks();
    const double begun = seconds(), allowed = words > 2 ? atof(word[2]) : 0;
    for (long round = 0; round < 2 || seconds() - begun < allowed; round++) {
        begin();
        if (words == 2 && round == 1) /* the second, so that no first call of a library function is counted */
            callgrind(START);
        const uint64_t first = ticks(), start = ticks();
        keeper_easy_apply_all(&lent, list, answers, count);
        const uint64_t took = ticks() - start;
        if (words == 2 && round == 1)
            callgrind(STOP), callgrind(DUMP);
        check();
        own = start - first < own ? start - first : own;
        least = took < least ? took : least;
    }
    printf("%.2f\n", (double)(least - own) * (seconds() - begun) * 1e9 / (double)(ticks() - from) / (double)count);
    return 0;
}
