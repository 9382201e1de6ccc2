/* Not proved: the event program over keeper_easy.h, for tests/vectors on any processor: standard input to standard output. tests/cross/run.py
 * builds and runs it. */
#include <stdio.h>
#include "keeper_easy.h"

enum { MOST = 1 << 20, CUT = 16 };

/* The values of an event by its tag: how many, and which of them has 4 bytes; the others have 2. */
static const struct {
    uint8_t count, wide;
} shapes[CUT + 1] = {
    [KEEPER_CREATE] = {3, 2}, [KEEPER_DELETE] = {1, 9}, [KEEPER_ACTIVATE] = {1, 9}, [KEEPER_DEACTIVATE] = {1, 9},
    [KEEPER_FAULT] = {2, 9}, [KEEPER_READ] = {3, 9}, [KEEPER_WRITE] = {4, 3}, [KEEPER_CLAIM] = {0, 9},
    [KEEPER_WIRE] = {2, 9}, [KEEPER_UNWIRE] = {2, 9}, [KEEPER_TRUNCATE] = {2, 9}, [KEEPER_UPDATE] = {1, 9},
    [KEEPER_PAGE_DONE] = {2, 9}, [KEEPER_MAP_DONE] = {2, 9}, [KEEPER_LIMIT] = {2, 9}, [CUT] = {0, 9}};

static unsigned char input[MOST];
static uint64_t block[64];
static Keeper keeper;

/* A number of so many bytes, the high one first. */
static uint32_t number(const unsigned char *at, unsigned width)
{
    uint32_t value = 0;
    while (width-- > 0)
        value = value << 8 | *at++;
    return value;
}

/* The values of an event of this tag. */
static void values_of(uint32_t tag, const unsigned char *at, uint32_t values[4])
{
    for (unsigned which = 0; which < shapes[tag].count; which++) {
        const unsigned width = which == shapes[tag].wide ? 4 : 2;
        values[which] = number(at, width);
        at += width;
    }
}

/* How many bytes the field at a place takes, 0 for a bad one. */
static size_t field(size_t at, size_t length)
{
    if (length - at < 3 || input[at] < 1 || input[at] > CUT)
        return 0;
    const unsigned tag = input[at];
    const size_t bytes = 2u * shapes[tag].count + (shapes[tag].wide < 9 ? 2 : 0);
    return number(input + at + 1, 2) == bytes && length - at - 3 >= bytes ? 3 + bytes : 0;
}

int main(void)
{
    const KeeperSizes sizes = {2, 4, 2, 2, 3, 1, 2};
    const size_t length = fread(input, 1, MOST, stdin);
    if (keeper_place(&keeper, sizes, block, sizeof block) || keeper_easy_format(&keeper, NULL).refusal || keeper_easy_restart(&keeper).refusal)
        return 1;
    puts("n tag answer result");
    for (size_t at = 0, count = 1, bytes; at < length; at += bytes, count++) {
        uint32_t v[4] = {0};
        bytes = field(at, length);
        if (bytes == 0) {
            printf("bad field at %zu\n", at);
            break;
        }
        values_of(input[at], input + at + 3, v);
        const KeeperAnswer answer = input[at] == CUT ? keeper_easy_restart(&keeper) : keeper_asked(&keeper, input[at], v[0], v[1], v[2], v[3]);
        printf("%zu %02X %u %u\n", count, (unsigned)input[at], (unsigned)answer.refusal, (unsigned)answer.result);
    }
    return 0;
}
