/* The event program of paper 01: fields from standard input, a line for each event to standard output. */
#include <stdio.h>
#include <string.h>
#include "keeper.h"

enum { W = 2, R = 4, F = 2, S = 2, N = 3, Q = 1, B = 2 };

#define SLICE(table) {table, sizeof table / sizeof *table}

/* tables: made by tools/tables.py from tools/tables.txt */
static uint32_t records[R * W];
static uint32_t numbers[S];
static uint16_t accounts[S];
static uint16_t maps[S * N];
static uint16_t limits[Q];
static uint16_t parents[Q];
static uint32_t highest[1];
static struct frame frames[F];
static uint32_t frame_words[F * W];
static uint16_t free_queue[F];
static uint16_t removal_list[F];
static uint16_t addresses[S * N];
static uint8_t states[R];
static uint8_t owners[R];
static uint32_t free_map[(R + 31) / 32];
static uint8_t active[S];
static uint8_t updating[S];
static uint16_t images[S * N];
static uint32_t chip_words[B * W];
static uint16_t chip_records[B];
static uint16_t chip_next[1];
static uint16_t line[32];
static uint16_t used[Q];
static struct pool pool;

static struct keeper keeper = {
    .sizes = {W, R, F, S, N, Q, B},
    .disk = {
        SLICE(records),
        SLICE(numbers),
        SLICE(accounts),
        SLICE(maps),
        SLICE(limits),
        SLICE(parents),
        SLICE(highest),
    },
    .memory = {
        SLICE(frames),
        SLICE(frame_words),
        SLICE(free_queue),
        SLICE(removal_list),
        SLICE(addresses),
        SLICE(states),
        SLICE(owners),
        SLICE(free_map),
        SLICE(active),
        SLICE(updating),
        SLICE(images),
        SLICE(chip_words),
        SLICE(chip_records),
        SLICE(chip_next),
        SLICE(line),
        SLICE(used),
        &pool,
    },
};
/* end of tables */

/* The widths of a tag's values, 0 after the last. */
static const uint8_t widths[CUT + 1][4] = {
    [CREATE] = {2, 2, 4}, [DELETE] = {2}, [ACTIVATE] = {2}, [DEACTIVATE] = {2}, [FAULT] = {2, 2},
    [READ] = {2, 2, 2}, [WRITE] = {2, 2, 2, 4}, [CLAIM] = {0}, [WIRE] = {2, 2}, [UNWIRE] = {2, 2},
    [TRUNCATE] = {2, 2}, [UPDATE] = {2}, [PAGE_DONE] = {2, 2}, [MAP_DONE] = {2, 2}, [LIMIT] = {2, 2}, [CUT] = {0},
};

/* Reads so many bytes, high byte first; false at the input's end. */
static int number(unsigned count, uint32_t *value)
{
    *value = 0;
    for (; count > 0; count--) {
        int byte = getchar();
        if (byte == EOF)
            return 0;
        *value = *value << 8 | (uint32_t)byte;
    }
    return 1;
}

/* Reads the rest of a field; false if its tag is unknown, its length wrong or the field short. */
static int field(uint32_t tag, struct request *request, uint32_t *length)
{
    uint32_t values[4] = {0}, sum = 0;
    if (tag < CREATE || tag > CUT || !number(2, length))
        return 0;
    for (int i = 0; i < 4; i++)
        sum += widths[tag][i];
    if (*length != sum)
        return 0;
    for (int i = 0; i < 4; i++)
        if (!number(widths[tag][i], &values[i]))
            return 0;
    *request = (struct request){tag, values[0], values[1], values[2], values[3]};
    return 1;
}

/* At a cut no unreported transfer lands, and memory is lost. */
static struct answer cut_and_restart(void)
{
    memset(frames, 0xA5, sizeof frames);
    memset(frame_words, 0xA5, sizeof frame_words);
    memset(addresses, 0xA5, sizeof addresses);
    memset(states, 0xA5, sizeof states);
    memset(chip_words, 0xA5, sizeof chip_words);
    memset(chip_records, 0xA5, sizeof chip_records);
    memset(chip_next, 0xA5, sizeof chip_next);
    memset(line, 0xA5, sizeof line);
    return keeper_restart(&keeper);
}

int main(void)
{
    unsigned long count = 0, offset = 0;
    puts("n tag answer result");
    static const uint16_t wanted[Q];
    keeper_format(&keeper, wanted, Q);
    keeper_restart(&keeper);
    for (int tag; (tag = getchar()) != EOF;) {
        struct request request;
        uint32_t length = 0;
        if (!field((uint32_t)tag, &request, &length)) {
            printf("bad field at %lu\n", offset);
            break;
        }
        struct answer answer = tag == CUT ? cut_and_restart() : keeper_apply(&keeper, request);
        printf("%lu %02X %u %u\n", ++count, (unsigned)tag, (unsigned)answer.refusal, (unsigned)answer.result);
        offset += 3 + length;
    }
    return 0;
}
