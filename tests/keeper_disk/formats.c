/* Not proved: cuts within a format, and every bit of the header and of the commit sector fallen over. */
#include <stdio.h>
#include <stdlib.h>
#include "board.h"

/* ── cuts within a format ── */
static const KeeperSizes tiny = {.words = 1, .records = 1, .frames = 1, .slots = 1, .pages = 1, .accounts = 1, .chip = 1};

/* After it there is no disk, or the old one, or the new one, whole; and only the new one, once it was told. */
static void judge_format(const Board *board, const Device *device, const States *states, int rubbish, int told)
{
    Board opened;
    board_like(&opened, board);
    opened.device = *device;
    device_end_at(&opened.device, 0, 0);
    const int answer = board_open(&opened), found = answer == KEEPER_DISK_GOOD ? states_find(states, &opened) : -1;
    if (answer != KEEPER_DISK_GOOD && answer != KEEPER_DISK_BLANK && !(rubbish && answer == KEEPER_DISK_FOREIGN))
        broken("a cut in a format leaves what is neither a disk nor blank");
    if ((answer == KEEPER_DISK_GOOD && found < 0) || (told && found != (int)states->count - 1))
        broken("a cut in a format leaves a disk that is not whole, or none though it was told");
    board_free(&opened);
}

static void cut_format(const Board *before, const States *states, int rubbish, uint32_t deaf)
{
    Board board;
    uint8_t lands[DEVICE_OPEN];
    int ended = 1;
    board_like(&board, before);
    for (uint32_t operation = 1; ended; operation++)
        for (int way = 0; way < WAYS; way++) {
            board_copy(&board, before);
            board.device.deaf = deaf;
            device_end_at(&board.device, operation, way);
            const int told = keeper_disk_format(&board.disk, device_on(&board.device), &board.keeper, NULL) == KEEPER_DISK_GOOD;
            ended = board.device.ended;
            board.device.ended = 0;
            board.device.deaf = 0;
            judge_format(&board, &board.device, states, rubbish, told);
            for (uint32_t mix = 0; mix < 1u << board.device.count; mix++, cuts++) {
                Device after = board.device;
                for (uint32_t write = 0; write < after.count; write++)
                    lands[write] = mix >> write & 1;
                device_cut(&after, lands);
                judge_format(&board, &after, states, rubbish, told);
            }
        }
    board_free(&board);
}

/* A format of a device that has an old disk, and of one that has rubbish. */
void attack_format(void)
{
    Board board;
    States states = {0, 0, {NULL}};
    uint8_t rubbish[DISK_BYTES];
    const uint32_t deaf = wrong == WRONG_NO_FIRST_SYNC ? 2 : wrong == WRONG_NO_LAST_SYNC ? 3 : 0;
    board_new(&board, tiny);
    if (keeper_disk_format(&board.disk, device_on(&board.device), &board.keeper, NULL) != KEEPER_DISK_GOOD || make_limit(&board, 0, 5) != 0)
        broken("a format is refused");
    states_add(&states, &board);
    keeper_easy_format(&board.keeper, NULL);
    states_add(&states, &board);
    cut_format(&board, &states, 0, deaf);
    memset(rubbish, 0x5A, sizeof rubbish);
    for (uint32_t sector = 0; sector < board.device.sectors; sector++)
        device_poke(&board.device, sector, rubbish);
    cut_format(&board, &states, 1, deaf);
    states_free(&states);
    board_free(&board);
}

/* ── bits ── */
static const KeeperSizes small = {.words = 130, .records = 6, .frames = 4, .slots = 2, .pages = 3, .accounts = 2, .chip = 1};
static unsigned long refused, harmless, unseen;

static int opens_with(const Board *board, const States *states, uint32_t sector, size_t bit, unsigned long *writes)
{
    Board opened;
    uint8_t bytes[DISK_BYTES];
    board_like(&opened, board);
    memcpy(bytes, device_peek(&opened.device, sector), sizeof bytes);
    bytes[bit / 8] ^= (uint8_t)(1u << bit % 8);
    device_poke(&opened.device, sector, bytes);
    opened.device.writes = 0;
    const int answer = board_open(&opened);
    *writes = opened.device.writes;
    const int same = answer == KEEPER_DISK_GOOD && states_find(states, &opened) == 0;
    board_free(&opened);
    return answer == KEEPER_DISK_GOOD ? (same ? 0 : -1) : answer;
}

/* Whether a fallen bit of the commit sector makes another entry of it that is sound: the lowest bit of its sequence number, or another home sector. */
static int is_sound(const Board *board, size_t bit)
{
    uint32_t words[DISK_WORDS];
    disk_from_bytes(device_peek(&board->device, KEEPER_DISK_COMMIT), words);
    words[bit / 32] ^= 1u << bit % 32;
    const size_t word = bit / 32;
    return bit == 32 || (word >= KEEPER_DISK_NAMED && word < KEEPER_DISK_NAMED + words[2] && words[word] > 0 && words[word] < board->disk.room);
}

static void flip(const Board *board, const States *states, uint32_t sector)
{
    for (size_t bit = 0; bit < 8 * DISK_BYTES; bit++) {
        unsigned long writes;
        const int answer = opens_with(board, states, sector, bit, &writes);
        const int late = answer < 0 || answer > KEEPER_DISK_JOURNAL;
        refused += answer > 0 && !late;
        harmless += answer == 0;
        unseen += (unsigned long)late;
        if (answer > 0 && !late && writes > 0)
            broken("a disk is refused and written to");
        if (late && (sector != KEEPER_DISK_COMMIT || !is_sound(board, bit)))
            broken("a fallen bit is not seen");
        if (sector != KEEPER_DISK_COMMIT && answer <= 0)
            broken("a fallen bit of the header is not seen");
    }
}

void flip_bits(void)
{
    Board board;
    States states = {0, 0, {NULL}};
    board_new(&board, small);
    kinds[0].prepare(&board);
    make_limit(&board, 1, 2);
    keeper_disk_sync(&board.disk);
    keeper_disk_create(&board.disk, &board.keeper, 1, 1, 7); /* a commit sector that names three home sectors */
    keeper_disk_sync(&board.disk);
    states_add(&states, &board);
    flip(&board, &states, disk_home(0));
    flip(&board, &states, KEEPER_DISK_COMMIT);
    printf("bits: %lu refused, %lu harmless, %lu make another sound entry of the commit sector\n", refused, harmless, unseen);
    states_free(&states);
    board_free(&board);
}
