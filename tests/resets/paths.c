/* Not proved: every path of a few stores through resets, cuts and failing syncs, over sectors of 512 bytes. */
#include <stdlib.h>
#include "resets.h"

/* ── all choices, path by path ── */
enum { MOST_CHOICES = 256 };
static unsigned choice[MOST_CHOICES], options[MOST_CHOICES];
static size_t made, taken;

unsigned path_choose(unsigned below)
{
    if (taken == made) {
        if (made == MOST_CHOICES)
            abort();
        choice[made] = 0;
        options[made++] = below;
    }
    return choice[taken++];
}

static int next_path(void)
{
    taken = 0;
    while (made > 0 && choice[made - 1] + 1 == options[made - 1])
        made--;
    if (made > 0)
        choice[made - 1]++;
    return made > 0;
}

/* ── the board ── */
enum { WORDS = 256, BEHIND = 7 };
static const KeeperSizes sizes = {.words = WORDS, .records = 3, .frames = 2, .slots = 2, .pages = 2, .accounts = 2, .chip = 2};

void board_new(Board *board, int wrong, size_t grain, unsigned (*chooses)(unsigned))
{
    const size_t bytes = keeper_workspace(sizes);
    memset(board, 0, sizeof *board);
    keeper_place(&board->keeper, sizes, malloc(bytes), bytes);
    board->device = device_new(FILEDISK_BLOCK + FILEDISK_JOURNAL + 12 * FILEDISK_BLOCK, grain, chooses);
    board->wrong = wrong;
    if (filedisk_format(&board->disk, device_on(board->device, 0), &board->keeper, NULL) != FILEDISK_GOOD || board->disk.end != board->device->bytes)
        abort();
}

void board_free(Board *board)
{
    device_free(board->device);
    free(board->keeper.records);
}

int board_open(Board *board, unsigned countdown)
{
    return filedisk_open(&board->disk, without_on(&board->without, device_on(board->device, countdown), board->wrong), &board->keeper);
}

/* ── the stores ── */

/* A record of 1,024 bytes, three sectors of the journal: the first word, and the same words behind it each time. */
static int store_record(Board *board, uint32_t first)
{
    uint32_t words[WORDS];
    const FilePiece piece = {KEEPER_TABLE_RECORDS, 0, WORDS, words};
    for (size_t word = 0; word < WORDS; word++)
        words[word] = word == 0 ? first : BEHIND;
    return filedisk_store(&board->disk, &piece, 1);
}

/* A slot: its number and its account, in two sectors. */
static int store_slot(Board *board)
{
    const uint32_t number = 5;
    const uint16_t account = 1;
    const FilePiece pieces[2] = {{KEEPER_TABLE_NUMBERS, 1, 1, &number}, {KEEPER_TABLE_ACCOUNTS, 1, 1, &account}};
    return filedisk_store(&board->disk, pieces, 2);
}

/* Which record was stored: its first word, 0 if none was, or -1 if it is not whole. */
static int record_found(const Board *board)
{
    const uint32_t *words = board->keeper.records;
    for (size_t word = 1; word < WORDS; word++)
        if (words[word] != (words[0] == 0 ? 0 : BEHIND))
            return -1;
    return (int)words[0];
}

static int slot_found(const Board *board)
{
    const uint32_t number = board->keeper.numbers[1], account = board->keeper.accounts[1];
    return number == 0 && account == 0 ? 0 : number == 5 && account == 1 ? 1 : -1;
}

/* ── one store ── */

/* The most operations of a store: a write and a sync of the journal, two writes and a sync of its places; of one with one place, as that of the highest
 * number, one less. An open writes the header first, and that of the highest last. A format writes and syncs the header, the journal block by block,
 * seven tables, and the header. */
enum { STORE_OPERATIONS = 5, HIGHEST_OPERATIONS = 4, OPEN_OPERATIONS = 1 + STORE_OPERATIONS + HIGHEST_OPERATIONS, FORMAT_OPERATIONS = 2 + 17 + 8 + 2 };

int opens_agree(Board *board, int known, unsigned ends, unsigned operations, int (*found_by)(const Board *))
{
    for (unsigned end = 1; end <= ends; end++) {
        device_end(board->device);
        const int answer = board_open(board, end < ends ? path_choose(operations + 1) : 0);
        if (answer == FILEDISK_DEVICE && board->device->ended)
            continue;
        const int found = answer != FILEDISK_GOOD ? -1 : found_by(board);
        if (found < 0 || (known >= 0 && found != known))
            return 0;
        known = found;
    }
    return 1;
}

/* The store ends somewhere; so do some opens behind it. */
static int one_path(Board *board, int record, unsigned ends)
{
    board->disk.blocks = without_on(&board->without, device_on(board->device, 1 + path_choose(STORE_OPERATIONS)), board->wrong);
    const int known = (record ? store_record(board, 1) : store_slot(board)) == 0 ? 1 : -1;
    return opens_agree(board, known, ends, OPEN_OPERATIONS, record ? record_found : slot_found);
}

Found all_paths(Board *board, int (*path)(Board *, int, unsigned), int record, unsigned ends)
{
    Found found = {0, 0};
    const FileDisk opened = board->disk;
    unsigned char *start = malloc(board->device->bytes);
    memcpy(start, board->device->safe, board->device->bytes);
    made = taken = 0;
    do {
        board->disk = opened;
        device_load(board->device, start);
        found.broken += !path(board, record, ends);
        found.paths++;
    } while (next_path());
    free(start);
    return found;
}

Found paths_of_store(int wrong, int record, unsigned ends)
{
    Board board;
    board_new(&board, wrong, FILEDISK_BLOCK, path_choose);
    const Found found = all_paths(&board, one_path, record, ends);
    board_free(&board);
    return found;
}

/* ── two stores ── */

/* A store that ends somewhere, an open that finds it or not, another one that ends, and an open: it finds what the first one found, or the other. */
static int two_path(Board *board, int record, unsigned ends)
{
    (void)record, (void)ends;
    board->disk.blocks = without_on(&board->without, device_on(board->device, 1 + path_choose(STORE_OPERATIONS - 1)), board->wrong);
    store_record(board, 1);
    device_end(board->device);
    if (board_open(board, 0) != FILEDISK_GOOD)
        return 0;
    const int known = record_found(board);
    board->disk.blocks = without_on(&board->without, device_on(board->device, 1 + path_choose(STORE_OPERATIONS - 1)), board->wrong);
    store_record(board, 2);
    device_end(board->device);
    if (board_open(board, 0) != FILEDISK_GOOD)
        return 0;
    const int found = record_found(board);
    return known >= 0 && (found == known || found == 2);
}

Found paths_of_two(int wrong)
{
    Board board;
    board_new(&board, wrong, FILEDISK_BLOCK, path_choose);
    const Found found = all_paths(&board, two_path, 1, 0);
    board_free(&board);
    return found;
}

/* ── a format over a disk ── */

/* The disk that was there, with a record, or the new one, or none. One that an open has found stays. */
static int format_path(Board *board, int record, unsigned ends)
{
    int known = -1;
    const FileBlocks blocks = without_on(&board->without, device_on(board->device, 1 + path_choose(FORMAT_OPERATIONS)), board->wrong);
    if (filedisk_format(&board->disk, blocks, &board->keeper, NULL) == FILEDISK_GOOD)
        known = 0;
    for (unsigned end = 0; end < ends; end++) {
        device_end(board->device);
        const int answer = board_open(board, 0), found = answer == FILEDISK_GOOD ? record_found(board) : answer == FILEDISK_NO_DISK ? record : -1;
        if (found < 0 || (known >= 0 && found != known))
            return 0;
        known = answer == FILEDISK_GOOD ? found : known;
    }
    return 1;
}

Found paths_of_format(int wrong)
{
    Board board;
    enum { NO_RECORD = 9 }; /* what is found where there is no disk */
    board_new(&board, WRONG_NONE, FILEDISK_BLOCK, path_choose);
    if (board_open(&board, 0) != FILEDISK_GOOD || store_record(&board, 1) != 0)
        abort();
    board.wrong = wrong;
    const Found found = all_paths(&board, format_path, NO_RECORD, 3);
    board_free(&board);
    return found;
}
