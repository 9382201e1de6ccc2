/* The page keeper's calls, for C: link libkeeper.a, of x86-64 or of make cross. docs/USING.md says what the tables mean and in which order to call.
 *
 * All tables are lent by the caller, as a pointer and a count of elements each; the keeper keeps no memory of its own, never
 * allocates, never blocks, and every call ends. A table of a wrong length is answered 1. After a refusal everything lent is as it
 * was. What the caller owes: no pointer is null, each is aligned as its elements, no two tables, lists or sheets overlap, one call at a
 * time on one set of tables; and for one disk the same sizes at every call, from its format on. The keeper does not store the
 * sizes and cannot tell: a disk formatted with W 16 and R 8 has all its lengths with W 8 and R 16 too, restart answers 0, and
 * then one design shows another's words. Keep the sizes on the device and refuse others, as examples/firmware.c does. */
#ifndef KEEPER_H
#define KEEPER_H

#include <stddef.h>
#include <stdint.h>

#ifdef __cplusplus
extern "C" {
#endif

/* Limits of the sizes: each is 1 to its most. */
enum {
    KEEPER_MOST_WORDS = 1024,   /* W, words of 32 bits in a page */
    KEEPER_MOST_RECORDS = 4096, /* R */
    KEEPER_MOST_FRAMES = 64,    /* F */
    KEEPER_MOST_SLOTS = 64,     /* S, design slots */
    KEEPER_MOST_PAGES = 256,    /* N, pages in a design */
    KEEPER_MOST_ACCOUNTS = 16,  /* Q */
    KEEPER_MOST_CHIP = 256      /* B, places of the chip */
};

/* The sizes; for one disk the same ones at every call. */
typedef struct {
    size_t words, records, frames, slots, pages, accounts, chip;
} KeeperSizes;

/* A memory frame. page: 0 for none, else slot * N + page + 1. Switches: 0 or 1. transfer: 0 none, 1 reading, 2 writing. */
typedef struct {
    uint16_t page;
    uint8_t used, modified, wired, initial, transfer;
} KeeperFrame;

/* The hand, where the search for a free record starts for a page without a neighbour, and the count of free records. */
typedef struct {
    uint32_t hand, free;
} KeeperPool;

/* What is asked for: a kind, and its values in the order that the kind names. Values that a kind has no use for are ignored. */
typedef struct {
    uint32_t kind, first, second, third, fourth;
} KeeperRequest;

/* refusal: 0, or the number of the first question that fails. result: 0 on every refusal, and where a kind names none. */
typedef struct {
    uint32_t refusal, result;
} KeeperAnswer;

/* Which part of frame_words a page is: count words from start. Refused: start and count 0. */
typedef struct {
    uint32_t refusal;
    size_t start, count;
} KeeperPart;

/* A change that mend lists: the slot; the page, or N for the slot's number or account; what stood there; and the step that changed it. */
typedef struct {
    uint32_t slot, page, old, reason;
} KeeperChange;

/* The reasons of a change. */
enum {
    KEEPER_SAME_NUMBER = 1,   /* the slot's number stands in a lower slot, so the slot is emptied */
    KEEPER_EMPTY_SLOT = 2,    /* the slot is empty, so its account is 0 and its map zero */
    KEEPER_WRONG_ACCOUNT = 3, /* there is no such account, so it becomes 0 */
    KEEPER_WRONG_ENTRY = 4,   /* there is no such record, so the page is one of zeros */
    KEEPER_SHARED_RECORD = 5  /* the record stands in another entry too, so it is in none */
};

/* The layouts that the calls take. They are proved for a size_t of 8 bytes; where it has 4, the archive of make cross widens it. */
#if defined __cplusplus
#define KEEPER_ASSERT static_assert
#elif __STDC_VERSION__ >= 201112L
#define KEEPER_ASSERT _Static_assert
#else /* C99: an array of no length is an error */
#define KEEPER_ASSERT(holds, text) extern const char keeper_holds[(holds) ? 1 : -1]
#endif
#if defined __x86_64__
KEEPER_ASSERT(sizeof(size_t) == 8, "on x86-64 the library is for pointers of 64 bits");
#endif
KEEPER_ASSERT(sizeof(size_t) == 8 || sizeof(size_t) == 4, "a platform of 64 or 32 bits");
KEEPER_ASSERT(sizeof(KeeperSizes) == 7 * sizeof(size_t), "seven sizes");
KEEPER_ASSERT(sizeof(KeeperFrame) == 8 && offsetof(KeeperFrame, transfer) == 6, "page at 0, used at 2, .., transfer at 6");
KEEPER_ASSERT(sizeof(KeeperPool) == 8, "hand at 0, free at 4");
KEEPER_ASSERT(sizeof(KeeperRequest) == 20, "five numbers of 4 bytes");
KEEPER_ASSERT(sizeof(KeeperAnswer) == 8, "refusal at 0, result at 4");
KEEPER_ASSERT(sizeof(KeeperChange) == 16, "four numbers of 4 bytes");
KEEPER_ASSERT(sizeof(KeeperPart) == 3 * sizeof(size_t) && offsetof(KeeperPart, start) == sizeof(size_t), "refusal, start, count, each at a multiple of size_t");

/* Arrays of requests and answers as arguments of keeper_apply_all: so many structs are the numbers that it takes. */
#define KEEPER_REQUESTS(list, count) (const uint32_t *)(list), 5 * (size_t)(count)
#define KEEPER_ANSWERS(list, count) (uint32_t *)(list), 2 * (size_t)(count)

/* How many bytes the longest sheet has that keeper_export writes: every page has a word that is not 0. */
#define KEEPER_SHEET_BYTES(N, W) (17 + (N) * (5 + 4 * (W)))

/* The kinds of request. */
enum {
    KEEPER_CREATE = 1,      /* slot, account, number: two stores, highest, then the slot */
    KEEPER_DELETE = 2,      /* slot */
    KEEPER_ACTIVATE = 3,    /* slot */
    KEEPER_DEACTIVATE = 4,  /* slot */
    KEEPER_FAULT = 5,       /* slot, page; result: the frame */
    KEEPER_READ = 6,        /* slot, page, word; result: the word */
    KEEPER_WRITE = 7,       /* slot, page, word, value */
    KEEPER_CLAIM = 8,       /* result: the number of looks */
    KEEPER_WIRE = 9,        /* slot, page */
    KEEPER_UNWIRE = 10,     /* slot, page */
    KEEPER_TRUNCATE = 11,   /* slot, k: the pages from k up are cut */
    KEEPER_UPDATE = 12,     /* slot */
    KEEPER_PAGE_DONE = 13,  /* frame, good: 1 the transfer ended well, 0 it failed */
    KEEPER_MAP_DONE = 14,   /* slot, good: 1 the map image was stored, 0 it was not */
    KEEPER_LIMIT = 15,      /* account, pages */
    /* 16 is the event program's cut, which is no event here: it is answered 3 */
    KEEPER_MOVE = 17,       /* giver, taker, pages: so many pages of limit from an account to its parent, or back */
    KEEPER_JOIN = 18,       /* slot, page: the page waits in line */
    KEEPER_TURN = 19        /* result: 1 if the first page of the line is served, the number that sends it away, else 0 */
};

/* The refusals. */
enum {
    KEEPER_DONE = 0,            /* carried out in full */
    KEEPER_NO_FIT = 1,          /* sizes out of limits, or a table of another length */
    KEEPER_NO_RULE = 2,         /* the tables break a rule */
    KEEPER_NO_RANGE = 3,        /* a value out of range, or a kind that is no event */
    KEEPER_NO_DESIGN = 4,       /* the slot is empty */
    KEEPER_SLOT_FILLED = 5,     /* create, import: the slot is filled */
    KEEPER_NUMBER_TAKEN = 6,    /* create, import: the number stands in a slot */
    KEEPER_MAP_NOT_EMPTY = 7,   /* delete: the map still lists pages */
    KEEPER_NOT_ACTIVE = 8,      /* the design is not active */
    KEEPER_ACTIVE = 9,          /* activate, delete, export: the design is active */
    KEEPER_UPDATING = 10,       /* update, deactivate: an update of it is under way */
    KEEPER_PAGES_IN = 11,       /* deactivate: a page of it is in a frame */
    KEEPER_MAP_OLD = 12,        /* deactivate: its map is not up to date, or a record of it is nulled or released */
    KEEPER_PAGE_OUT = 13,       /* the page is in no frame */
    KEEPER_IN_TRANSFER = 14,    /* a page concerned is in transfer; of a read or a look: it is being read */
    KEEPER_PAGE_IN = 15,        /* fault: the page is in a frame */
    KEEPER_WIRED = 16,          /* a page concerned is wired */
    KEEPER_NOT_WIRED = 17,      /* unwire: the page is not wired */
    KEEPER_AT_LIMIT = 18,       /* write to a page that is not charged: the account that pays is at its limit or above; import: it has too few pages left */
    KEEPER_NO_RECORD = 19,      /* fault: no record is free; import: fewer are free than the sheet has pages */
    KEEPER_NO_FRAME = 20,       /* fault: no frame is free */
    KEEPER_NOTHING_TO_CLAIM = 21, /* claim, turn: the removal list is empty */
    KEEPER_NO_TRANSFER = 22,    /* done: no such transfer or update is under way */
    /* 23 is reserved: no call answers it */
    KEEPER_LIST_SHORT = 24,     /* mend: the list has fewer than S * (N + 2) places */
    KEEPER_NO_MOVE = 25,        /* move: not parent and child, no pages, more than the giver has, or the taker would pass 65,535 */
    KEEPER_OVER_LIMIT = 26,     /* move: an account whose limit or count it changes would have more used than its limit */
    KEEPER_LINE_FULL = 27,      /* join: 32 pages are waiting */
    KEEPER_SHEET_WRONG = 29,    /* import: these bytes are no sheet */
    KEEPER_SHEET_OTHER = 30,    /* import: the sheet is of a board with another W or N */
    KEEPER_SHEET_SHORT = 31,    /* export: the buffer has fewer bytes than the sheet */
    KEEPER_NUMBER_HIGH = 32,    /* create, import: the number is 2,147,483,648 or more */
    KEEPER_NUMBER_GIVEN = 33    /* create, import: the number is not above the highest ever given */
};

/* tables and calls: made by tools/tables.py from tools/tables.txt */
/* The lent tables as members of a struct, where the sizes are constants: each with exactly its length. */
#define KEEPER_DISK_TABLES(W, R, F, S, N, Q, B)                                               \
    uint32_t records[(R) * (W)]; /* the records' words */                                     \
    uint32_t numbers[S];         /* the slot's unique number, 0 for an empty slot */          \
    uint16_t accounts[S];        /* the slot's account */                                     \
    uint16_t maps[(S) * (N)];    /* file maps: 0 for a page of zeros, else record + 1 */      \
    uint16_t limits[Q];          /* the account's limit, 0 to 65,535 pages */                 \
    uint16_t parents[Q];         /* the account's parent, a lower account; 0 for account 0 */ \
    uint32_t highest[1];         /* the highest number below 2,147,483,648 ever given */
#define KEEPER_MEMORY_TABLES(W, R, F, S, N, Q, B)                                                                                                               \
    KeeperFrame frames[F];              /* the frames: page, switches, transfer */                                                                              \
    uint32_t frame_words[(F) * (W)];    /* the frames' words */                                                                                                 \
    uint16_t free_queue[F];             /* the free frames, a queue: frame + 1, packed at the front, then 0 */                                                  \
    uint16_t removal_list[F];           /* the frames that a claim looks at, a queue; it looks at the front first */                                            \
    uint16_t addresses[(S) * (N)];      /* the page's address: 0, or record + 1 */                                                                              \
    uint8_t states[R];                  /* the record's state, 0 to 5 */                                                                                        \
    uint8_t owners[R];                  /* the record's slot; 0 for a free record */                                                                            \
    uint32_t free_map[((R) + 31) / 32]; /* one bit a record, on where it is free: bit r % 32 of word r / 32 */                                                  \
    uint8_t active[S];                  /* the slot's active switch, 0 or 1 */                                                                                  \
    uint8_t updating[S];                /* the slot's update-under-way switch, 0 or 1 */                                                                        \
    uint16_t images[(S) * (N)];         /* map images: 0, or record + 1 */                                                                                      \
    uint32_t chip_words[(B) * (W)];     /* the chip's words: a copy of a live record's in each place that is taken, zeros in an empty one */                    \
    uint16_t chip_records[B];           /* whose copy the chip's place holds: record + 1, 0 for an empty place */                                               \
    uint16_t chip_next[1];              /* the chip's place that is filled next */                                                                              \
    uint16_t line[32];                  /* the waiting line, a queue of pages: slot * N + page + 1, packed at the front, then 0 */                              \
    uint16_t used[Q];                   /* the account's used count */                                                                                          \
    KeeperPool pool;                    /* the hand, where the search for a free record starts for a page without a neighbour, and the count of free records */

/* A table as arguments, a pointer and a count of elements; and a struct's tables of numbers, in the order of the calls. */
#define KEEPER_LEND(table) (table), sizeof(table) / sizeof *(table)
#define KEEPER_LEND_DISK(disk)    \
    KEEPER_LEND((disk).records),  \
    KEEPER_LEND((disk).numbers),  \
    KEEPER_LEND((disk).accounts), \
    KEEPER_LEND((disk).maps),     \
    KEEPER_LEND((disk).limits),   \
    KEEPER_LEND((disk).parents),  \
    KEEPER_LEND((disk).highest)
#define KEEPER_LEND_MEMORY(memory)      \
    KEEPER_LEND((memory).frame_words),  \
    KEEPER_LEND((memory).free_queue),   \
    KEEPER_LEND((memory).removal_list), \
    KEEPER_LEND((memory).addresses),    \
    KEEPER_LEND((memory).states),       \
    KEEPER_LEND((memory).owners),       \
    KEEPER_LEND((memory).free_map),     \
    KEEPER_LEND((memory).active),       \
    KEEPER_LEND((memory).updating),     \
    KEEPER_LEND((memory).images),       \
    KEEPER_LEND((memory).chip_words),   \
    KEEPER_LEND((memory).chip_records), \
    KEEPER_LEND((memory).chip_next),    \
    KEEPER_LEND((memory).line),         \
    KEEPER_LEND((memory).used)
#define KEEPER_LEND_CHANGES(changes) (uint32_t *)(changes), sizeof(changes) / (sizeof(uint32_t)) /* an array of KeeperChange */

/* The calls; beside each table the count that is asked for. */

/* Zeroes the disk part, once for a new disk, and stores the wanted parents, one an account: a lower account each. Account 0's
 * is not looked at, and stored as 0. Lent: the disk part. Answers 0, 1, or 3 for a parent that is not lower. */
KeeperAnswer keeper_format(
    KeeperSizes sizes,
    const uint16_t *wanted, size_t wanted_count, /* Q */
    uint32_t *records, size_t records_count,     /* R * W */
    uint32_t *numbers, size_t numbers_count,     /* S */
    uint16_t *accounts, size_t accounts_count,   /* S */
    uint16_t *maps, size_t maps_count,           /* S * N */
    uint16_t *limits, size_t limits_count,       /* Q */
    uint16_t *parents, size_t parents_count,     /* Q */
    uint32_t *highest, size_t highest_count      /* 1 */
);

/* Sets up the memory part from the disk part alone: the first call after a format or a cut, made again while it is
 * refused. Carried out, it raises highest to the highest number below 2,147,483,648 in a slot, where it is lower, as on an older
 * pack: that is its one store, on the device before the next call. Lent: everything; the memory part and highest are changed.
 * Answers 0, 1 or 2. */
KeeperAnswer keeper_restart(
    KeeperSizes sizes,
    KeeperFrame *frames, size_t frames_count,          /* F */
    KeeperPool *pool,
    const uint32_t *records, size_t records_count,     /* R * W */
    const uint32_t *numbers, size_t numbers_count,     /* S */
    const uint16_t *accounts, size_t accounts_count,   /* S */
    const uint16_t *maps, size_t maps_count,           /* S * N */
    const uint16_t *limits, size_t limits_count,       /* Q */
    const uint16_t *parents, size_t parents_count,     /* Q */
    uint32_t *highest, size_t highest_count,           /* 1 */
    uint32_t *frame_words, size_t frame_words_count,   /* F * W */
    uint16_t *free_queue, size_t free_queue_count,     /* F */
    uint16_t *removal_list, size_t removal_list_count, /* F */
    uint16_t *addresses, size_t addresses_count,       /* S * N */
    uint8_t *states, size_t states_count,              /* R */
    uint8_t *owners, size_t owners_count,              /* R */
    uint32_t *free_map, size_t free_map_count,         /* (R + 31) / 32 */
    uint8_t *active, size_t active_count,              /* S */
    uint8_t *updating, size_t updating_count,          /* S */
    uint16_t *images, size_t images_count,             /* S * N */
    uint32_t *chip_words, size_t chip_words_count,     /* B * W */
    uint16_t *chip_records, size_t chip_records_count, /* B */
    uint16_t *chip_next, size_t chip_next_count,       /* 1 */
    uint16_t *line, size_t line_count,                 /* 32 */
    uint16_t *used, size_t used_count                  /* Q */
);

/* Every other event, asked for by a request. Lent: everything. */
KeeperAnswer keeper_apply(
    KeeperSizes sizes,
    KeeperRequest request,
    KeeperFrame *frames, size_t frames_count,          /* F */
    KeeperPool *pool,
    uint32_t *records, size_t records_count,           /* R * W */
    uint32_t *numbers, size_t numbers_count,           /* S */
    uint16_t *accounts, size_t accounts_count,         /* S */
    uint16_t *maps, size_t maps_count,                 /* S * N */
    uint16_t *limits, size_t limits_count,             /* Q */
    const uint16_t *parents, size_t parents_count,     /* Q */
    uint32_t *highest, size_t highest_count,           /* 1 */
    uint32_t *frame_words, size_t frame_words_count,   /* F * W */
    uint16_t *free_queue, size_t free_queue_count,     /* F */
    uint16_t *removal_list, size_t removal_list_count, /* F */
    uint16_t *addresses, size_t addresses_count,       /* S * N */
    uint8_t *states, size_t states_count,              /* R */
    uint8_t *owners, size_t owners_count,              /* R */
    uint32_t *free_map, size_t free_map_count,         /* (R + 31) / 32 */
    uint8_t *active, size_t active_count,              /* S */
    uint8_t *updating, size_t updating_count,          /* S */
    uint16_t *images, size_t images_count,             /* S * N */
    uint32_t *chip_words, size_t chip_words_count,     /* B * W */
    uint16_t *chip_records, size_t chip_records_count, /* B */
    uint16_t *chip_next, size_t chip_next_count,       /* 1 */
    uint16_t *line, size_t line_count,                 /* 32 */
    uint16_t *used, size_t used_count                  /* Q */
);

/* A list of requests in one call, five numbers each: carried out in order, each as keeper_apply would, up to the shorter
 * of the two lists; the numbers past that stay. A refused request changes nothing, and the next one follows. The tables
 * are checked once: refused with 1 or 2, that is every answer. Returns the last answer, or 0, 0 for an empty list.
 * Arrays of KeeperRequest and KeeperAnswer: KEEPER_REQUESTS and KEEPER_ANSWERS. Lent: everything. */
KeeperAnswer keeper_apply_all(
    KeeperSizes sizes,
    const uint32_t *requests, size_t requests_count,   /* 5 a request */
    uint32_t *answers, size_t answers_count,           /* 2 an answer */
    KeeperFrame *frames, size_t frames_count,          /* F */
    KeeperPool *pool,
    uint32_t *records, size_t records_count,           /* R * W */
    uint32_t *numbers, size_t numbers_count,           /* S */
    uint16_t *accounts, size_t accounts_count,         /* S */
    uint16_t *maps, size_t maps_count,                 /* S * N */
    uint16_t *limits, size_t limits_count,             /* Q */
    const uint16_t *parents, size_t parents_count,     /* Q */
    uint32_t *highest, size_t highest_count,           /* 1 */
    uint32_t *frame_words, size_t frame_words_count,   /* F * W */
    uint16_t *free_queue, size_t free_queue_count,     /* F */
    uint16_t *removal_list, size_t removal_list_count, /* F */
    uint16_t *addresses, size_t addresses_count,       /* S * N */
    uint8_t *states, size_t states_count,              /* R */
    uint8_t *owners, size_t owners_count,              /* R */
    uint32_t *free_map, size_t free_map_count,         /* (R + 31) / 32 */
    uint8_t *active, size_t active_count,              /* S */
    uint8_t *updating, size_t updating_count,          /* S */
    uint16_t *images, size_t images_count,             /* S * N */
    uint32_t *chip_words, size_t chip_words_count,     /* B * W */
    uint16_t *chip_records, size_t chip_records_count, /* B */
    uint16_t *chip_next, size_t chip_next_count,       /* 1 */
    uint16_t *line, size_t line_count,                 /* 32 */
    uint16_t *used, size_t used_count                  /* Q */
);

/* A page look: which part of frame_words the page is. Lent: everything, only read; the pool goes by value. Refused as a
 * read is. */
KeeperPart keeper_page_look(
    KeeperSizes sizes,
    size_t slot,
    size_t page,
    const KeeperFrame *frames, size_t frames_count,          /* F */
    KeeperPool pool,
    const uint32_t *records, size_t records_count,           /* R * W */
    const uint32_t *numbers, size_t numbers_count,           /* S */
    const uint16_t *accounts, size_t accounts_count,         /* S */
    const uint16_t *maps, size_t maps_count,                 /* S * N */
    const uint16_t *limits, size_t limits_count,             /* Q */
    const uint16_t *parents, size_t parents_count,           /* Q */
    const uint32_t *highest, size_t highest_count,           /* 1 */
    const uint32_t *frame_words, size_t frame_words_count,   /* F * W */
    const uint16_t *free_queue, size_t free_queue_count,     /* F */
    const uint16_t *removal_list, size_t removal_list_count, /* F */
    const uint16_t *addresses, size_t addresses_count,       /* S * N */
    const uint8_t *states, size_t states_count,              /* R */
    const uint8_t *owners, size_t owners_count,              /* R */
    const uint32_t *free_map, size_t free_map_count,         /* (R + 31) / 32 */
    const uint8_t *active, size_t active_count,              /* S */
    const uint8_t *updating, size_t updating_count,          /* S */
    const uint16_t *images, size_t images_count,             /* S * N */
    const uint32_t *chip_words, size_t chip_words_count,     /* B * W */
    const uint16_t *chip_records, size_t chip_records_count, /* B */
    const uint16_t *chip_next, size_t chip_next_count,       /* 1 */
    const uint16_t *line, size_t line_count,                 /* 32 */
    const uint16_t *used, size_t used_count                  /* Q */
);

/* Mends a disk part that restart answers 2, before restart is called again; docs/USING.md says what is lost. Lent: the disk
 * part, of which records, limits, parents and highest are only read, and a list for the changes, four numbers a place
 * (KEEPER_LEND_CHANGES). A parent that is not lower stays, and restart answers 2 still.
 * Answers 0, 1 or 24. The result is how many changes are listed; the list's later places are untouched. */
KeeperAnswer keeper_mend(
    KeeperSizes sizes,
    const uint32_t *records, size_t records_count, /* R * W */
    uint32_t *numbers, size_t numbers_count,       /* S */
    uint16_t *accounts, size_t accounts_count,     /* S */
    uint16_t *maps, size_t maps_count,             /* S * N */
    const uint16_t *limits, size_t limits_count,   /* Q */
    const uint16_t *parents, size_t parents_count, /* Q */
    const uint32_t *highest, size_t highest_count, /* 1 */
    uint32_t *changes, size_t changes_count        /* 4 * S * (N + 2), or more */
);

/* Writes a design's sheet into a buffer: its number, and each page that is not all zeros. The design is not active, so all of
 * it is on the disk. KEEPER_SHEET_BYTES(N, W) bytes are always enough. Lent: everything, only read; the pool goes by value.
 * Answers 0, 1, 2, 3, 4, 9 or 31. The result is the sheet's length; the bytes after it, and all on a refusal, are untouched. */
KeeperAnswer keeper_export(
    KeeperSizes sizes,
    size_t slot,
    uint8_t *sheet, size_t sheet_count,                      /* bytes */
    const KeeperFrame *frames, size_t frames_count,          /* F */
    KeeperPool pool,
    const uint32_t *records, size_t records_count,           /* R * W */
    const uint32_t *numbers, size_t numbers_count,           /* S */
    const uint16_t *accounts, size_t accounts_count,         /* S */
    const uint16_t *maps, size_t maps_count,                 /* S * N */
    const uint16_t *limits, size_t limits_count,             /* Q */
    const uint16_t *parents, size_t parents_count,           /* Q */
    const uint32_t *highest, size_t highest_count,           /* 1 */
    const uint32_t *frame_words, size_t frame_words_count,   /* F * W */
    const uint16_t *free_queue, size_t free_queue_count,     /* F */
    const uint16_t *removal_list, size_t removal_list_count, /* F */
    const uint16_t *addresses, size_t addresses_count,       /* S * N */
    const uint8_t *states, size_t states_count,              /* R */
    const uint8_t *owners, size_t owners_count,              /* R */
    const uint32_t *free_map, size_t free_map_count,         /* (R + 31) / 32 */
    const uint8_t *active, size_t active_count,              /* S */
    const uint8_t *updating, size_t updating_count,          /* S */
    const uint16_t *images, size_t images_count,             /* S * N */
    const uint32_t *chip_words, size_t chip_words_count,     /* B * W */
    const uint16_t *chip_records, size_t chip_records_count, /* B */
    const uint16_t *chip_next, size_t chip_next_count,       /* 1 */
    const uint16_t *line, size_t line_count,                 /* 32 */
    const uint16_t *used, size_t used_count                  /* Q */
);

/* Makes a design of a sheet, in an empty slot, for an account, with a number that the caller gives; it is not active. Any
 * bytes are a sheet to ask about. Lent: everything; records, numbers, accounts, maps, highest, states, owners, free_map, used and
 * pool are changed. Answers 0, 1, 2, 3, 32, 5, 6, 33, 29, 30, 18 or 19. The result is the number that stands in the sheet. It makes
 * several stores on the disk part; docs/USING.md says in which order they come to the device. */
KeeperAnswer keeper_import(
    KeeperSizes sizes,
    size_t slot,
    size_t account,
    uint32_t number,
    const uint8_t *sheet, size_t sheet_count,                /* bytes */
    const KeeperFrame *frames, size_t frames_count,          /* F */
    KeeperPool *pool,
    uint32_t *records, size_t records_count,                 /* R * W */
    uint32_t *numbers, size_t numbers_count,                 /* S */
    uint16_t *accounts, size_t accounts_count,               /* S */
    uint16_t *maps, size_t maps_count,                       /* S * N */
    const uint16_t *limits, size_t limits_count,             /* Q */
    const uint16_t *parents, size_t parents_count,           /* Q */
    uint32_t *highest, size_t highest_count,                 /* 1 */
    const uint32_t *frame_words, size_t frame_words_count,   /* F * W */
    const uint16_t *free_queue, size_t free_queue_count,     /* F */
    const uint16_t *removal_list, size_t removal_list_count, /* F */
    const uint16_t *addresses, size_t addresses_count,       /* S * N */
    uint8_t *states, size_t states_count,                    /* R */
    uint8_t *owners, size_t owners_count,                    /* R */
    uint32_t *free_map, size_t free_map_count,               /* (R + 31) / 32 */
    const uint8_t *active, size_t active_count,              /* S */
    const uint8_t *updating, size_t updating_count,          /* S */
    const uint16_t *images, size_t images_count,             /* S * N */
    const uint32_t *chip_words, size_t chip_words_count,     /* B * W */
    const uint16_t *chip_records, size_t chip_records_count, /* B */
    const uint16_t *chip_next, size_t chip_next_count,       /* 1 */
    const uint16_t *line, size_t line_count,                 /* 32 */
    uint16_t *used, size_t used_count                        /* Q */
);
/* end of tables and calls */

#ifdef __cplusplus
}
#endif

#endif
