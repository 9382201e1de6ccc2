/* The proved parts of a disk driver, for C on x86-64: link libdisk.a (tools/prove.py --lib disk) beside libkeeper.a. They know no device: each takes
 * numbers and lent memory, writes what it says, keeps nothing and always ends. No call has a precondition but these: no pointer is null,
 * each is aligned as its elements, nothing lent overlaps, and `words` are 128 words, `bytes` 512.
 *
 * A sector has 128 words of 32 bits. The device: sector 0 the commit's, two areas of DISK_MOST sectors, then home. Home sector 0 is the
 * header's, then each table in sectors of its own. */
#ifndef KEEPER_DISK_INSIDE_H
#define KEEPER_DISK_INSIDE_H

#include "keeper.h"

#ifdef __cplusplus
extern "C" {
#endif

enum {
    DISK_WORDS = 128,  /* words of a sector */
    DISK_BYTES = 512,  /* its bytes */
    DISK_MOST = 125,   /* sectors of an area: the most contents of one store */
    DISK_TABLES = 7    /* tables of the disk part */
};

/* ---- bytes: low byte first on every processor ---- */
void disk_to_bytes(const uint32_t *words, uint8_t *bytes);
void disk_from_bytes(const uint8_t *bytes, uint32_t *words);

/* ---- the header ---- */
/* What a look at the header sector finds. */
enum {
    DISK_OURS = 0,          /* to the last word the header of these sizes */
    DISK_BLANK = 1,         /* zeros: never formatted */
    DISK_FOREIGN = 2,       /* no header, or a damaged one */
    DISK_OTHER_VERSION = 3, /* the header of another version */
    DISK_OTHER_SIZES = 4,   /* the header of a disk of other sizes */
    DISK_OUT_OF_LIMITS = 5  /* disk_header_sizes alone: the sizes that it says are out of limits */
};

/* The sizes that a header says; refused: zeros. */
typedef struct {
    uint32_t refusal, words, records, slots, pages, accounts;
} DiskSaid;

/* The header of these sizes, of which frames and chip are no part: 0; or 1, and nothing is written, where they are out of limits. */
uint32_t disk_fill_header(KeeperSizes sizes, uint32_t *words);
uint32_t disk_look_header(KeeperSizes sizes, const uint32_t *words);
DiskSaid disk_header_sizes(const uint32_t *words);

/* ---- where things are ---- */
/* The tables, by their order on the disk. */
enum { DISK_RECORDS, DISK_MAPS, DISK_NUMBERS, DISK_ACCOUNTS, DISK_LIMITS, DISK_PARENTS, DISK_HIGHEST };

/* A table: its first home sector, how many rows it has, how many entries a row has, how many sectors a row takes. Row r begins at home
 * sector begins + r * sectors. */
typedef struct {
    uint32_t begins, rows, width, sectors;
} DiskPlace;

/* How many home sectors there are, the header's among them; 0 for sizes out of limits. */
uint32_t disk_room(KeeperSizes sizes);

/* Zeros for sizes out of limits, and for a table of 7 or more. */
DiskPlace disk_table(KeeperSizes sizes, uint32_t table);

/* ---- a table's sectors, counted from its first on; width: the entries of a row ---- */
/* The sector as the table has it; zeros past the row's end and past the table's. */
void disk_fill_u32(uint32_t width, const uint32_t *table, size_t table_count, uint32_t sector, uint32_t *words);
void disk_fill_u16(uint32_t width, const uint16_t *table, size_t table_count, uint32_t sector, uint32_t *words);

/* The sector's entries put into the table; the others stay. u16: 0; or 1, and nothing is taken, where a word of the sector is above 65,535. */
void disk_take_u32(uint32_t width, uint32_t sector, const uint32_t *words, uint32_t *table, size_t table_count);
uint32_t disk_take_u16(uint32_t width, uint32_t sector, const uint32_t *words, uint16_t *table, size_t table_count);

/* ---- the journal ---- */
/* What is to be done next; number: of the content, in the store. */
enum {
    DISK_DONE = 0,    /* nothing: a store counts, and a read finds it home; a recovery is over */
    DISK_CONTENT = 1, /* write this content to its area */
    DISK_SYNC = 2,
    DISK_COMMIT = 3,  /* write the commit sector */
    DISK_TO_HOME = 4, /* write this content to its home sector */
    DISK_COPY = 5     /* read this content from its area and write it to its home sector */
};

typedef struct {
    uint32_t what, number;
} DiskStep;

/* What a recovery finds in the commit sector, once it has synced. Refused, nothing is to be written: sequence and count 0. */
enum {
    DISK_STORE = 0,      /* a store that is whole in its area: its sequence number, and the count of its contents */
    DISK_NO_JOURNAL = 1, /* no journal wrote this sector */
    DISK_TOO_MANY = 2,   /* it names more contents than an area has sectors */
    DISK_NO_HOME = 3,    /* it names a home sector that is not there */
    DISK_NOT_ZERO = 4    /* a word behind the last home sector is not zero */
};

typedef struct {
    uint32_t what, sequence, count;
} DiskFound;

/* What a store of `count` contents asks for once `at` operations are done. */
DiskStep disk_ask(uint32_t count, uint32_t at);

/* The sequence number of the store after store n. */
uint32_t disk_next_sequence(uint32_t n);

/* The device's sector of content i of a store, and of home sector x; 0, which is the commit's, where there is none: i of DISK_MOST or more, x
 * above 4,294,967,044. */
uint32_t disk_area(uint32_t sequence, uint32_t i);
uint32_t disk_home(uint32_t x);

/* The commit sector of a store: 0; or 1, and nothing is written, where it has more than DISK_MOST home sectors. */
uint32_t disk_fill_commit(uint32_t sequence, const uint32_t *homes, size_t homes_count, uint32_t *words);

/* The look at the commit sector, whatever it holds. room: how many home sectors there are. */
DiskFound disk_look_commit(const uint32_t *words, uint32_t room);

/* What a recovery of a store of `count` contents asks for once `at` of them are home. */
DiskStep disk_recover(uint32_t count, uint32_t at);

KEEPER_ASSERT(sizeof(DiskSaid) == 24 && sizeof(DiskPlace) == 16 && sizeof(DiskStep) == 8 && sizeof(DiskFound) == 12, "numbers of 4 bytes");

#ifdef __cplusplus
}
#endif
#endif
