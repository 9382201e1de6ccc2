/* Not proved: what the files of the weaver share, weave.c, sheets.c and numbers.c. */
#ifndef WEAVER_H
#define WEAVER_H

#include "plug.h"

/* What the weaver knows of its frames and updates, to see what a step has changed; and of the stores of an import. */
typedef struct {
    Weaver *own;
    FileDisk disk;
    KeeperFrame frames[KEEPER_MOST_FRAMES];
    uint8_t updating[PLUG_MOST_SLOTS];
    FileBlocks device;     /* the device itself, under the one that watches the commit sector */
    int opening;           /* an open is under way */
    int importing;         /* the stores of an import are under way: */
    uint32_t slot, number, account;
    uint32_t record_stores; /* .. so many of them were of records */
    int numbering;         /* the stores of a create or an import are under way: */
    uint32_t highest_stores; /* .. so many of them were of the highest number */
} Run;

void tell_words(Run *run, uint32_t type, uint32_t a, uint32_t b, uint32_t c, const uint32_t *words);
void tell(Run *run, uint32_t type, uint32_t a, uint32_t b, uint32_t c);
uint32_t chance(Run *run, uint32_t below);
void remember(Run *run);

/* An event that stores is carried out, or the disk is dead, and its answer says so. */
void must_be_done(Run *run, KeeperAnswer answer, uint32_t a, uint32_t b);

/* A number for a design: the next one, or one above all that were told. */
uint32_t new_number(Run *run);

/* A number of a sector, by the word that it is. */
static inline uint32_t number_in(const unsigned char *sector, size_t word)
{
    return sector[4 * word] | (uint32_t)sector[4 * word + 1] << 8 | (uint32_t)sector[4 * word + 2] << 16 | (uint32_t)sector[4 * word + 3] << 24;
}

/* Whether a store's first home sector is that of the highest number; it must be, for the first store of a create or an import. And whether a wrong driver
 * leaves these bytes out. */
int is_highest(Run *run, uint32_t home);
int is_left_out(const Run *run, uint64_t at, const unsigned char *bytes);

/* A create without the store of the highest number; and an older board, which makes one: whether that design is to go once the pack is back. */
KeeperAnswer create_slot_alone(Run *run, uint32_t slot, uint32_t account, uint32_t number);
int older_board(Run *run, uint32_t slot);

/* The device, watched: it tells of an import's last store as that begins. */
FileBlocks watched(Run *run, FileBlocks device);

/* An empty slot gets the design of a sheet: of a design at rest, or one that is made. The sheet of a design at rest, told page by page. */
void import_design(Run *run, uint32_t slot);
void export_design(Run *run, uint32_t slot);

#endif
