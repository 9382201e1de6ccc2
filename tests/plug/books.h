/* Not proved: what the two files of the books share, books.c and carried.c. */
#ifndef BOOKS_H
#define BOOKS_H

#include "plug.h"

/* A version number stands for a page's words; 0 for zeros. */
typedef struct {
    uint32_t text;    /* what the page reads in memory */
    uint32_t listed;  /* what its listed record holds; 0 for a page that is not listed */
    uint32_t holds;   /* what the record of its address holds, once it was live */
    int live, same;   /* its address is live; its address is the listed record */
    int in;           /* in a frame */
    int writing;      /* its write is open, with `text` */
    int imaged, kept; /* the open update lists it; and its address is still that record */
    uint32_t image;   /* what that record holds, if it is not */
    uint32_t found;   /* what an open read */
    uint32_t carried; /* what an import brought here, another design's version maybe */
} Page;

typedef struct {
    uint32_t number, account;
    int active, updating, storing, importing;
    uint32_t next_number, next_account; /* what an open store would leave */
    uint32_t found_number, found_account;
    Page pages[PLUG_MOST_PAGES];
} Slot;

typedef struct {
    uint32_t value, next, found, parent;
    int storing;
} Limit;

typedef struct {
    uint32_t number, page;
} Version;

struct Books {
    KeeperSizes sizes;
    uint32_t formatted, versions, room, numbers;
    uint32_t highest, found_highest; /* the highest number that was given or found */
    uint8_t *given;                  /* by number: whether a design had it, or has */
    uint32_t given_room;
    Version *version;
    Slot slots[PLUG_MOST_SLOTS];
    Limit limits[PLUG_MOST_ACCOUNTS];
    uint32_t sheet[PLUG_MOST_PAGES], sheet_from; /* the last sheet that was told of, and the slot whose design it is of, + 1 */
    int moving; /* the store of a move is open: both limits land, or neither */
    uint32_t giver, taker;
};

void broken(const char *promise, uint32_t slot, uint32_t page, uint32_t found);

/* A version is that page's of that design. */
void enter(Books *books, uint32_t number, uint32_t page, uint32_t version);

/* A number is to be given; a number was; the highest as an open found it. */
void gives(Books *books, uint32_t number);
void gave(Books *books, uint32_t number);
void judge_highest(Books *books);

/* What is told of a sheet, and what a slot has that got a design of it, or an empty one. */
void sheet_begins(Books *books, const Note *note);
void sheet_page(Books *books, const Note *note);
void sheet_ends(Books *books, Slot *slot, int imports);
void fill(Books *books, Slot *slot);

#endif
