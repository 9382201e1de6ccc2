/* Not proved: what the parts of the plug test share. The weaver (weave.c) runs on a device that is cut (devices.c), and tells what it does in
 * notes; the books (books.c) are kept outside from the notes alone, and judge what is read after every cut. */
#ifndef PLUG_H
#define PLUG_H

#include "without.h"

enum { PLUG_MOST_WORDS = 256, PLUG_MOST_SLOTS = 4, PLUG_MOST_PAGES = 16, PLUG_MOST_ACCOUNTS = 4 };

/* What the weaver tells. Slot, page and so on are a, b, c in this order. */
enum {
    NOTE_FORMATTED = 1,
    NOTE_LOST,        /* the disk was formatted, and does not open */
    NOTE_FOUND_HIGHEST, /* at an open: 0, the highest number */
    NOTE_FOUND_LIMIT, /* at an open: account, limit, parent */
    NOTE_FOUND_SLOT,  /* at an open: slot, number, account */
    NOTE_FOUND_PAGE,  /* at an open: slot, page, and the words that it reads */
    NOTE_OPENED,      /* all of these were told */
    NOTE_LIMIT,       /* account, pages: the store begins */
    NOTE_LIMIT_END,   /* account */
    NOTE_MOVE,        /* giver, taker, pages: the store begins, if the move is not refused */
    NOTE_MOVE_END,    /* whether it was carried out */
    NOTE_SLOT,        /* slot, number, account: the store of a create or delete begins */
    NOTE_SLOT_END,    /* slot */
    NOTE_ACTIVATE,    /* slot */
    NOTE_DEACTIVATE,  /* slot */
    NOTE_WOVEN,       /* slot, page, version: the page's words are these now, in memory */
    NOTE_IN,          /* slot, page: in a frame */
    NOTE_OUT,         /* slot, page, whether it was changed: taken from its frame without a write */
    NOTE_WRITE,       /* slot, page: its write begins */
    NOTE_WRITE_END,   /* slot, page, good */
    NOTE_UPDATE,      /* slot: a map update begins */
    NOTE_MAP_END,     /* slot, good */
    NOTE_TRUNCATE,    /* slot, k */
    NOTE_READ,        /* slot, page, and the words that it reads */
    NOTE_SHEET,       /* slot, number, where from: a sheet, of the design at rest in slot c - 1, or for 0 a made one; for this number in this slot */
    NOTE_SHEET_PAGE,  /* slot, page, and the words that the sheet has of it */
    NOTE_SHEET_END,   /* whether it is imported now; the store of the slot is told as that of a create, once it begins */
    NOTE_IMPORT_END,  /* slot, whether it was carried out */
    NOTE_REFUSED      /* a call was refused that must not be: its refusal, and where */
};

typedef struct {
    uint32_t type, a, b, c, calls, count;
    uint32_t words[PLUG_MOST_WORDS];
} Note;

/* ── random numbers ── */
uint32_t plug_random(uint64_t *state, uint32_t below);

/* ── the parent that every disk is formatted with: account 1 is under account 0, 2 and 3 under 1 ── */
uint16_t plug_parent(size_t account);

/* ── the words of a version: the first is its number ── */
uint32_t plug_word(uint32_t version, size_t word);

/* ── the weaver ── */
typedef struct {
    Keeper *keeper;
    FileBlocks blocks;
    uint64_t random;
    uint32_t formatted;    /* whether the books know of a format */
    uint32_t next_version; /* above all that were woven */
    uint32_t next_number;  /* the same of the designs that were told of */
    int wrong;
    void (*tell)(void *to, const Note *note);
    void *to;
} Weaver;

/* Opens the disk, tells what is on it, and weaves until the device is dead. */
void weaver_run(Weaver *weaver);

/* ── the books ── */
typedef struct Books Books;
Books *books_new(KeeperSizes sizes);
void books_free(Books *books);
void books_note(Books *books, const Note *note);
void books_cut(Books *books); /* the weaver is dead: what it told of an open that was not whole is forgotten */
uint32_t books_formatted(const Books *books);
uint32_t books_next_version(const Books *books);
uint32_t books_next_number(const Books *books);

typedef struct {
    unsigned long kills, resets, calls, reads, moves, imports, cut_imports, exports, skipped, broken;
    int quiet; /* print no broken promise */
} Totals;
extern Totals totals;

/* ── the devices ── */

/* A device in memory: what was not synced is lost, torn at `grain` bytes and reordered at a cut. At a reset it stays in the cache. */
typedef struct Simulated Simulated;
Simulated *simulated_new(size_t bytes);
void simulated_free(Simulated *device);
FileBlocks simulated_on(Simulated *device, uint64_t seed, unsigned countdown, size_t grain); /* power on, for so many operations */
void simulated_cut(Simulated *device);

/* A file that kills its process at its write number `countdown`, some pieces of `grain` bytes of it written. */
typedef struct {
    FileBlocks file;
    uint64_t random;
    unsigned countdown;
    size_t grain;
} Killer;
FileBlocks killer_on(Killer *killer);

#endif
