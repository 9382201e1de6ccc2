/* The page keeper of paper 01 in plain C: the lent tables and the public calls. */
#ifndef KEEPER_H
#define KEEPER_H

#include <stddef.h>
#include <stdint.h>

enum {
    MOST_WORDS = 1024, MOST_RECORDS = 4096, MOST_FRAMES = 64,
    MOST_SLOTS = 64, MOST_PAGES = 256, MOST_ACCOUNTS = 16, MOST_CHIP = 256
};
enum { LINE = 32 }; /* requests that can wait */
enum { FREE, FILED, NULLED, LIVE, RELEASED, LEAVING }; /* states of a record */
enum { NO_TRANSFER, READING, WRITING };
enum { /* kinds of request; CUT is the event program's own, those after it the library's */
    CREATE = 1, DELETE, ACTIVATE, DEACTIVATE, FAULT, READ, WRITE, CLAIM,
    WIRE, UNWIRE, TRUNCATE, UPDATE, PAGE_DONE, MAP_DONE, LIMIT, CUT,
    MOVE, JOIN, TURN
};

struct sizes { size_t words, records, frames, slots, pages, accounts, chip; };

/* page: 0 for none, else the flat page number + 1 */
struct frame { uint16_t page; uint8_t used, modified, wired, initial, transfer; };

struct pool { uint32_t hand, free; };

/* slices */
struct words { uint32_t *at; size_t len; };
struct halves { uint16_t *at; size_t len; };
struct bytes { uint8_t *at; size_t len; };
struct frames { struct frame *at; size_t len; };

/* tables: made by tools/tables.py from tools/tables.txt */
struct disk {
    struct words records;
    struct words numbers;
    struct halves accounts;
    struct halves maps;
    struct halves limits;
    struct halves parents;
    struct words highest;
};

struct memory {
    struct frames frames;
    struct words frame_words;
    struct halves free_queue;
    struct halves removal_list;
    struct halves addresses;
    struct bytes states;
    struct bytes owners;
    struct words free_map;
    struct bytes active;
    struct bytes updating;
    struct halves images;
    struct words chip_words;
    struct halves chip_records;
    struct halves chip_next;
    struct halves line;
    struct halves used;
    struct pool *pool;
};
/* end of tables */

struct keeper {
    struct sizes sizes;
    struct disk disk;
    struct memory memory;
};

/* kind: the event program's tag, or the library's own; then its values in that program's order */
struct request { uint32_t kind, first, second, third, fourth; };
struct answer { uint32_t refusal, result; };
struct change { uint32_t slot, page, old, reason; };
struct changes { struct change *at; size_t len; };
struct part { uint32_t refusal; size_t start, count; };

struct answer keeper_format(struct keeper *keeper, const uint16_t *wanted, size_t wanted_count);
struct answer keeper_restart(struct keeper *keeper);
struct answer keeper_apply(struct keeper *keeper, struct request request);
struct answer keeper_mend(struct keeper *keeper, struct changes changes);
/* five numbers a request, two an answer */
struct answer keeper_apply_all(
    struct keeper *keeper, const uint32_t *requests, size_t requests_count, uint32_t *answers, size_t answers_count);
struct part keeper_page_look(const struct keeper *keeper, size_t slot, size_t page);
struct answer keeper_export(const struct keeper *keeper, size_t slot, uint8_t *sheet, size_t sheet_count);
struct answer keeper_import(
    struct keeper *keeper, size_t slot, size_t account, uint32_t number, const uint8_t *sheet, size_t sheet_count);

#endif
