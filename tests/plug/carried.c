/* Not proved: the books of numbers, none of which is given twice, and of design sheets: what a sheet must have, and what a design has that came by one. */
#include <stdlib.h>
#include "books.h"

/* 0 is the number of a delete. */
void gives(Books *books, uint32_t number)
{
    if (number < books->given_room && books->given[number])
        broken("a number is given twice", 0, 0, number);
}

void gave(Books *books, uint32_t number)
{
    const uint32_t old = books->given_room;
    if (number == 0)
        return;
    if (number >= old) {
        books->given_room = 2 * number + 64;
        books->given = realloc(books->given, books->given_room);
        memset(books->given + old, 0, books->given_room - old);
    }
    books->given[number] = 1;
    books->highest = number > books->highest ? number : books->highest;
}

/* It never falls, and nothing is in it that was not told. Of a create or import that was cut between its stores the number is skipped. */
void judge_highest(Books *books)
{
    if (books->found_highest < books->highest)
        broken("the highest number has fallen: a number can be given twice", 0, 0, books->found_highest);
    if (books->found_highest >= books->numbers)
        broken("the highest number is one that nobody gave", 0, 0, books->found_highest);
    for (uint32_t at = 0; at < books->sizes.slots; at++) {
        const Slot *slot = books->slots + at;
        totals.skipped += (slot->storing || slot->importing) && slot->found_number == 0 && slot->next_number != 0 && slot->next_number > books->highest
                          && slot->next_number <= books->found_highest;
    }
    books->highest = books->found_highest;
}

void sheet_begins(Books *books, const Note *note)
{
    memset(books->sheet, 0, sizeof books->sheet);
    books->sheet_from = note->c;
    books->slots[note->a].next_number = note->b;
    if (note->b >= books->numbers)
        books->numbers = note->b + 1;
}

/* A page of a sheet: what its design's map lists, or a new version. */
void sheet_page(Books *books, const Note *note)
{
    const uint32_t version = note->words[0], page = note->b;
    for (size_t word = 0; word < note->count; word++)
        if (note->words[word] != plug_word(version, word)) {
            broken("a sheet has a page that is no version: torn, or mixed", note->a, page, version);
            return;
        }
    if (books->sheet_from == 0)
        enter(books, books->slots[note->a].next_number, page, version);
    else if (books->slots[books->sheet_from - 1].pages[page].listed != version)
        broken("a sheet has other words than its design", books->sheet_from - 1, page, version);
    books->sheet[page] = version;
}

void sheet_ends(Books *books, Slot *slot, int imports)
{
    for (uint32_t page = 0; page < books->sizes.pages && books->sheet_from != 0; page++)
        if (books->sheet[page] != books->slots[books->sheet_from - 1].pages[page].listed)
            broken("a sheet lacks a page of its design", books->sheet_from - 1, page, books->sheet[page]);
    totals.exports += books->sheet_from != 0;
    slot->importing = imports;
}

/* The pages of a slot that got a design: none, or the sheet's. */
void fill(Books *books, Slot *slot)
{
    for (size_t at = 0; at < books->sizes.pages; at++) {
        Page *page = slot->pages + at;
        page->carried = slot->importing ? books->sheet[at] : 0;
        if (slot->importing)
            page->text = page->listed = page->carried;
    }
    slot->importing = 0;
}
