/* Not proved: the books of the plug test. They are kept from what the weaver tells, outside of it, and know for each page which words a read may
 * show after a cut: each write and each map update that was open then has landed whole or not at all; all else is certain. */
#include <stdio.h>
#include <stdlib.h>
#include "books.h"

Totals totals;

void broken(const char *promise, uint32_t slot, uint32_t page, uint32_t found)
{
    totals.broken++;
    if (!totals.quiet)
        printf("\nbroken: %s (slot %u, page %u, found %u)\n", promise, slot, page, found);
}

Books *books_new(KeeperSizes sizes)
{
    Books *books = calloc(1, sizeof *books);
    books->sizes = sizes;
    books->versions = books->numbers = 1;
    return books;
}

void books_free(Books *books)
{
    free(books->version);
    free(books->given);
    free(books);
}

uint32_t books_formatted(const Books *books) { return books->formatted; }
uint32_t books_next_version(const Books *books) { return books->versions; }
uint32_t books_next_number(const Books *books) { return books->numbers; }

/* The version whose words these are, if it is one of that page of that design; else the promise that is broken. */
static uint32_t version_of(Books *books, const Note *note)
{
    const uint32_t slot = note->a, page = note->b, version = note->words[0], number = books->slots[slot].number;
    size_t zeros = 0, equal = 0;
    for (size_t word = 0; word < note->count; word++) {
        zeros += note->words[word] == 0;
        equal += note->words[word] == plug_word(version, word);
    }
    totals.reads++;
    if (zeros == note->count)
        return 0;
    if (version == 0 || version >= books->versions || equal != note->count)
        broken("a page is no version that was woven: torn, or mixed", slot, page, version);
    else if (books->version[version].number != number && version != books->slots[slot].pages[page].carried)
        broken("a page shows another design's words", slot, page, version);
    else if (books->version[version].page != page)
        broken("a page shows another page's words", slot, page, version);
    return version;
}

/* A version is that page's of that design. */
void enter(Books *books, uint32_t number, uint32_t page, uint32_t version)
{
    if (version >= books->room) {
        books->room = 2 * version + 64;
        books->version = realloc(books->version, books->room * sizeof *books->version);
    }
    books->version[version].number = number;
    books->version[version].page = page;
    books->versions = version + 1;
}

static void woven(Books *books, uint32_t slot, uint32_t page, uint32_t version)
{
    books->slots[slot].pages[page].text = version;
    if (version != 0)
        enter(books, books->slots[slot].number, page, version);
}

/* ── what an open found ── */

/* What a page may show after a cut at which its design's update has landed or not. */
static int may_show(const Page *page, int landed)
{
    const uint32_t holds[2] = {page->holds, page->text};
    for (int write = 0; write <= page->writing; write++) {
        uint32_t shown = page->same ? holds[write] : page->listed;
        if (landed)
            shown = !page->imaged ? 0 : page->kept ? holds[write] : page->image;
        if (shown == page->found)
            return 1;
    }
    return 0;
}

static void judge_pages(Books *books, Slot *slot, uint32_t at)
{
    int good = 0;
    for (int landed = 0; landed <= slot->updating && !good; landed++) {
        good = 1;
        for (size_t page = 0; page < books->sizes.pages; page++)
            good = good && may_show(slot->pages + page, landed);
    }
    for (size_t page = 0; page < books->sizes.pages && !good; page++)
        if (!may_show(slot->pages + page, 0) && !(slot->updating && may_show(slot->pages + page, 1))) {
            broken("a page reads what no cut allows: a reported write or map is gone, or an old one is back", at, (uint32_t)page, slot->pages[page].found);
            return;
        }
    if (!good)
        broken("a map has landed in part", at, 0, 0);
}

static void judge_slot(Books *books, Slot *slot, uint32_t at)
{
    const int old = slot->found_number == slot->number && slot->found_account == slot->account;
    const int new = slot->storing && slot->found_number == slot->next_number && slot->found_account == slot->next_account;
    if (!old && !new)
        broken("a slot has another number or account than was stored", at, 0, slot->found_number);
    judge_pages(books, slot, at);
}

static void judge_limits(Books *books)
{
    const Limit *giver = books->limits + books->giver, *taker = books->limits + books->taker;
    for (uint32_t at = 0; at < books->sizes.accounts; at++) {
        const Limit *limit = books->limits + at;
        if (limit->found != limit->value && !(limit->storing && limit->found == limit->next))
            broken("an account has another limit than was stored", 0, at, limit->found);
        if (limit->parent != plug_parent(at))
            broken("an account has another parent than was formatted", 0, at, limit->parent);
    }
    if (books->moving && giver->value + taker->value != giver->found + taker->found)
        broken("a move has landed in part", 0, books->giver, giver->found);
    books->moving = 0;
}

static void opened(Books *books)
{
    books->formatted = 1;
    judge_highest(books);
    for (uint32_t at = 0; at < books->sizes.slots; at++) {
        Slot *slot = books->slots + at;
        judge_slot(books, slot, at);
        slot->number = slot->found_number;
        slot->account = slot->found_account;
        totals.cut_imports += (unsigned long)slot->importing;
        slot->active = slot->updating = slot->storing = slot->importing = 0;
        for (size_t page = 0; page < books->sizes.pages; page++) {
            const uint32_t found = slot->pages[page].found, carried = slot->pages[page].carried;
            memset(slot->pages + page, 0, sizeof slot->pages[page]);
            slot->pages[page].text = slot->pages[page].listed = found;
            slot->pages[page].carried = carried;
        }
    }
    judge_limits(books);
    for (uint32_t at = 0; at < books->sizes.accounts; at++) {
        books->limits[at].value = books->limits[at].found;
        books->limits[at].storing = 0;
    }
}

void books_cut(Books *books)
{
    for (uint32_t at = 0; at < books->sizes.slots; at++)
        for (size_t page = 0; page < books->sizes.pages; page++)
            books->slots[at].pages[page].found = 0;
}

/* ── what happens between ── */
static void updates(Books *books, Slot *slot)
{
    slot->updating = 1;
    for (size_t at = 0; at < books->sizes.pages; at++) {
        Page *page = slot->pages + at;
        page->imaged = page->kept = page->live;
        if (!page->live && !page->in)
            page->same = 0; /* its address is taken away */
    }
}

static void updated(Books *books, Slot *slot, int good)
{
    slot->updating = 0;
    for (size_t at = 0; at < books->sizes.pages; at++) {
        Page *page = slot->pages + at;
        if (good) {
            page->listed = !page->imaged ? 0 : page->kept ? page->holds : page->image;
            page->same = page->imaged && page->kept;
        }
        page->imaged = page->kept = 0;
    }
}

static void truncated(Books *books, Slot *slot, size_t from)
{
    for (size_t at = from; at < books->sizes.pages; at++) {
        Page *page = slot->pages + at;
        page->image = page->kept ? page->holds : page->image;
        page->text = 0;
        page->live = page->same = page->kept = page->in = 0;
    }
}

static void written(Page *page, int good)
{
    page->writing = 0;
    if (!good)
        return;
    page->in = 0;
    page->live = 1;
    page->holds = page->text;
    if (page->same)
        page->listed = page->text;
}

static void activated(Books *books, Slot *slot, int active)
{
    slot->active = active;
    for (size_t at = 0; at < books->sizes.pages; at++) {
        Page *page = slot->pages + at;
        page->live = page->same = active && page->listed != 0;
        page->holds = page->listed;
    }
}

static void stored_slot(Books *books, Slot *slot)
{
    slot->number = slot->next_number;
    slot->account = slot->next_account;
    slot->storing = 0;
    gave(books, slot->number);
    totals.imports += (unsigned long)slot->importing;
    fill(books, slot);
    if (slot->number >= books->numbers)
        books->numbers = slot->number + 1;
}

static void moves(Books *books, const Note *note)
{
    Limit *giver = books->limits + note->a % PLUG_MOST_ACCOUNTS, *taker = books->limits + note->b % PLUG_MOST_ACCOUNTS;
    giver->next = giver->value - note->c;
    taker->next = taker->value + note->c;
    giver->storing = taker->storing = books->moving = 1;
    books->giver = note->a % PLUG_MOST_ACCOUNTS, books->taker = note->b % PLUG_MOST_ACCOUNTS;
}

static void moved(Books *books, int good)
{
    Limit *both[2] = {books->limits + books->giver, books->limits + books->taker};
    for (int at = 0; at < 2; at++) {
        both[at]->value = good ? both[at]->next : both[at]->value;
        both[at]->storing = 0;
    }
    totals.moves += (unsigned long)good;
    books->moving = 0;
}

void books_note(Books *books, const Note *note)
{
    Slot *slot = books->slots + note->a % PLUG_MOST_SLOTS;
    Page *page = slot->pages + note->b % PLUG_MOST_PAGES;
    Limit *limit = books->limits + note->a % PLUG_MOST_ACCOUNTS;
    totals.calls += note->calls;
    switch (note->type) {
    case NOTE_FORMATTED: books->formatted = 1; break;
    case NOTE_LOST: broken("the disk does not open", note->a, 0, 0); break;
    case NOTE_FOUND_HIGHEST: books->found_highest = note->b; break;
    case NOTE_FOUND_LIMIT: limit->found = note->b, limit->parent = note->c; break;
    case NOTE_FOUND_SLOT:
        slot->found_number = note->b, slot->found_account = note->c;
        if (slot->storing && slot->found_number == slot->next_number && slot->found_account == slot->next_account)
            stored_slot(books, slot);
        break;
    case NOTE_FOUND_PAGE: page->found = version_of(books, note); break;
    case NOTE_OPENED: opened(books); break;
    case NOTE_LIMIT: limit->next = note->b, limit->storing = 1; break;
    case NOTE_LIMIT_END: limit->value = limit->next, limit->storing = 0; break;
    case NOTE_MOVE: moves(books, note); break;
    case NOTE_MOVE_END: moved(books, (int)note->a); break;
    case NOTE_SLOT:
        slot->next_number = note->b, slot->next_account = note->c, slot->storing = 1;
        gives(books, note->b);
        if (note->b >= books->numbers)
            books->numbers = note->b + 1;
        break;
    case NOTE_SLOT_END: stored_slot(books, slot); break;
    case NOTE_ACTIVATE: activated(books, slot, 1); break;
    case NOTE_DEACTIVATE: activated(books, slot, 0); break;
    case NOTE_WOVEN: woven(books, note->a, note->b, note->c); break;
    case NOTE_IN: page->in = 1; break;
    case NOTE_OUT:
        page->in = 0;
        if (note->c && page->text != 0)
            broken("a changed page left its frame without a write", note->a, note->b, page->text);
        if (note->c)
            page->live = 0;
        break;
    case NOTE_WRITE: page->writing = 1; break;
    case NOTE_WRITE_END: written(page, (int)note->c); break;
    case NOTE_SHEET: sheet_begins(books, note); break;
    case NOTE_SHEET_PAGE: sheet_page(books, note); break;
    case NOTE_SHEET_END: sheet_ends(books, slot, (int)note->b); break;
    case NOTE_IMPORT_END:
        if (note->b)
            stored_slot(books, slot);
        slot->importing = slot->storing = 0;
        break;
    case NOTE_UPDATE: updates(books, slot); break;
    case NOTE_MAP_END: updated(books, slot, (int)note->b); break;
    case NOTE_TRUNCATE: truncated(books, slot, note->b); break;
    case NOTE_READ:
        if (version_of(books, note) != page->text)
            broken("a page reads not as it was woven", note->a, note->b, note->words[0]);
        break;
    default: broken("a call was refused that must not be", note->a, note->b, note->c);
    }
}
