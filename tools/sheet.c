/* sheet SHEET: what a design sheet holds: sizes, number, pages, and a picture of each page, a row a word, its threads from bit 31 to bit 0. Not proved;
 * tested by tests/sheets.sh. The file is only read. Of a file that is no sheet it says where it is wrong, and ends with status 1. */
#include "sheets.h"

enum { MOST_ROWS = 16, THREADS = 32 };

/* Which pages have words. */
static void show_pages(const Sheet *sheet)
{
    const uint8_t *at = sheet->first + SHEET_HEAD;
    size_t shown = 0;
    printf("pages ");
    for (uint32_t page = 0; page < sheet->pages; page++) {
        const int has = shown < sheet->count && sheet16(at) == page;
        putchar(has ? '#' : '.');
        at += has ? page_bytes(sheet) : 0;
        shown += (size_t)has;
    }
    puts("");
}

/* A row of threads over some words: how many of them have the thread on. One word: on or off. */
static void show_row(const uint8_t *words, size_t count)
{
    static const char shades[] = {'.', ':', '+', '*', '#'};
    for (uint32_t thread = THREADS; thread > 0; thread--) {
        size_t on = 0;
        for (size_t word = 0; word < count; word++)
            on += sheet32(words + 4 * word) >> (thread - 1) & 1;
        putchar(shades[(4 * on + count - 1) / count]);
    }
    puts("");
}

/* At most so many rows; each stands for as many words as the others, but for the last. */
static void show_page(const Sheet *sheet, const uint8_t *at)
{
    const size_t words = sheet->words, each = (words + MOST_ROWS - 1) / MOST_ROWS;
    printf("page %u", (unsigned)sheet16(at));
    printf(each > 1 ? ", a row for %zu words\n" : "\n", each);
    for (size_t word = 0; word < words; word += each)
        show_row(at + 2 + 4 * word, words - word < each ? words - word : each);
}

int main(int count, char **words)
{
    Sheet sheet;
    size_t bytes, where;
    if (count != 2) {
        fprintf(stderr, "usage: sheet SHEET\n");
        return 1;
    }
    uint8_t *at = read_sheet("sheet", words[1], &bytes);
    if (at == NULL)
        return 1;
    const char *wrong = take_apart(at, bytes, &sheet, &where);
    if (wrong != NULL)
        return no_sheet("sheet", words[1], wrong, where);
    printf("design %u, %u pages of %u words; %zu of them have any; %zu bytes\n", (unsigned)sheet.number, (unsigned)sheet.pages, (unsigned)sheet.words,
           sheet.count, bytes);
    show_pages(&sheet);
    for (size_t page = 0; page < sheet.count; page++)
        show_page(&sheet, sheet.first + page * page_bytes(&sheet) + SHEET_HEAD);
    free(at);
    return 0;
}
