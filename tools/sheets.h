/* What export.c, import.c and sheet.c share: a sheet read from a file and taken apart, to say in words what is in it or where it is wrong. Whether a
 * pack takes it is the keeper's own answer. Not proved; tested by tests/sheets.sh. */
#ifndef SHEETS_H
#define SHEETS_H

#include <errno.h>
#include <stdio.h>
#include <stdlib.h>
#include <string.h>
#include "keeper.h"

/* The tags; a field is a tag, two bytes of length, and so many bytes. */
enum { SHEET_NUMBER = 1, SHEET_PAGE = 2, SHEET_SIZES = 3, SHEET_END = 4, SHEET_HEAD = 3 };

/* No keeper writes or takes a longer one. */
enum { MOST_SHEET = KEEPER_SHEET_BYTES(KEEPER_MOST_PAGES, KEEPER_MOST_WORDS) };

/* What a sheet says. The fields of its pages are of one length each, and begin at `first`. */
typedef struct {
    uint32_t words, pages, number;
    size_t count;
    const uint8_t *first;
} Sheet;

/* What is left of it. */
typedef struct {
    const uint8_t *at;
    size_t left;
} Rest;

static inline uint32_t sheet16(const uint8_t *at)
{
    return (uint32_t)at[0] << 8 | at[1];
}

static inline uint32_t sheet32(const uint8_t *at)
{
    return sheet16(at) << 16 | sheet16(at + 2);
}

/* How long the field of a page is with its head. */
static inline size_t page_bytes(const Sheet *sheet)
{
    return SHEET_HEAD + 2 + 4 * (size_t)sheet->words;
}

/* A field's bytes, if it has this tag and length and is all there, or null. */
static inline const uint8_t *field(Rest *rest, uint32_t tag, size_t length)
{
    const uint8_t *at = rest->at;
    if (rest->left < SHEET_HEAD || at[0] != tag || sheet16(at + 1) != length || rest->left - SHEET_HEAD < length)
        return NULL;
    rest->at += SHEET_HEAD + length;
    rest->left -= SHEET_HEAD + length;
    return at + SHEET_HEAD;
}

static inline int has_words(const uint8_t *at, size_t count)
{
    size_t word = 0;
    while (word < count && sheet32(at + 4 * word) == 0)
        word++;
    return word < count;
}

/* A page in words: what is wrong with it, or none. `lowest`: the page that it is to be at least. */
static inline const char *wrong_page(Rest *rest, const Sheet *sheet, uint32_t *lowest)
{
    const uint8_t *at = field(rest, SHEET_PAGE, 2 + 4 * (size_t)sheet->words);
    if (at == NULL)
        return "a page of another length than its W says, or it ends there";
    if (sheet16(at) >= sheet->pages)
        return "a page of its N or above";
    if (sheet16(at) < *lowest)
        return "a page that is not above the one before it";
    *lowest = sheet16(at) + 1;
    return has_words(at + 2, sheet->words) ? NULL : "a page of zeros";
}

static inline const char *wrong_head(Rest *rest, Sheet *sheet)
{
    const uint8_t *at = field(rest, SHEET_SIZES, 4);
    if (at == NULL)
        return "the sizes, tag 3 and 4 bytes, are to stand first";
    sheet->words = sheet16(at);
    sheet->pages = sheet16(at + 2);
    at = field(rest, SHEET_NUMBER, 4);
    if (at == NULL)
        return "the number, tag 1 and 4 bytes, is to stand behind the sizes";
    sheet->number = sheet32(at);
    return sheet->number != 0 ? NULL : "its number is 0";
}

/* Takes a sheet apart: none, or what is wrong, and at which byte the field stands. */
static inline const char *take_apart(const uint8_t *bytes, size_t count, Sheet *sheet, size_t *where)
{
    Rest rest = {bytes, count};
    uint32_t lowest = 0;
    memset(sheet, 0, sizeof *sheet);
    const char *wrong = wrong_head(&rest, sheet);
    *where = (size_t)(rest.at - bytes);
    sheet->first = rest.at;
    while (wrong == NULL && rest.left > 0 && rest.at[0] == SHEET_PAGE) {
        wrong = wrong_page(&rest, sheet, &lowest);
        *where = wrong ? *where : (size_t)(rest.at - bytes);
        sheet->count++;
    }
    if (wrong == NULL && field(&rest, SHEET_END, 0) == NULL)
        return "a page, or the end, tag 4 and no bytes, is to stand there";
    return wrong != NULL || rest.left == 0 ? wrong : "there are bytes after the end";
}

/* A file's bytes, at most those of the longest sheet, in a block of its own; none, and a line, if it cannot be read or is longer. */
static inline uint8_t *read_sheet(const char *tool, const char *path, size_t *count)
{
    FILE *file = fopen(path, "rb");
    uint8_t *bytes = malloc(MOST_SHEET + 1);
    if (file == NULL || bytes == NULL) {
        fprintf(stderr, "%s: %s: it cannot be opened: %s\n", tool, path, strerror(errno));
        free(bytes);
        return NULL;
    }
    *count = fread(bytes, 1, MOST_SHEET + 1, file);
    if (ferror(file))
        fprintf(stderr, "%s: %s: it cannot be read: %s\n", tool, path, strerror(errno));
    else if (*count > MOST_SHEET)
        fprintf(stderr, "%s: %s: it is longer than any sheet: another program's file\n", tool, path);
    const int failed = ferror(file) || *count > MOST_SHEET;
    fclose(file);
    if (failed)
        free(bytes);
    return failed ? NULL : bytes;
}

/* That a file is no sheet, and where. */
static inline int no_sheet(const char *tool, const char *path, const char *wrong, size_t where)
{
    fprintf(stderr, "%s: %s: it is no sheet, or is damaged: at byte %zu: %s\n", tool, path, where, wrong);
    return 1;
}

/* A number from 0 to 4,294,967,295, and nothing else. */
static inline int is_number(const char *word, uint32_t *value)
{
    char *end;
    errno = 0;
    const unsigned long long number = strtoull(word, &end, 10);
    *value = (uint32_t)number;
    return word[0] >= '0' && word[0] <= '9' && *end == 0 && errno == 0 && number <= UINT32_MAX;
}

#endif
