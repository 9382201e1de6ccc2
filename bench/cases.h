/* The cases of the search for a free record: one of 4,096 is free, so far above or below the hand or the neighbour's record; and the neighbour is so many
   pages off. */
#ifndef CASES_H
#define CASES_H

#include <stddef.h>
#include <stdint.h>

enum { R = 4096, SIDES = 3, CASES = 29 };

/* A fault on a page of slot 0, and the record that it must take; near: the record of page 0, or R for none. */
struct one { const char *by, *side; size_t distance, near, hand, free, page; };

/* Nothing to search for; then each distance, above and below; then pages that are passed. */
static void list(struct one *cases)
{
    static const size_t distances[] = {1, 31, 32, 33, 1000, 4095};
    *cases++ = (struct one){"none", "above", 0, R, 0, 0, 0};
    for (size_t i = 0; i < 6; i++) {
        size_t d = distances[i];
        *cases++ = (struct one){"hand", "above", d, R, 0, d, 0};
        *cases++ = (struct one){"hand", "below", d, R, R - 1, R - 1 - d, 0};
        *cases++ = (struct one){"neighbour", "above", d, 0, 0, d, 1};
        *cases++ = (struct one){"neighbour", "below", d, R - 1, 0, R - 1 - d, 1};
    }
    *cases++ = (struct one){"neighbour 8 pages off", "above", 1, 0, 0, 1, 8};
    *cases++ = (struct one){"neighbour 32 pages off", "above", 1, 0, 0, 1, 32};
    *cases++ = (struct one){"neighbour 255 pages off", "above", 1, 0, 0, 1, 255};
    *cases++ = (struct one){"hand, for page 255 of a design with no address", "above", 1, R, 0, 1, 255};
}

#endif
