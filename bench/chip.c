/* The chip between the frames and the records: copies of live records, each in a place. */
#include <string.h>
#include "inside.h"

enum { AT_ONCE = 32 };

/* The place that has a record's copy, or B: many at a time, without a branch among them. */
static size_t place_of(const struct keeper *k, size_t record)
{
    const uint16_t *at = k->memory.chip_records.at;
    uint16_t entry = (uint16_t)(record + 1);
    size_t places = k->sizes.chip, first = 0;
    for (; first + AT_ONCE <= places; first += AT_ONCE) {
        uint16_t found = 0;
        for (size_t i = 0; i < AT_ONCE; i++)
            found |= at[first + i] == entry;
        if (found)
            break;
    }
    while (first < places && at[first] != entry)
        first++;
    return first;
}

static uint32_t *words_at(const struct keeper *k, size_t place)
{
    return k->memory.chip_words.at + place * k->sizes.words;
}

static void empty(struct keeper *k, size_t place)
{
    memset(words_at(k, place), 0, k->sizes.words * sizeof(uint32_t));
    k->memory.chip_records.at[place] = 0;
}

/* The words of a record's copy, or NULL. */
const uint32_t *chip_copy(const struct keeper *k, size_t record)
{
    size_t place = place_of(k, record);
    return place < k->sizes.chip ? words_at(k, place) : NULL;
}

/* A record's words go into its own place, or into the next one, which moves on, round. */
void chip_put(struct keeper *k, size_t record)
{
    size_t place = place_of(k, record), words = k->sizes.words;
    if (place == k->sizes.chip) {
        uint16_t *next = k->memory.chip_next.at;
        place = *next;
        *next = (uint16_t)(place + 1 == k->sizes.chip ? 0 : place + 1);
    }
    memcpy(words_at(k, place), k->disk.records.at + record * words, words * sizeof(uint32_t));
    k->memory.chip_records.at[place] = (uint16_t)(record + 1);
}

/* A record is not live any more. */
void chip_drop(struct keeper *k, size_t record)
{
    size_t place = place_of(k, record);
    if (place < k->sizes.chip)
        empty(k, place);
}

/* Several records may not be live any more. */
void chip_drop_stale(struct keeper *k)
{
    for (size_t place = 0; place < k->sizes.chip; place++) {
        uint16_t entry = k->memory.chip_records.at[place];
        if (entry != 0 && k->memory.states.at[entry - 1] != LIVE)
            empty(k, place);
    }
}
