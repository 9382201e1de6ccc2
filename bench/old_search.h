/* The search for a free record as it was before it went by words, for the comparison of docs/BENCHMARKS.md alone: from the hand word by word and in a
   word record by record, near another record by record, each with its place in the map worked out anew. */
static size_t find_free(const uint32_t *map, size_t from, size_t to)
{
    size_t r = from;
    while (r < to) {
        uint32_t rest = map[r / 32] >> (r % 32);
        if (rest % 2 == 1)
            return r;
        if (rest == 0)
            r = (r / 32 + 1) * 32;
        else
            r++;
    }
    return to;
}

size_t pick_by_hand(const struct keeper *k)
{
    const uint32_t *map = k->memory.free_map.at;
    size_t high = find_free(map, k->memory.pool->hand, k->sizes.records);
    return high < k->sizes.records ? high : find_free(map, 0, k->memory.pool->hand);
}

static bool free_at(const struct keeper *k, size_t record)
{
    return record < k->sizes.records && (k->memory.free_map.at[record / 32] >> (record % 32)) % 2 == 1;
}

size_t pick_near(const struct keeper *k, size_t held)
{
    size_t end = held + k->sizes.records;
    for (size_t distance = 0; distance <= end; distance++) {
        if (distance <= held && free_at(k, held - distance))
            return held - distance;
        if (free_at(k, held + distance))
            return held + distance;
    }
    return 0;
}
