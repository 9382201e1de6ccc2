/* Not proved: the device of the test of resets. What was not synced lands at a cut in any mix, sector by sector; at a reset it stays in the cache. */
#include <stdlib.h>
#include "resets.h"

Device *device_new(size_t bytes, unsigned (*choose)(unsigned))
{
    Device *device = calloc(1, sizeof *device);
    device->bytes = bytes;
    device->safe = calloc(1, bytes);
    device->seen = calloc(1, bytes);
    device->choose = choose;
    return device;
}

void device_free(Device *device)
{
    free(device->safe);
    free(device->seen);
    free(device);
}

void device_load(Device *device, const unsigned char *safe)
{
    memcpy(device->safe, safe, device->bytes);
    memcpy(device->seen, safe, device->bytes);
    device->count = 0;
}

/* One sector of what is pending: it is as it was, or as after one of the writes to it. */
static void land_sector(Device *device, size_t first)
{
    const unsigned char *ways[MOST_PENDING + 1] = {device->safe + device->at[first]};
    unsigned count = 1;
    for (size_t write = first; write < device->count; write++)
        if (device->at[write] == device->at[first] && memcmp(ways[count - 1], device->after[write], FILEDISK_BLOCK) != 0)
            ways[count++] = device->after[write];
    const unsigned pick = count > 1 ? device->choose(count) : 0;
    if (pick > 0)
        memcpy(device->safe + device->at[first], ways[pick], FILEDISK_BLOCK);
}

static int is_first(const Device *device, size_t write)
{
    size_t before = 0;
    while (before < write && device->at[before] != device->at[write])
        before++;
    return before == write;
}

/* Any mix of what is pending lands; nothing is pending then. */
static void land(Device *device)
{
    for (size_t write = 0; write < device->count; write++)
        if (is_first(device, write))
            land_sector(device, write);
    device->count = 0;
}

/* A write to a sector is in the cache. */
static void pend(Device *device, uint64_t at)
{
    if (device->count == MOST_PENDING)
        abort(); /* more writes without a sync than the driver makes */
    memcpy(device->after[device->count], device->seen + at, FILEDISK_BLOCK);
    device->at[device->count++] = at;
}

/* What is pending is safe. */
static void make_safe(Device *device)
{
    for (size_t write = 0; write < device->count; write++)
        memcpy(device->safe + device->at[write], device->seen + device->at[write], FILEDISK_BLOCK);
    device->count = 0;
}

/* Whether the end comes at this operation, and which. */
static int ends(Device *device)
{
    device->operations++;
    if (device->operations != device->countdown)
        return 0;
    device->ended = 1;
    device->kind = (int)device->choose(2);
    return 1;
}

static int device_read(void *self, uint64_t at, void *to, size_t bytes)
{
    Device *device = self;
    if (device->ended || at > device->bytes || bytes > device->bytes - at)
        return -1;
    memcpy(to, device->seen + at, bytes);
    return 0;
}

/* At a reset the write has reached the cache or not; at a cut it is for the landing to choose. */
static int device_write(void *self, uint64_t at, const void *from, size_t bytes)
{
    Device *device = self;
    if (device->ended || at > device->bytes || bytes > device->bytes - at || at % FILEDISK_BLOCK != 0 || bytes != FILEDISK_BLOCK)
        return -1;
    if (!ends(device) || device->kind != RESET || device->choose(2))
        memcpy(device->seen + at, from, bytes);
    pend(device, at);
    return device->ended ? -1 : 0;
}

/* The end comes before the sync, after it, or the sync fails: then some of what is pending has landed, and no later sync brings the rest, though a
 * read still shows it. */
static int device_sync(void *self)
{
    Device *device = self;
    if (device->ended)
        return -1;
    const unsigned way = ends(device) ? device->choose(device->kind == RESET ? 3 : 2) : 1;
    if (way == 1)
        make_safe(device);
    else if (way == 2)
        land(device);
    return device->ended ? -1 : 0;
}

FileBlocks device_on(Device *device, unsigned countdown)
{
    const FileBlocks blocks = {device, device_read, device_write, device_sync};
    device->countdown = countdown;
    device->operations = 0;
    device->ended = 0;
    return blocks;
}

void device_end(Device *device)
{
    if (!device->ended)
        device->kind = (int)device->choose(2);
    if (device->kind == RESET)
        return;
    land(device);
    memcpy(device->seen, device->safe, device->bytes);
}
