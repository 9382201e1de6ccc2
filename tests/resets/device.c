/* Not proved: the device of the test of resets. What was not synced lands at a cut in any mix, grain by grain; at a reset it stays in the cache. */
#include <stdlib.h>
#include "resets.h"

Device *device_new(size_t bytes, size_t grain, unsigned (*choose)(unsigned))
{
    Device *device = calloc(1, sizeof *device);
    device->bytes = bytes;
    device->grain = grain;
    device->safe = calloc(1, bytes);
    device->seen = calloc(1, bytes);
    device->choose = choose;
    for (size_t at = 0; at < MOST_PENDING; at++)
        device->after[at] = malloc(bytes);
    return device;
}

void device_free(Device *device)
{
    for (size_t at = 0; at < MOST_PENDING; at++)
        free(device->after[at]);
    free(device->safe);
    free(device->seen);
    free(device);
}

void device_load(Device *device, const unsigned char *safe)
{
    memcpy(device->safe, safe, device->bytes);
    memcpy(device->seen, safe, device->bytes);
    device->count = 0;
}

/* One grain of what is pending: it is as it was, or as after one of the writes that change it. */
static void land_grain(Device *device, uint64_t grain)
{
    const uint64_t at = grain * device->grain, end = at + device->grain < device->bytes ? at + device->grain : device->bytes;
    const unsigned char *ways[MOST_PENDING + 1] = {device->safe + at};
    unsigned count = 1;
    for (size_t write = 0; write < device->count; write++)
        if (device->at[write] < end && at < device->end[write] && memcmp(ways[count - 1], device->after[write] + at, (size_t)(end - at)) != 0)
            ways[count++] = device->after[write] + at;
    const unsigned pick = count > 1 ? device->choose(count) : 0;
    if (pick > 0)
        memcpy(device->safe + at, ways[pick], (size_t)(end - at));
}

/* Any mix of what is pending lands; nothing is pending then. */
static void land(Device *device)
{
    uint64_t low = device->bytes, high = 0;
    for (size_t write = 0; write < device->count; write++) {
        low = device->at[write] < low ? device->at[write] : low;
        high = device->end[write] > high ? device->end[write] : high;
    }
    for (uint64_t grain = low / device->grain; grain * device->grain < high; grain++)
        land_grain(device, grain);
    device->count = 0;
}

/* A write to these bytes is in the cache. */
static void pend(Device *device, uint64_t at, size_t bytes)
{
    if (device->count == MOST_PENDING)
        abort(); /* more writes without a sync than the driver makes */
    memcpy(device->after[device->count], device->seen, device->bytes);
    device->at[device->count] = at;
    device->end[device->count++] = at + bytes;
}

/* What is pending is safe, whole grains of it. */
static void make_safe(Device *device)
{
    for (size_t write = 0; write < device->count; write++) {
        const uint64_t at = device->at[write] / device->grain * device->grain;
        const uint64_t next = (device->end[write] + device->grain - 1) / device->grain * device->grain, end = next < device->bytes ? next : device->bytes;
        memcpy(device->safe + at, device->seen + at, (size_t)(end - at));
    }
    device->count = 0;
}

/* Whether the end comes at this operation, and which. */
static int ends(Device *device)
{
    device->operations++;
    if (device->operations != device->countdown)
        return 0;
    device->ended = 1;
    device->kind = (int)device->choose(2);
    return 1;
}

static int device_read(void *self, uint64_t at, void *to, size_t bytes)
{
    Device *device = self;
    if (device->ended || at > device->bytes || bytes > device->bytes - at)
        return -1;
    memcpy(to, device->seen + at, bytes);
    return 0;
}

/* At a reset some grains of the write have reached the cache; at a cut it is for the landing to choose. */
static int device_write(void *self, uint64_t at, const void *from, size_t bytes)
{
    Device *device = self;
    if (device->ended || at > device->bytes || bytes > device->bytes - at)
        return -1;
    const int in_part = ends(device) && device->kind == RESET;
    for (uint64_t piece = at, end; piece < at + bytes; piece = end) {
        end = (piece / device->grain + 1) * device->grain;
        end = end < at + bytes ? end : at + bytes;
        if (!in_part || device->choose(2))
            memcpy(device->seen + piece, (const unsigned char *)from + (piece - at), (size_t)(end - piece));
    }
    pend(device, at, bytes);
    return device->ended ? -1 : 0;
}

/* The end comes before the sync, after it, or the sync fails: then some of what is pending has landed, and no later sync brings the rest, though a
 * read still shows it. */
static int device_sync(void *self)
{
    Device *device = self;
    if (device->ended)
        return -1;
    const unsigned way = ends(device) ? device->choose(device->kind == RESET ? 3 : 2) : 1;
    if (way == 1)
        make_safe(device);
    else if (way == 2)
        land(device);
    return device->ended ? -1 : 0;
}

FileBlocks device_on(Device *device, unsigned countdown)
{
    const FileBlocks blocks = {device, device_read, device_write, device_sync};
    device->countdown = countdown;
    device->operations = 0;
    device->ended = 0;
    return blocks;
}

void device_end(Device *device)
{
    if (!device->ended)
        device->kind = (int)device->choose(2);
    if (device->kind == RESET)
        return;
    land(device);
    memcpy(device->seen, device->safe, device->bytes);
}
