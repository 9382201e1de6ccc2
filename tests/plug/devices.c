/* Not proved: the devices of the plug test. One in memory loses, tears and reorders what was not synced at a cut, and keeps it in its cache at a
 * reset; one over a file kills its process. */
#include <signal.h>
#include <stdlib.h>
#include <unistd.h>
#include "plug.h"

/* ── in memory ── */
typedef struct {
    uint64_t at;
    size_t bytes;
    unsigned char *data;
} Pending;

enum { MOST_PENDING = 512 };

struct Simulated {
    size_t bytes, grain;
    unsigned char *safe, *seen; /* what is synced; what a read shows */
    Pending pending[MOST_PENDING];
    size_t count;
    uint64_t random;
    unsigned countdown;
};

Simulated *simulated_new(size_t bytes)
{
    Simulated *device = calloc(1, sizeof *device);
    device->bytes = bytes;
    device->safe = calloc(1, bytes);
    device->seen = calloc(1, bytes);
    return device;
}

static void forget(Simulated *device)
{
    while (device->count > 0)
        free(device->pending[--device->count].data);
}

void simulated_free(Simulated *device)
{
    forget(device);
    free(device->safe);
    free(device->seen);
    free(device);
}

static int simulated_read(void *self, uint64_t at, void *to, size_t bytes)
{
    Simulated *device = self;
    if (device->countdown == 0 || at + bytes > device->bytes)
        return -1;
    memcpy(to, device->seen + at, bytes);
    return 0;
}

/* The end of a piece that begins here: at a multiple of the grain on the device, or where the write ends. */
static uint64_t piece_end(const Simulated *device, uint64_t at, uint64_t end)
{
    const uint64_t next = (at / device->grain + 1) * device->grain;
    return next < end ? next : end;
}

/* The pieces of a write: `mix` 0 none lands, 1 all, 2 each by chance. */
static void land(Simulated *device, const Pending *pending, uint32_t mix)
{
    const uint64_t last = pending->at + pending->bytes;
    for (uint64_t at = pending->at, end; at < last; at = end) {
        end = piece_end(device, at, last);
        if (mix == 1 || (mix == 2 && plug_random(&device->random, 2) == 0))
            memcpy(device->safe + at, pending->data + (at - pending->at), (size_t)(end - at));
    }
}

/* All that is pending lands, in order. */
static void land_all(Simulated *device)
{
    for (size_t at = 0; at < device->count; at++)
        land(device, device->pending + at, 1);
    forget(device);
}

/* Any pieces of what is pending land, in any order; the rest never will. */
static void land_some(Simulated *device)
{
    for (size_t left = device->count; left > 0; left--) {
        const size_t pick = plug_random(&device->random, (uint32_t)left);
        const Pending pending = device->pending[pick];
        land(device, &pending, plug_random(&device->random, 3));
        device->pending[pick] = device->pending[left - 1];
        device->pending[left - 1] = pending;
    }
    forget(device);
}

/* At its last operation: the end comes before anything is safe, or after it and nobody hears of it, or the sync fails. What a failed one has not
 * stored is still read, and no later sync stores it. */
static int simulated_sync(void *self)
{
    Simulated *device = self;
    if (device->countdown == 0)
        return -1;
    const uint32_t way = --device->countdown == 0 ? plug_random(&device->random, 3) : 1;
    if (way == 1)
        land_all(device);
    else if (way == 2)
        land_some(device);
    return device->countdown == 0 ? -1 : 0;
}

/* Into the cache. */
static void put(Simulated *device, uint64_t at, const void *from, size_t bytes)
{
    if (device->count == MOST_PENDING) /* a device may bring everything to its place at any time */
        land_all(device);
    Pending *pending = device->pending + device->count++;
    pending->at = at;
    pending->bytes = bytes;
    pending->data = malloc(bytes);
    memcpy(pending->data, from, bytes);
    memcpy(device->seen + at, from, bytes);
}

/* Of its last write some pieces reach the cache. */
static int simulated_write(void *self, uint64_t at, const void *from, size_t bytes)
{
    Simulated *device = self;
    if (device->countdown == 0 || at + bytes > device->bytes)
        return -1;
    if (--device->countdown != 0) {
        put(device, at, from, bytes);
        return 0;
    }
    const uint32_t mix = plug_random(&device->random, 3);
    for (uint64_t piece = at, end; piece < at + bytes; piece = end) {
        end = piece_end(device, piece, at + bytes);
        if (mix == 1 || (mix == 2 && plug_random(&device->random, 2) == 0))
            put(device, piece, (const unsigned char *)from + (piece - at), (size_t)(end - piece));
    }
    return -1;
}

FileBlocks simulated_on(Simulated *device, uint64_t seed, unsigned countdown, size_t grain)
{
    FileBlocks blocks = {device, simulated_read, simulated_write, simulated_sync};
    device->random = seed;
    device->countdown = countdown;
    device->grain = grain;
    return blocks;
}

void simulated_cut(Simulated *device)
{
    land_some(device);
    memcpy(device->seen, device->safe, device->bytes);
}

/* ── over a file ── */
static int killer_write(void *self, uint64_t at, const void *from, size_t bytes)
{
    Killer *killer = self;
    const unsigned char *data = from;
    if (--killer->countdown != 0)
        return killer->file.write(killer->file.self, at, from, bytes);
    for (size_t done = 0; done < bytes; done += killer->grain) {
        const size_t piece = bytes - done < killer->grain ? bytes - done : killer->grain;
        if (plug_random(&killer->random, 2) == 0)
            killer->file.write(killer->file.self, at + done, data + done, piece);
    }
    kill(getpid(), SIGKILL);
    return -1;
}

static int killer_read(void *self, uint64_t at, void *to, size_t bytes)
{
    Killer *killer = self;
    return killer->file.read(killer->file.self, at, to, bytes);
}

static int killer_sync(void *self)
{
    Killer *killer = self;
    return killer->file.sync(killer->file.self);
}

FileBlocks killer_on(Killer *killer)
{
    FileBlocks blocks = {killer, killer_read, killer_write, killer_sync};
    return blocks;
}
