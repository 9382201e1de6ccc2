/* Not proved: the device of device.h. */
#include <stdlib.h>
#include "device.h"

/* ── contents, each once ── */
enum { MOST_CONTENTS = 65535, SLOTS = 1 << 17 };
static uint8_t (*contents)[DISK_BYTES];
static uint16_t *slots; /* content + 1, by its sum */
static uint32_t known;

static uint64_t sum_of(const void *from, size_t bytes)
{
    const uint8_t *at = from;
    uint64_t sum = 14695981039346656037u;
    for (size_t byte = 0; byte < bytes; byte++)
        sum = (sum ^ at[byte]) * 1099511628211u;
    return sum;
}

static uint16_t number_of(const uint8_t *bytes)
{
    if (!contents) {
        contents = malloc((size_t)MOST_CONTENTS * sizeof *contents);
        slots = calloc(SLOTS, sizeof *slots);
    }
    size_t slot = sum_of(bytes, DISK_BYTES) % SLOTS;
    while (slots[slot] != 0 && memcmp(contents[slots[slot] - 1], bytes, DISK_BYTES) != 0)
        slot = (slot + 1) % SLOTS;
    if (slots[slot] == 0) {
        if (known == MOST_CONTENTS)
            abort();
        memcpy(contents[known], bytes, DISK_BYTES);
        slots[slot] = (uint16_t)++known;
    }
    return (uint16_t)(slots[slot] - 1);
}

/* A list of tests begins: what the ones before wrote is not needed any more. */
void device_new(Device *device, uint32_t sectors)
{
    static const uint8_t zeros[DISK_BYTES];
    memset(device, 0, sizeof *device);
    if (sectors > DEVICE_MOST)
        abort();
    if (known > MOST_CONTENTS / 2) {
        memset(slots, 0, SLOTS * sizeof *slots);
        known = 0;
    }
    device->sectors = sectors;
    for (uint32_t sector = 0; sector < sectors; sector++)
        device->durable[sector] = device->seen[sector] = number_of(zeros);
}

/* ── the three functions ── */

/* An operation: 0 it goes on, 1 it is the last and is done, 2 it is not done. */
static int last_one(Device *device)
{
    if (device->left == 0 || --device->left != 0)
        return 0;
    device->ended = 1;
    return device->way == WAY_UNHEARD ? 1 : 2;
}

static int device_read(void *self, uint32_t sector, uint8_t *bytes)
{
    Device *device = self;
    device->reads++;
    if (device->ended || sector >= device->sectors)
        return -1;
    memcpy(bytes, contents[device->seen[sector]], DISK_BYTES);
    return 0;
}

static int device_write(void *self, uint32_t sector, const uint8_t *bytes)
{
    Device *device = self;
    if (device->ended || sector >= device->sectors)
        return -1;
    const int last = last_one(device);
    if (last == 2)
        return -1;
    if (device->count == DEVICE_OPEN)
        abort();
    device->writes++;
    device->at[device->count] = (uint16_t)sector;
    device->what[device->count++] = device->seen[sector] = number_of(bytes);
    return last ? -1 : 0;
}

static int device_sync(void *self)
{
    Device *device = self;
    if (device->ended)
        return -1;
    if (device->deaf > 0)
        return device->deaf--, 0;
    const int last = last_one(device);
    if (last == 2)
        return -1;
    device->syncs++;
    memcpy(device->durable, device->seen, device->sectors * sizeof *device->seen);
    device->count = 0;
    return last ? -1 : 0;
}

KeeperDevice device_on(Device *device)
{
    const KeeperDevice made = {device, device_read, device_write, device_sync};
    return made;
}

void device_end_at(Device *device, uint32_t operation, int way)
{
    device->left = operation;
    device->way = way;
    device->ended = 0;
}

void device_cut(Device *device, const uint8_t *lands)
{
    for (uint32_t write = 0; write < device->count; write++)
        if (lands[write])
            device->durable[device->at[write]] = device->what[write];
    memcpy(device->seen, device->durable, device->sectors * sizeof *device->seen);
    device->count = 0;
}

int device_alike(const Device *one, const Device *two)
{
    const size_t all = one->sectors * sizeof *one->durable, open = one->count * sizeof *one->at;
    return one->sectors == two->sectors && one->count == two->count && memcmp(one->durable, two->durable, all) == 0
        && memcmp(one->at, two->at, open) == 0 && memcmp(one->what, two->what, open) == 0;
}

uint64_t device_sum(const Device *device)
{
    const size_t open = device->count * sizeof *device->at;
    return sum_of(device->durable, device->sectors * sizeof *device->durable) ^ 31 * sum_of(device->at, open) ^ 63 * sum_of(device->what, open);
}

void device_poke(Device *device, uint32_t sector, const uint8_t *bytes)
{
    device->durable[sector] = device->seen[sector] = number_of(bytes);
}

const uint8_t *device_peek(const Device *device, uint32_t sector)
{
    return contents[device->seen[sector]];
}
