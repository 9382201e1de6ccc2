/* Not proved: a device of sectors for the tests of include/keeper_disk.h. What was written since the last sync is open: at a cut each open write lands or
 * not; at a reset it stays open. Contents are kept once, by number, so that a device is small and can be copied. */
#ifndef DEVICE_H
#define DEVICE_H

#include "wrong.h"

enum { DEVICE_MOST = 1200, DEVICE_OPEN = 700 };

/* How the operation goes at which the device ends: it is not done, or it is, and nobody hears of it. */
enum { WAY_NOT_DONE = 0, WAY_UNHEARD = 1, WAYS = 2 };

typedef struct {
    uint32_t sectors, count;                 /* how many there are; how many writes are open */
    uint16_t durable[DEVICE_MOST];           /* what no cut takes away */
    uint16_t seen[DEVICE_MOST];              /* what a read finds */
    uint16_t at[DEVICE_OPEN], what[DEVICE_OPEN]; /* the open writes, the oldest first */
    uint32_t left;                           /* writes and syncs until the end, if it is not 0 */
    int way, ended;
    uint32_t deaf;                           /* so many syncs are answered and not done: a wrong driver */
    unsigned long writes, syncs, reads;
} Device;

void device_new(Device *device, uint32_t sectors);
KeeperDevice device_on(Device *device);

/* From now on the device ends at this operation, the first is 1; 0: it does not. */
void device_end_at(Device *device, uint32_t operation, int way);

/* The power fails: open write number i lands if lands(self, i). */
void device_cut(Device *device, const uint8_t *lands);

/* Two devices in the same state. */
int device_alike(const Device *one, const Device *two);
uint64_t device_sum(const Device *device);

/* A sector's bytes, as a read finds them, changed behind the driver's back. */
void device_poke(Device *device, uint32_t sector, const uint8_t *bytes);
const uint8_t *device_peek(const Device *device, uint32_t sector);

#endif
