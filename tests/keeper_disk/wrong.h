/* Not proved: wrong drivers, so that the tests of include/keeper_disk.h show that they can tell. The header itself has no switch: what it calls is changed
 * before it is included, or the device does not do what it is asked. */
#ifndef WRONG_H
#define WRONG_H

#include "keeper_disk_inside.h"
#include "keeper_easy.h"

enum {
    WRONG_NONE = 0,
    WRONG_REPORTS_FIRST, /* a call is reported before its store */
    WRONG_NO_FIRST_SYNC, /* the commit sector is written before the contents are safe */
    WRONG_NO_LAST_SYNC,  /* a store is reported before the commit sector is safe */
    WRONG_NO_OPEN_SYNC,  /* a recovery looks before it has synced */
    WRONG_ONE_AREA,      /* every entry uses the same area */
    WRONG_PAST_JOURNAL,  /* the limits go home at once, with a sync, past the journal */
    WRONG_CLEARS,        /* a recovery clears the commit sector when it is done */
    WRONG_HOME_FIRST,    /* contents go home before the commit sector */
    WRONG_ENTRY_EACH,    /* of writes that are reported as one each is an entry of its own */
    WRONG_COUNT
};
extern int wrong;
const char *wrong_name(int which);

DiskStep wrong_ask(uint32_t count, uint32_t at);
uint32_t wrong_area(uint32_t sequence, uint32_t content);
#ifndef WRONG_INSIDE
#define disk_ask wrong_ask
#define disk_area wrong_area
#endif

#include "keeper_disk.h"

#endif
