/* Not proved: the wrong drivers of wrong.h. */
#define WRONG_INSIDE
#include "wrong.h"

int wrong;

const char *wrong_name(int which)
{
    static const char *const names[WRONG_COUNT] = {
        "no wrong one", "report before the store", "no first sync", "no second sync", "no sync before the look", "one area", "limits past the journal",
        "recovery clears the commit", "home before the commit", "an entry for each of several writes",
    };
    return names[which];
}

/* The journal's next step, or another one. */
DiskStep wrong_ask(uint32_t count, uint32_t at)
{
    if (wrong == WRONG_NO_FIRST_SYNC && at >= count)
        return disk_ask(count, at + 1);
    if (wrong == WRONG_NO_LAST_SYNC && at >= count + 2)
        return disk_ask(count, at + 1);
    if (wrong == WRONG_HOME_FIRST && at > count && at <= 2 * count)
        return disk_ask(count, at + 2);
    if (wrong == WRONG_HOME_FIRST && at > 2 * count && at <= 2 * count + 2)
        return disk_ask(count, at - count);
    return disk_ask(count, at);
}

uint32_t wrong_area(uint32_t sequence, uint32_t content)
{
    return disk_area(wrong == WRONG_ONE_AREA ? 0 : sequence, content);
}
