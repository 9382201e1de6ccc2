/* The look-ups of the 600-record pack as C links them, on the examples of their contract, and the table for C, entry by entry, with them. */
#include "sectors_starts.h"

static int is(KeeperAnswer answer, uint32_t refusal, uint32_t result) {
    return answer.refusal == refusal && answer.result == result;
}

/* Whether the table has the 600 entries, each what the library looks up. */
static int table(void) {
    uint32_t record, count = sizeof SECTORS_STARTS / sizeof SECTORS_STARTS[0];
    for (record = 0; record < count; record++)
        if (!is(sectors_start_of(record), 0, SECTORS_STARTS[record]))
            return 0;
    return is(sectors_start_of(count), SECTORS_NOT_IN_PACK, 0);
}

int main(void) {
    int ok = is(sectors_start_of(5), 0, 80) && is(sectors_start_of(6), 0, 100) && is(sectors_start_of(SECTORS_RECORDS - 1), 0, 9980)
        && is(sectors_start_of(SECTORS_RECORDS), SECTORS_NOT_IN_PACK, 0) && is(sectors_record_of(95), 0, 5)
        && is(sectors_record_of(96), SECTORS_NOT_IN_PACK, 0) && is(sectors_record_of(9980 + SECTORS_IN_RECORD - 1), 0, 599)
        && is(sectors_record_of(10000), SECTORS_NOT_IN_PACK, 0);
    return ok ? (table() ? 0 : 2) : 1;
}
