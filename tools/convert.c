/* convert OLD NEW: a pack of an older layout of examples/filedisk.h as a new file of the layout of now. Not proved; tested by tests/convert.sh.
 * Tables that the old layout lacks are zeros: so every account is under account 0, as wish 5 has it of older packs, and restart finds the highest
 * number in the slots, as wish 12 has it. NEW must not be there; OLD is only read. On a refusal, a pack that has the layout of now, or a file that is no pack: a line, and status 1. */
#define _POSIX_C_SOURCE 200809L
#include "packs.h"

int main(int count, char **words)
{
    FileDisk disk;
    Keeper keeper;
    if (count != 3) {
        fprintf(stderr, "usage: convert OLD NEW\n");
        return 1;
    }
    if (read_pack("convert", words[1], &disk, &keeper) != 0)
        return 1;
    if (disk.version == FILEDISK_VERSION)
        return complain("convert", words[1], "it has the layout of now: nothing is to be done");
    if (make_pack("convert", words[2], &keeper) != 0)
        return 1;
    printf("%s has version %u of the layout; %s has version %u, with the same designs and pages\n", words[1], (unsigned)disk.version, words[2],
           FILEDISK_VERSION);
    if (keeper_easy_restart(&keeper).refusal != KEEPER_DONE)
        printf("restart turns it away, as it would have the old one: make mend PACK=%s\n", words[2]);
    return 0;
}
