/* Not proved: the weaver's numbers. It takes the next one that the keeper gives, as firmware does, or a new one by the books; and an older board,
 * which does not store the highest, has the pack now and then. */
#include "weaver.h"

uint32_t new_number(Run *run)
{
    const uint32_t next = keeper_next_number(run->own->keeper);
    if (next > run->own->next_number)
        tell(run, NOTE_REFUSED, 0, 0, next); /* a number that nobody gave */
    const uint32_t number = chance(run, 2) == 0 ? next : run->own->next_number;
    run->own->next_number += number == run->own->next_number;
    return number;
}

static uint32_t highest_at(const Run *run)
{
    return keeper_disk_place(run->own->keeper->sizes, KEEPER_TABLE_HIGHEST).begins;
}

/* The first store of a create or an import is that of the highest number: 1 if this is it. */
int is_highest(Run *run, uint32_t place)
{
    const int first = run->numbering && run->highest_stores == 0;
    if (first && place != highest_at(run) && run->own->wrong == WRONG_NONE)
        tell(run, NOTE_REFUSED, run->slot, 0, 0);
    run->highest_stores += run->numbering && place == highest_at(run);
    return place == highest_at(run);
}

/* What a driver leaves out that does not bring restart's store to the device. */
int is_left_out(const Run *run, uint64_t at, const unsigned char *bytes)
{
    if (run->own->wrong != WRONG_HIGHEST_STAYS || !run->opening)
        return 0;
    return at == FILEDISK_HEADER + (uint64_t)highest_at(run) * FILEDISK_BLOCK || (at == 0 && number_in(bytes, KEEPER_DISK_NAMED) == highest_at(run));
}

/* The slot alone: so an older board stores a create, and a driver that leaves the highest out. */
KeeperAnswer create_slot_alone(Run *run, uint32_t slot, uint32_t account, uint32_t number)
{
    Keeper *keeper = run->own->keeper;
    const FilePiece pieces[2] = {{KEEPER_TABLE_NUMBERS, slot, 1, keeper->numbers + slot}, {KEEPER_TABLE_ACCOUNTS, slot, 1, keeper->accounts + slot}};
    KeeperAnswer answer = keeper_create(keeper, slot, account, number);
    if (answer.refusal == KEEPER_DONE && filedisk_store(&run->disk, pieces, 2) != 0)
        answer.refusal = FILEDISK_DIED;
    return answer;
}

int older_board(Run *run, uint32_t slot)
{
    const Keeper *keeper = run->own->keeper;
    if (keeper->numbers[slot] != 0 || chance(run, 3) != 0)
        return 0;
    const uint32_t number = new_number(run), account = chance(run, (uint32_t)keeper->sizes.accounts);
    tell(run, NOTE_SLOT, slot, number, account);
    must_be_done(run, create_slot_alone(run, slot, account, number), slot, number);
    if (!run->disk.dead)
        tell(run, NOTE_SLOT_END, slot, 0, 0);
    return chance(run, 2) == 0;
}
