/* Not proved: the weaver of the plug test. It opens the disk, tells what it finds, and then does what the tables allow, at random, until the
 * device is dead. It tells of each store before it begins and after it was reported. Wrong drivers are in it, to be caught. */
#include "weaver.h"

unsigned long plug_calls;

uint32_t plug_random(uint64_t *state, uint32_t below)
{
    *state = *state * 6364136223846793005u + 1442695040888963407u;
    return (uint32_t)(*state >> 33) % below;
}

uint16_t plug_parent(size_t account)
{
    return (uint16_t)(account / 2);
}

uint32_t plug_word(uint32_t version, size_t word)
{
    return word == 0 ? version : (version * 2654435761u + (uint32_t)word * 40503u) | 1u;
}

void tell_words(Run *run, uint32_t type, uint32_t a, uint32_t b, uint32_t c, const uint32_t *words)
{
    Note note;
    note.type = type, note.a = a, note.b = b, note.c = c;
    note.calls = (uint32_t)plug_calls;
    plug_calls = 0;
    note.count = words ? (uint32_t)run->own->keeper->sizes.words : 0;
    if (words)
        memcpy(note.words, words, note.count * sizeof *words);
    run->own->tell(run->own->to, &note);
}

void tell(Run *run, uint32_t type, uint32_t a, uint32_t b, uint32_t c)
{
    tell_words(run, type, a, b, c, NULL);
}

uint32_t chance(Run *run, uint32_t below)
{
    return plug_random(&run->own->random, below);
}

void remember(Run *run)
{
    const Keeper *keeper = run->own->keeper;
    memcpy(run->frames, keeper->frames, keeper->sizes.frames * sizeof *run->frames);
    memcpy(run->updating, keeper->updating, keeper->sizes.slots);
}

/* Tells what changed since the last time: pages that left, writes and updates that began, pages that came. */
static void tell_changes(Run *run)
{
    const Keeper *keeper = run->own->keeper;
    const uint32_t pages = (uint32_t)keeper->sizes.pages;
    for (size_t frame = 0; frame < keeper->sizes.frames; frame++) {
        const KeeperFrame old = run->frames[frame], now = keeper->frames[frame];
        const uint32_t page = old.page - 1u;
        if (old.page != 0 && old.page != now.page)
            tell(run, NOTE_OUT, page / pages, page % pages, old.modified && old.transfer == KEEPER_NO_WAY);
        else if (old.transfer == KEEPER_NO_WAY && now.transfer == KEEPER_WRITING)
            tell(run, NOTE_WRITE, page / pages, page % pages, 0);
    }
    for (size_t frame = 0; frame < keeper->sizes.frames; frame++)
        if (keeper->frames[frame].page != 0 && run->frames[frame].page != keeper->frames[frame].page)
            tell(run, NOTE_IN, (keeper->frames[frame].page - 1u) / pages, (keeper->frames[frame].page - 1u) % pages, 0);
    for (uint32_t slot = 0; slot < keeper->sizes.slots; slot++)
        if (keeper->updating[slot] && !run->updating[slot])
            tell(run, NOTE_UPDATE, slot, 0, 0);
    remember(run);
}

/* ── transfers and maps, right and wrong ── */

/* All writes that are open are one store. */
static void write_all(Run *run)
{
    Keeper *keeper = run->own->keeper;
    KeeperTransfer open[KEEPER_MOST_FRAMES];
    size_t count = 0;
    for (KeeperTransfer t = keeper_next_transfer(keeper, 0); t.way; t = keeper_next_transfer(keeper, t.frame + 1))
        if (t.way == KEEPER_WRITING)
            open[count++] = t;
    if (filedisk_writes(&run->disk, keeper) != 0)
        return;
    for (size_t at = 0; at < count; at++)
        tell(run, NOTE_WRITE_END, open[at].slot, open[at].page, 1);
}

static void transfer(Run *run, KeeperTransfer t)
{
    Keeper *keeper = run->own->keeper;
    const int early = run->own->wrong == WRONG_PAGE_EARLY && t.way == KEEPER_WRITING;
    if (early) { /* reported first, stored then */
        const FilePiece piece = {KEEPER_TABLE_RECORDS, t.record * keeper->sizes.words, keeper->sizes.words, t.words};
        keeper_page_done(keeper, t.frame, 1);
        tell(run, NOTE_WRITE_END, t.slot, t.page, 1);
        filedisk_store(&run->disk, &piece, 1);
    } else if (t.way == KEEPER_WRITING && chance(run, 2) == 0) {
        write_all(run);
    } else if (filedisk_transfer(&run->disk, keeper, t) == 0 && t.way == KEEPER_WRITING) {
        tell(run, NOTE_WRITE_END, t.slot, t.page, 1);
    }
    remember(run);
}

static void map(Run *run, uint32_t slot)
{
    Keeper *keeper = run->own->keeper;
    if (run->own->wrong == WRONG_MAP_EARLY) {
        uint16_t image[KEEPER_MOST_PAGES];
        const FilePiece piece = {KEEPER_TABLE_MAPS, slot * keeper->sizes.pages, keeper->sizes.pages, image};
        memcpy(image, keeper_image(keeper, slot), keeper->sizes.pages * sizeof *image);
        keeper_map_done(keeper, slot, 1);
        tell(run, NOTE_MAP_END, slot, 1, 0);
        filedisk_store(&run->disk, &piece, 1);
    } else if (filedisk_map(&run->disk, keeper, slot) == 0) {
        tell(run, NOTE_MAP_END, slot, 1, 0);
    }
    remember(run);
}

/* The device fails: the report says so, and the disk is as it was. */
static void fail_transfer(Run *run, KeeperTransfer t)
{
    keeper_page_done(run->own->keeper, t.frame, 0);
    if (t.way == KEEPER_WRITING)
        tell(run, NOTE_WRITE_END, t.slot, t.page, 0);
    else
        tell(run, NOTE_OUT, t.slot, t.page, 0);
    remember(run);
}

static uint32_t bring(Run *run, uint32_t slot, uint32_t page)
{
    while (!run->disk.dead) {
        KeeperStep step = keeper_bring(run->own->keeper, slot, page);
        tell_changes(run);
        if (step.what != KEEPER_STEP_TRANSFER)
            return step.refusal;
        transfer(run, step.transfer);
    }
    return FILEDISK_DIED;
}

/* ── what a weaver does ── */
static void weave(Run *run, uint32_t slot, uint32_t page)
{
    Keeper *keeper = run->own->keeper;
    if (bring(run, slot, page) != KEEPER_DONE)
        return;
    const uint32_t version = chance(run, 6) == 0 ? 0 : run->own->next_version++;
    for (uint32_t word = 0; word < keeper->sizes.words; word++) {
        KeeperAnswer answer = keeper_write(keeper, slot, page, word, version == 0 ? 0 : plug_word(version, word));
        if (answer.refusal == KEEPER_AT_LIMIT && word == 0)
            return;
        if (answer.refusal != KEEPER_DONE)
            tell(run, NOTE_REFUSED, slot, page, answer.refusal);
    }
    tell(run, NOTE_WOVEN, slot, page, version);
    remember(run);
}

/* A page that is being written is looked at as it is, before its write has ended. */
static void look(Run *run, uint32_t slot, uint32_t page)
{
    const Keeper *keeper = run->own->keeper;
    const size_t frame = keeper_frame_of(keeper, slot, page);
    const int written = frame < keeper->sizes.frames && keeper->frames[frame].transfer == KEEPER_WRITING;
    if (!written && bring(run, slot, page) != KEEPER_DONE)
        return;
    const uint32_t *words = keeper_words(run->own->keeper, slot, page);
    if (words)
        tell_words(run, NOTE_READ, slot, page, 0, words);
    else
        tell(run, NOTE_REFUSED, slot, page, 0);
}

static void claim(Run *run)
{
    keeper_claim(run->own->keeper);
    tell_changes(run);
}

static void end_some_transfer(Run *run)
{
    Keeper *keeper = run->own->keeper;
    KeeperTransfer t = keeper_next_transfer(keeper, chance(run, (uint32_t)keeper->sizes.frames));
    if (t.way && chance(run, 8) == 0)
        fail_transfer(run, t);
    else if (t.way)
        transfer(run, t);
}

static void end_some_map(Run *run)
{
    Keeper *keeper = run->own->keeper;
    const uint32_t slot = keeper_next_update(keeper, chance(run, (uint32_t)keeper->sizes.slots));
    if (slot < keeper->sizes.slots && chance(run, 8) == 0) {
        keeper_map_done(keeper, slot, 0);
        tell(run, NOTE_MAP_END, slot, 0, 0);
        remember(run);
    } else if (slot < keeper->sizes.slots) {
        map(run, slot);
    }
}

static void save(Run *run, uint32_t slot)
{
    KeeperSave state = keeper_save_begin(slot);
    while (!run->disk.dead) {
        KeeperStep step = keeper_save(run->own->keeper, &state);
        tell_changes(run);
        if (step.what == KEEPER_STEP_DONE || step.what == KEEPER_STEP_REFUSED)
            return;
        if (step.what == KEEPER_STEP_TRANSFER)
            transfer(run, step.transfer);
        else if (step.what == KEEPER_STEP_MAP)
            map(run, step.slot);
    }
}

static void truncate_at(Run *run, uint32_t slot, uint32_t from)
{
    if (keeper_truncate(run->own->keeper, slot, from).refusal == KEEPER_DONE)
        tell(run, NOTE_TRUNCATE, slot, from, 0);
    remember(run);
}

/* An event that stores is carried out, or the disk is dead, and its answer says so. */
void must_be_done(Run *run, KeeperAnswer answer, uint32_t a, uint32_t b)
{
    if (answer.refusal != (run->disk.dead ? FILEDISK_DIED : KEEPER_DONE))
        tell(run, NOTE_REFUSED, a, b, answer.refusal);
}

static void set_limit(Run *run, uint32_t account, uint32_t pages)
{
    tell(run, NOTE_LIMIT, account, pages, 0);
    must_be_done(run, filedisk_limit(&run->disk, run->own->keeper, account, pages), account, pages);
    if (!run->disk.dead)
        tell(run, NOTE_LIMIT_END, account, 0, 0);
}

/* The move of a driver that stores each limit by itself. */
static KeeperAnswer move_in_two(Run *run, uint32_t giver, uint32_t taker, uint32_t pages)
{
    Keeper *keeper = run->own->keeper;
    const FilePiece less = {KEEPER_TABLE_LIMITS, giver, 1, keeper->limits + giver}, more = {KEEPER_TABLE_LIMITS, taker, 1, keeper->limits + taker};
    KeeperAnswer answer = keeper_move(keeper, giver, taker, pages);
    if (answer.refusal == KEEPER_DONE && (filedisk_store(&run->disk, &less, 1) != 0 || filedisk_store(&run->disk, &more, 1) != 0))
        answer.refusal = FILEDISK_DIED;
    return answer;
}

/* Pages of limit go from an account to its parent, or back; all that the giver has, now and then, so that its parent pays. */
static void move(Run *run)
{
    Keeper *keeper = run->own->keeper;
    const uint32_t child = 1 + chance(run, (uint32_t)keeper->sizes.accounts - 1), up = chance(run, 2);
    const uint32_t giver = up ? child : keeper->parents[child], taker = up ? keeper->parents[child] : child;
    const uint32_t has = keeper->limits[giver], pages = chance(run, 3) == 0 ? has : 1 + chance(run, has + 1);
    tell(run, NOTE_MOVE, giver, taker, pages);
    KeeperAnswer answer = run->own->wrong == WRONG_TWO_STORES ? move_in_two(run, giver, taker, pages)
                                                              : filedisk_move(&run->disk, keeper, giver, taker, pages);
    if (answer.refusal != KEEPER_NO_MOVE && answer.refusal != KEEPER_OVER_LIMIT)
        must_be_done(run, answer, giver, taker);
    if (!run->disk.dead)
        tell(run, NOTE_MOVE_END, answer.refusal == KEEPER_DONE, 0, 0);
}

static void set_active(Run *run, uint32_t slot, int active)
{
    Keeper *keeper = run->own->keeper;
    KeeperAnswer answer = active ? keeper_activate(keeper, slot) : keeper_deactivate(keeper, slot);
    if (answer.refusal == KEEPER_DONE)
        tell(run, active ? NOTE_ACTIVATE : NOTE_DEACTIVATE, slot, 0, 0);
    remember(run);
}

/* An empty slot gets a design. */
static void create(Run *run, uint32_t slot)
{
    Keeper *keeper = run->own->keeper;
    const uint32_t account = chance(run, (uint32_t)keeper->sizes.accounts), number = new_number(run);
    tell(run, NOTE_SLOT, slot, number, account);
    run->slot = slot, run->numbering = 1, run->highest_stores = 0;
    KeeperAnswer answer = run->own->wrong == WRONG_NO_SLOT      ? keeper_create(keeper, slot, account, number)
                          : run->own->wrong == WRONG_NO_HIGHEST ? create_slot_alone(run, slot, account, number)
                                                                : filedisk_create(&run->disk, keeper, slot, account, number);
    run->numbering = 0;
    must_be_done(run, answer, slot, number);
    if (!run->disk.dead)
        tell(run, NOTE_SLOT_END, slot, 0, 0);
}

/* A design at rest whose map lists nothing goes. */
static void delete(Run *run, uint32_t slot)
{
    Keeper *keeper = run->own->keeper;
    if (keeper->active[slot])
        return;
    for (size_t page = 0; page < keeper->sizes.pages; page++)
        if (keeper->maps[slot * keeper->sizes.pages + page] != 0)
            return;
    tell(run, NOTE_SLOT, slot, 0, 0);
    must_be_done(run, filedisk_delete(&run->disk, keeper, slot), slot, 0);
    if (!run->disk.dead)
        tell(run, NOTE_SLOT_END, slot, 0, 0);
}

/* Brings a design to rest, and now and then to its end. */
static void put_to_rest(Run *run, uint32_t slot, int ends)
{
    Keeper *keeper = run->own->keeper;
    for (uint32_t page = 0; page < keeper->sizes.pages; page++)
        keeper_unwire(keeper, slot, page);
    remember(run);
    if (ends)
        truncate_at(run, slot, 0);
    for (size_t claims = 0; claims < keeper->sizes.frames && !run->disk.dead; claims++) {
        claim(run);
        for (KeeperTransfer t = keeper_next_transfer(keeper, 0); t.way && !run->disk.dead; t = keeper_next_transfer(keeper, 0))
            transfer(run, t);
    }
    save(run, slot);
    set_active(run, slot, 0);
    if (ends && !run->disk.dead)
        delete(run, slot);
}

static void one_act(Run *run)
{
    Keeper *keeper = run->own->keeper;
    const uint32_t slot = chance(run, (uint32_t)keeper->sizes.slots), page = chance(run, (uint32_t)keeper->sizes.pages);
    if (keeper->numbers[slot] == 0) {
        if (chance(run, 4) == 0)
            create(run, slot);
        else
            import_design(run, slot);
        return;
    }
    if (!keeper->active[slot]) {
        if (chance(run, 3) == 0)
            export_design(run, slot);
        else
            set_active(run, slot, 1);
        return;
    }
    switch (chance(run, 24)) {
    case 0: truncate_at(run, slot, page); break;
    case 1:
        if (chance(run, 3) == 0)
            set_limit(run, chance(run, (uint32_t)keeper->sizes.accounts), chance(run, 2 * (uint32_t)keeper->sizes.pages));
        else
            move(run);
        break;
    case 2: put_to_rest(run, slot, chance(run, 3) != 0); break;
    case 3: keeper_wire(keeper, slot, page); remember(run); break;
    case 4: keeper_unwire(keeper, slot, page); remember(run); break;
    case 5: save(run, slot); break;
    case 6: case 7: keeper_update(keeper, slot); tell_changes(run); break;
    case 8: case 9: end_some_map(run); break;
    case 10: case 11: claim(run); break;
    case 12: case 13: end_some_transfer(run); break;
    case 14: case 15: case 16: look(run, slot, page); break;
    default: weave(run, slot, page);
    }
}

/* ── the open ── */
static int opens(Run *run)
{
    Weaver *own = run->own;
    run->opening = 1;
    int answer = filedisk_open(&run->disk, own->blocks, own->keeper);
    run->opening = 0;
    if (answer == FILEDISK_NO_DISK && !own->formatted) {
        uint16_t parents[KEEPER_MOST_ACCOUNTS];
        for (size_t account = 0; account < KEEPER_MOST_ACCOUNTS; account++)
            parents[account] = plug_parent(account);
        answer = filedisk_format(&run->disk, own->blocks, own->keeper, parents);
        if (answer == FILEDISK_GOOD)
            tell(run, NOTE_FORMATTED, 0, 0, 0);
    }
    if (answer != FILEDISK_GOOD && answer != FILEDISK_DEVICE)
        tell(run, NOTE_LOST, (uint32_t)answer, 0, 0);
    remember(run);
    return answer == FILEDISK_GOOD;
}

/* A page as it reads now; one that the records leave no room for is not listed, and reads zeros. */
static void tell_found(Run *run, uint32_t slot, uint32_t page)
{
    static const uint32_t zeros[PLUG_MOST_WORDS];
    Keeper *keeper = run->own->keeper;
    const uint32_t refusal = filedisk_bring(&run->disk, keeper, slot, page);
    const uint32_t *words = keeper_words(keeper, slot, page);
    if (refusal == KEEPER_NO_RECORD)
        words = zeros;
    if (words)
        tell_words(run, NOTE_FOUND_PAGE, slot, page, 0, words);
}

/* Tells all that is on the disk, as the keeper reads it. */
static void tell_disk(Run *run)
{
    Keeper *keeper = run->own->keeper;
    tell(run, NOTE_FOUND_HIGHEST, 0, keeper->highest[0], 0);
    for (uint32_t account = 0; account < keeper->sizes.accounts; account++)
        tell(run, NOTE_FOUND_LIMIT, account, keeper->limits[account], keeper->parents[account]);
    for (uint32_t slot = 0; slot < keeper->sizes.slots; slot++)
        tell(run, NOTE_FOUND_SLOT, slot, keeper->numbers[slot], keeper->accounts[slot]);
    for (uint32_t slot = 0; slot < keeper->sizes.slots; slot++)
        if (keeper->numbers[slot] != 0 && keeper_activate(keeper, slot).refusal == KEEPER_DONE)
            for (uint32_t page = 0; page < keeper->sizes.pages; page++)
                tell_found(run, slot, page);
    if (!run->disk.dead)
        tell(run, NOTE_OPENED, 0, 0, 0);
}

void weaver_run(Weaver *weaver)
{
    Run run;
    memset(&run, 0, sizeof run);
    run.own = weaver;
    weaver->blocks = watched(&run, weaver->blocks);
    if (!opens(&run))
        return;
    tell_disk(&run);
    const uint32_t slot = chance(&run, (uint32_t)weaver->keeper->sizes.slots);
    const int goes = !run.disk.dead && older_board(&run, slot);
    /* opened again: nothing of the reading stays */
    if (run.disk.dead || !opens(&run))
        return;
    if (goes)
        delete(&run, slot);
    /* account 0 pays for all that have none */
    for (uint32_t account = 0; account < weaver->keeper->sizes.accounts && !run.disk.dead; account++)
        if (weaver->keeper->limits[account] == 0 && (account == 0 || chance(&run, 3) == 0))
            set_limit(&run, account, (uint32_t)weaver->keeper->sizes.pages);
    while (!run.disk.dead)
        one_act(&run);
}
