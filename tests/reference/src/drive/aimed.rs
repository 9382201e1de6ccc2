//! Damage aimed at one rule of question 2, which it breaks alone: for the rules that damage at random seldom breaks without another.

use super::random::Random;
use crate::events::chip;
use crate::keeper::Keeper;
use crate::rules::View;
use crate::tables::{FILED, FREE, LIVE, NO_TRANSFER, NULLED, READING, RELEASED, WRITING};
use crate::{accounts, queue};

/// A rule, and a damage of sound tables that breaks it; none if the tables have not what it takes.
type Aim = (&'static str, fn(&mut Keeper, &mut Random) -> Option<()>);

/// Those that the tables seldom have what it takes for stand first, and are drawn more often.
const AIMS: [Aim; 19] = [
    ("a frame being written is modified", written_unmodified),
    ("no record stands in two entries", entry_twice),
    ("no record stands twice in one image", imaged_twice),
    ("a parent is a lower account", parent_past),
    ("an entry is at most R", entry_past),
    ("an active slot is filled", active_empty),
    ("a queue is packed, no frame in it twice", unpacked),
    ("an unmodified frame in service equals its record, or zeros", other_word),
    ("an inactive slot has no address, frame or update", updating_at_rest),
    ("no two pages hold one record", held_twice),
    ("no record is in the chip twice", copied_twice),
    ("no number stands in two slots", number_twice),
    ("a page in a frame has an address, a reading one a live one", unaddressed),
    ("the hand is below R", hand_past),
    ("an empty place of the chip holds zeros", empty_place_filled),
    ("the chip's next place is below B", next_place_past),
    ("an empty slot has account 0 and a zero map", empty_listed),
    ("an account is below Q", account_past),
    ("a copy's record is live, and its words equal the record's", copy_stale),
];

/// One of these damages, if it can be made; the rule that it breaks.
pub fn aimed(keeper: &mut Keeper, random: &mut Random) -> Option<&'static str> {
    let drawn = random.below(AIMS.len()).min(random.below(AIMS.len()));
    let (rule, aim) = AIMS[drawn];
    aim(keeper, random).map(|()| rule)
}

/// A record that no page holds gets another state, the free map and count in step.
pub fn set_state(keeper: &mut Keeper, record: usize, state: u8) {
    let memory = &mut keeper.memory;
    memory.states[record] = state;
    let bit = 1 << (record % 32);
    memory.free_map[record / 32] &= !bit;
    if state == FREE {
        memory.free_map[record / 32] |= bit;
    }
    memory.pool.free = memory.states.iter().filter(|&&state| state == FREE).count() as u32;
}

/// The used counts as the other tables have them now.
fn count_anew(keeper: &mut Keeper) {
    keeper.memory.used = accounts::counts(&View::of(keeper), &keeper.disk.limits);
}

/// Two pages of a slot: one that is as wanted, and another one that is as wanted.
fn two_pages(
    keeper: &Keeper,
    random: &mut Random,
    one: impl Fn(usize) -> bool,
    other: impl Fn(usize) -> bool,
) -> Option<(usize, usize)> {
    let found =
        |page: usize| keeper.pages_of(page / keeper.sizes.pages).find(|&next| next != page && other(next));
    let page = random.find(keeper.sizes.all_pages(), |page| one(page) && found(page).is_some())?;
    Some((page, found(page)?))
}

fn written_unmodified(keeper: &mut Keeper, random: &mut Random) -> Option<()> {
    let frames = &mut keeper.memory.frames;
    let frame = random.find(frames.len(), |frame| frames[frame].transfer == WRITING)?;
    frames[frame].modified = 0;
    count_anew(keeper);
    Some(())
}

/// A free record, or a released one of the slot, enters the begun image twice, released.
fn imaged_twice(keeper: &mut Keeper, random: &mut Random) -> Option<()> {
    let memory = &keeper.memory;
    let slot = random.find(keeper.sizes.slots, |slot| memory.updating[slot] == 1)?;
    let fits = |record: usize| match memory.states[record] {
        RELEASED => memory.owners[record] as usize == slot && !memory.images.contains(&(record as u16 + 1)),
        state => state == FREE,
    };
    let record = random.find(keeper.sizes.records, fits)?;
    let here = |page: usize| page / keeper.sizes.pages == slot;
    let (one, other) = two_pages(keeper, random, here, here)?;
    set_state(keeper, record, RELEASED);
    keeper.memory.owners[record] = slot as u8;
    keeper.memory.images[one] = record as u16 + 1;
    keeper.memory.images[other] = record as u16 + 1;
    Some(())
}

fn held_twice(keeper: &mut Keeper, random: &mut Random) -> Option<()> {
    let addresses = &keeper.memory.addresses;
    let (one, other) = two_pages(keeper, random, |page| addresses[page] != 0, |page| addresses[page] == 0)?;
    keeper.memory.addresses[other] = keeper.memory.addresses[one];
    count_anew(keeper);
    Some(())
}

/// The record of a page in a frame is released; or, if the page is being read, nulled.
fn unaddressed(keeper: &mut Keeper, random: &mut Random) -> Option<()> {
    let (frames, memory) = (&keeper.memory.frames, &keeper.memory);
    let record = |frame: usize| memory.addresses[frames[frame].page as usize - 1] as usize - 1;
    // the words of an unmodified frame in service are zeros, once its page has no address
    let fits = |frame: usize| {
        let bare = frames[frame].modified == 0 && frames[frame].transfer == NO_TRANSFER;
        frames[frame].page != 0 && (!bare || memory.states[record(frame)] == NULLED)
    };
    let frame = random.find(frames.len(), fits)?;
    let (page, record, read) =
        (frames[frame].page as usize - 1, record(frame), frames[frame].transfer == READING);
    if read && random.percent(50) {
        set_state(keeper, record, NULLED);
    } else {
        set_state(keeper, record, RELEASED);
        keeper.memory.addresses[page] = 0;
    }
    chip::drop_stale(keeper);
    count_anew(keeper);
    Some(())
}

fn other_word(keeper: &mut Keeper, random: &mut Random) -> Option<()> {
    let frames = &keeper.memory.frames;
    let clean = |frame: usize| {
        frames[frame].page != 0 && frames[frame].transfer == NO_TRANSFER && frames[frame].modified == 0
    };
    let frame = random.find(frames.len(), clean)?;
    let word = keeper.words_of_frame(frame).start + random.below(keeper.sizes.words);
    keeper.memory.frame_words[word] ^= 1 << random.below(32);
    Some(())
}

/// A queue begins with a gap, or its first frame stands in it twice.
fn unpacked(keeper: &mut Keeper, random: &mut Random) -> Option<()> {
    let memory = &mut keeper.memory;
    let queue = if random.percent(50) { &mut memory.free_queue } else { &mut memory.removal_list };
    let length = queue::length(queue);
    if length == 0 || length == queue.len() {
        return None;
    }
    match random.below(2) {
        0 => queue.rotate_right(1),
        _ => queue[length] = queue[0],
    }
    Some(())
}

fn active_empty(keeper: &mut Keeper, random: &mut Random) -> Option<()> {
    let slot = random.find(keeper.sizes.slots, |slot| keeper.disk.numbers[slot] == 0)?;
    keeper.memory.active[slot] = 1;
    Some(())
}

/// An empty slot lists a free record, filed.
fn empty_listed(keeper: &mut Keeper, random: &mut Random) -> Option<()> {
    let slot = random.find(keeper.sizes.slots, |slot| keeper.disk.numbers[slot] == 0)?;
    let record = random.find(keeper.sizes.records, |record| keeper.memory.states[record] == FREE)?;
    set_state(keeper, record, FILED);
    keeper.memory.owners[record] = slot as u8;
    let page = keeper.flat(slot, random.below(keeper.sizes.pages));
    keeper.disk.maps[page] = record as u16 + 1;
    count_anew(keeper);
    Some(())
}

fn updating_at_rest(keeper: &mut Keeper, random: &mut Random) -> Option<()> {
    let slot = random.find(keeper.sizes.slots, |slot| keeper.memory.active[slot] == 0)?;
    keeper.memory.updating[slot] = 1;
    Some(())
}

fn number_twice(keeper: &mut Keeper, random: &mut Random) -> Option<()> {
    let numbers = &mut keeper.disk.numbers;
    let one = random.find(numbers.len(), |slot| numbers[slot] != 0)?;
    let other = random.find(numbers.len(), |slot| slot != one && numbers[slot] != 0)?;
    numbers[other] = numbers[one];
    Some(())
}

/// Of a design at rest, so that no rule of the memory is broken too.
fn entry_twice(keeper: &mut Keeper, random: &mut Random) -> Option<()> {
    let (maps, active) = (&keeper.disk.maps, &keeper.memory.active);
    let listed = |page: usize| maps[page] != 0 && active[page / keeper.sizes.pages] == 0;
    let (one, other) = two_pages(keeper, random, listed, |page| maps[page] == 0)?;
    keeper.disk.maps[other] = keeper.disk.maps[one];
    count_anew(keeper);
    Some(())
}

fn account_past(keeper: &mut Keeper, random: &mut Random) -> Option<()> {
    let slot = random.find(keeper.sizes.slots, |slot| keeper.disk.numbers[slot] != 0)?;
    keeper.disk.accounts[slot] = (keeper.sizes.accounts + random.below(3)) as u16;
    Some(())
}

fn entry_past(keeper: &mut Keeper, random: &mut Random) -> Option<()> {
    let filled = |page: usize| keeper.disk.numbers[page / keeper.sizes.pages] != 0;
    let page = random.find(keeper.sizes.all_pages(), filled)?;
    keeper.disk.maps[page] = (keeper.sizes.records + random.up_to(3)) as u16;
    Some(())
}

fn parent_past(keeper: &mut Keeper, random: &mut Random) -> Option<()> {
    let account = random.find(keeper.sizes.accounts, |account| account > 0)?;
    keeper.disk.parents[account] = (account + random.below(3)) as u16;
    Some(())
}

/// A copy stands in another place too.
fn copied_twice(keeper: &mut Keeper, random: &mut Random) -> Option<()> {
    let entries = &keeper.memory.chip_records;
    let one = random.find(entries.len(), |place| entries[place] != 0)?;
    let other = random.find(entries.len(), |place| place != one)?;
    let (from, to) = (chip::words_of(keeper, one), chip::words_of(keeper, other).start);
    keeper.memory.chip_records[other] = keeper.memory.chip_records[one];
    keeper.memory.chip_words.copy_within(from, to);
    Some(())
}

/// A copy has another word; or an empty place has that of a record that is not live, or of none that exists.
fn copy_stale(keeper: &mut Keeper, random: &mut Random) -> Option<()> {
    let (entries, states) = (&keeper.memory.chip_records, &keeper.memory.states);
    let taken = random.find(entries.len(), |place| entries[place] != 0);
    if let Some(place) = taken.filter(|_| random.percent(50)) {
        let word = chip::words_of(keeper, place).start + random.below(keeper.sizes.words);
        keeper.memory.chip_words[word] ^= 1 << random.below(32);
        return Some(());
    }
    let place = random.find(entries.len(), |place| entries[place] == 0)?;
    let stale = random.find(states.len(), |record| states[record] != LIVE);
    match stale.filter(|_| random.percent(70)) {
        Some(record) => {
            let (from, to) = (keeper.words_of_record(record), chip::words_of(keeper, place));
            keeper.memory.chip_words[to].copy_from_slice(&keeper.disk.records[from]);
            keeper.memory.chip_records[place] = record as u16 + 1;
        }
        None => keeper.memory.chip_records[place] = random.pick(&[keeper.sizes.records as u16 + 1, u16::MAX]),
    }
    Some(())
}

fn empty_place_filled(keeper: &mut Keeper, random: &mut Random) -> Option<()> {
    let place = random.find(keeper.sizes.chip, |place| keeper.memory.chip_records[place] == 0)?;
    let word = chip::words_of(keeper, place).start + random.below(keeper.sizes.words);
    keeper.memory.chip_words[word] ^= 1 << random.below(32);
    Some(())
}

fn next_place_past(keeper: &mut Keeper, random: &mut Random) -> Option<()> {
    let past = (keeper.sizes.chip + random.below(3)) as u16;
    keeper.memory.chip_next[0] = random.pick(&[past, u16::MAX]);
    Some(())
}

fn hand_past(keeper: &mut Keeper, random: &mut Random) -> Option<()> {
    keeper.memory.pool.hand = (keeper.sizes.records + random.below(3)) as u32;
    Some(())
}
