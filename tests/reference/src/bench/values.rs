//! Likely values for an event of a kind. They keep the tables in use: nearly all frames taken, a few pages wired or in transfer,
//! a few updates under way.

use super::disk::busy;
use crate::drive::counts::tag;
use crate::drive::random::Random;
use crate::events::chip;
use crate::keeper::Keeper;
use crate::queue;
use crate::tables::{Frame, LINE, LIVE, NO_TRANSFER};

/// None where an event of that kind would leave too much or too little in use, or there is nothing for it.
pub fn likely(kind: usize, keeper: &Keeper, random: &mut Random) -> Option<[usize; 4]> {
    let (sizes, memory) = (&keeper.sizes, &keeper.memory);
    let slot = random.below(busy(sizes));
    let account = random.below(sizes.accounts);
    let good = usize::from(random.percent(90));
    let updating = memory.updating.iter().filter(|&&switch| switch == 1).count();
    let waiting = queue::length(&memory.line);
    Some(match tag(kind) {
        0x01 => [resting(keeper, random), account, keeper.disk.highest[0] as usize + random.up_to(9), 0],
        0x02..=0x04 => [resting(keeper, random), 0, 0, 0],
        0x05 => [slot, page_to_fault(keeper, slot, random), 0, 0],
        0x08 if queue::length(&memory.free_queue) > few(sizes.frames) / 2 => return None,
        0x08 => [0; 4],
        0x0B => [slot, pages_to_keep(keeper, slot, random), 0, 0],
        0x0C if updating >= few(sizes.slots) => return None,
        0x0C => [slot, 0, 0, 0],
        0x0D => [in_transfer(keeper, random)?, good, 0, 0],
        0x0E if updating <= few(sizes.slots) / 2 => return None,
        0x0E => [random.find(sizes.slots, |slot| memory.updating[slot] == 1)?, good, 0, 0],
        0x0F => [account, 65_535 - random.below(100), 0, 0],
        18 if random.percent(50) => in_service(kind, keeper, random)?,
        18 => [slot, page_to_fault(keeper, slot, random), 0, 0],
        19 if waiting == 0 => return None,
        19 => [0; 4],
        _ => in_service(kind, keeper, random)?,
    })
}

/// How many of so many are the most to be wired, in transfer or under way at a time.
fn few(n: usize) -> usize {
    (n / 8).max(1)
}

/// A slot that is not busy.
fn resting(keeper: &Keeper, random: &mut Random) -> usize {
    let busy = busy(&keeper.sizes);
    busy + random.below(keeper.sizes.slots - busy)
}

/// How many pages a design has, to its last one that holds a record.
fn length(keeper: &Keeper, slot: usize) -> usize {
    let held = keeper.pages_of(slot).rposition(|page| keeper.memory.addresses[page] != 0);
    held.map_or(0, |last| last + 1)
}

/// As often a page that a read must bring from the disk as any other.
fn page_to_fault(keeper: &Keeper, slot: usize, random: &mut Random) -> usize {
    let stored = |page| {
        let page = keeper.flat(slot, page);
        let copied = keeper.record_of(page).is_some_and(|record| chip::place_of(keeper, record).is_some());
        keeper.holds(page, LIVE) && !copied && keeper.frame_of(page).is_none()
    };
    let found = random.find(keeper.sizes.pages, stored).filter(|_| random.percent(50));
    found.unwrap_or_else(|| random.below(keeper.sizes.pages.min(length(keeper, slot) + 2)))
}

/// All, or one time in four all but the last.
fn pages_to_keep(keeper: &Keeper, slot: usize, random: &mut Random) -> usize {
    length(keeper, slot).saturating_sub(usize::from(random.percent(25)))
}

fn moving(frame: &Frame) -> bool {
    frame.transfer != NO_TRANSFER
}

fn transfers(keeper: &Keeper) -> usize {
    keeper.memory.frames.iter().filter(|frame| moving(frame)).count()
}

/// Whether a transfer must be reported before anything else.
pub fn many_transfers(keeper: &Keeper) -> bool {
    transfers(keeper) > few(keeper.sizes.frames)
}

/// Whether the first that wait must be treated before others join.
pub fn many_wait(keeper: &Keeper) -> bool {
    queue::length(&keeper.memory.line) > LINE / 2
}

fn in_transfer(keeper: &Keeper, random: &mut Random) -> Option<usize> {
    let frames = &keeper.memory.frames;
    let enough = transfers(keeper) > few(frames.len()) / 2;
    random.find(frames.len(), |frame| moving(&frames[frame])).filter(|_| enough)
}

/// A page in service: read, write, wire, unwire, page look. Half of the writes go to pages not yet modified, so that some are
/// modified when they are claimed.
fn in_service(kind: usize, keeper: &Keeper, random: &mut Random) -> Option<[usize; 4]> {
    let (sizes, frames) = (&keeper.sizes, &keeper.memory.frames);
    let wired = frames.iter().filter(|frame| frame.wired == 1).count();
    let unmodified = random.percent(50);
    let fits = |frame: &Frame| match tag(kind) {
        0x07 => !unmodified || frame.modified + frame.wired == 0,
        0x09 => frame.wired == 0 && wired < few(sizes.frames),
        0x0A => frame.wired == 1 && wired > few(sizes.frames) / 2,
        _ => true,
    };
    let ready = |frame: &Frame| frame.page != 0 && frame.transfer == NO_TRANSFER && fits(frame);
    let number = random.find(sizes.frames, |number| ready(&frames[number]))?;
    let page = frames[number].page as usize - 1;
    let value = if random.percent(90) { random.next() as u32 as usize } else { 0 };
    Some([page / sizes.pages, page % sizes.pages, random.below(sizes.words), value])
}
