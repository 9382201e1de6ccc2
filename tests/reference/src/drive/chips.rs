//! What an event may do to the chip, and how often each case of it was seen.

use super::act::Call;
use crate::event::Request;
use crate::keeper::Keeper;
use crate::queue;
use crate::tables::{LIVE, READING};

pub fn empty(keeper: &Keeper) -> bool {
    let memory = &keeper.memory;
    memory.chip_records.iter().all(|&entry| entry == 0)
        && memory.chip_words.iter().all(|&word| word == 0)
        && memory.chip_next == [0]
}

/// The frame of a good page done.
fn good_done(call: &Call) -> Option<usize> {
    match *call {
        Call::Apply(Request { kind: 13, first, second: 1, .. }) => Some(first as usize),
        _ => None,
    }
}

/// The record + 1 of the page that a frame has.
fn entry_in(keeper: &Keeper, frame: usize) -> u16 {
    keeper.memory.addresses[keeper.memory.frames[frame].page as usize - 1]
}

/// A good page done puts its record in, where it stands or in the next place, which moves on, round; nothing else does. Exactly the copies
/// go whose records are not live any more.
pub fn moved(call: &Call, before: &Keeper, after: &Keeper) -> bool {
    let live = |entry: u16| entry != 0 && after.memory.states[entry as usize - 1] == LIVE;
    let kept = before.memory.chip_records.iter().map(|&entry| if live(entry) { entry } else { 0 });
    let (mut wanted, mut next) = (kept.collect::<Vec<u16>>(), before.memory.chip_next[0]);
    let new = good_done(call).map(|frame| entry_in(before, frame));
    if let Some(entry) = new.filter(|entry| !wanted.contains(entry)) {
        wanted[next as usize] = entry;
        next = (next + 1) % before.sizes.chip as u16;
    }
    (&after.memory.chip_records, after.memory.chip_next[0]) == (&wanted, next)
}

/// Faults and turns that found a copy, and those that began a read; good reads and writes that filled an empty place, replaced their own
/// copy and took another record's place, and those after which place 0 is next; claims, truncations and deactivations that dropped a copy.
#[derive(Debug, Default)]
pub struct Chips {
    pub faults: u64,
    pub turns: u64,
    pub begun: u64,
    pub filled: u64,
    pub replaced: u64,
    pub taken: u64,
    pub round: u64,
    pub claims: u64,
    pub truncations: u64,
    pub deactivations: u64,
}

impl Chips {
    /// Notes an event that was carried out.
    pub fn note(&mut self, call: &Call, before: &Keeper, after: &Keeper) {
        let Call::Apply(request) = call else { return };
        let taken = |keeper: &Keeper| keeper.memory.chip_records.iter().filter(|&&entry| entry != 0).count();
        let dropped = (taken(after) < taken(before)) as u64;
        match request.kind {
            5 | 19 => self.note_fault(request, before, after, dropped),
            8 => self.claims += dropped,
            11 => self.truncations += dropped,
            4 => self.deactivations += dropped,
            _ => {}
        }
        if let Some(frame) = good_done(call) {
            let (entry, next) = (entry_in(before, frame), before.memory.chip_next[0] as usize);
            let own = before.memory.chip_records.contains(&entry);
            self.replaced += own as u64;
            self.filled += (!own && before.memory.chip_records[next] == 0) as u64;
            self.taken += (!own && before.memory.chip_records[next] != 0) as u64;
            self.round += (!own && before.sizes.chip > 1 && after.memory.chip_next == [0]) as u64;
        }
    }

    /// A page with a live record came into a frame: by a copy, or a read began.
    fn note_fault(&mut self, request: &Request, before: &Keeper, after: &Keeper, dropped: u64) {
        let page = match request.kind {
            5 => Some(before.flat(request.first as usize, request.second as usize)),
            _ => queue::first(&before.memory.line),
        };
        let Some(page) = page.filter(|&page| before.frame_of(page).is_none()) else { return };
        match after.frame_of(page) {
            Some(frame) if before.holds(page, LIVE) => {
                let read = after.memory.frames[frame].transfer == READING;
                self.begun += read as u64;
                self.faults += (!read && request.kind == 5) as u64;
                self.turns += (!read && request.kind == 19) as u64;
            }
            _ => self.claims += dropped,
        }
    }

    pub fn rarer_than(&self, least: u64) -> bool {
        let all = [
            self.faults,
            self.turns,
            self.begun,
            self.filled,
            self.replaced,
            self.taken,
            self.round,
            self.claims,
            self.truncations,
            self.deactivations,
        ];
        all.into_iter().any(|count| count < least)
    }
}
