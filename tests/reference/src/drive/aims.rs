//! The next event on the way to a design at rest: out of its frames, stored, inactive, and deleted if wanted.

use super::act::Call;
use crate::keeper::Keeper;
use crate::tables::{LIVE, NO_TRANSFER, NULLED, RELEASED};

/// What a list works towards for a while.
#[derive(Clone, Copy)]
pub struct Aim {
    pub slot: usize,
    pub delete: bool,
    pub steps: usize,
}

/// The next step; none once the slot is where the aim wants it.
pub fn step(keeper: &Keeper, aim: &Aim) -> Option<Call> {
    let slot = aim.slot;
    let memory = &keeper.memory;
    let empty_map = keeper.pages_of(slot).all(|page| keeper.disk.maps[page] == 0);
    if keeper.disk.numbers[slot] == 0 {
        return None;
    }
    if memory.active[slot] == 0 {
        let next = if empty_map { 0x02 } else { 0x03 };
        return aim.delete.then(|| Call::request(next, [slot, 0, 0, 0]));
    }
    if memory.updating[slot] == 1 {
        return Some(Call::request(0x0E, [slot, 1, 0, 0]));
    }
    if let Some(page) = keeper.pages_of(slot).find(|&page| keeper.frame_of(page).is_some()) {
        return Some(out_of_frame(keeper, slot, page));
    }
    let held = keeper.pages_of(slot).any(|page| memory.addresses[page] != 0);
    if aim.delete && held {
        return Some(Call::request(0x0B, [slot, 0, 0, 0]));
    }
    let next = if settled(keeper, slot) { 0x04 } else { 0x0C };
    Some(Call::request(next, [slot, 0, 0, 0]))
}

/// The next step that brings a page out of its frame.
fn out_of_frame(keeper: &Keeper, slot: usize, page: usize) -> Call {
    let number = keeper.frame_of(page).expect("a page in a frame");
    let frame = &keeper.memory.frames[number];
    if frame.transfer != NO_TRANSFER {
        Call::request(0x0D, [number, 1, 0, 0])
    } else if frame.wired == 1 {
        Call::request(0x0A, [slot, page - keeper.flat(slot, 0), 0, 0])
    } else {
        Call::request(0x08, [0; 4])
    }
}

/// Whether the map is what an update would store and nothing of the slot waits for one.
fn settled(keeper: &Keeper, slot: usize) -> bool {
    let memory = &keeper.memory;
    let same = keeper.pages_of(slot).all(|page| {
        let entry = if keeper.holds(page, LIVE) { memory.addresses[page] } else { 0 };
        keeper.disk.maps[page] == entry
    });
    let waits = |record: usize| {
        memory.owners[record] as usize == slot && matches!(memory.states[record], NULLED | RELEASED)
    };
    same && !(0..keeper.sizes.records).any(waits)
}
