//! Events about pages in frames: fault, read, write, wire, unwire, truncate.

use super::{chip, free_frame, in_service, set_state};
use crate::keeper::Keeper;
use crate::queue;
use crate::tables::{Frame, LIVE, NULLED, READING, RELEASED};

/// Takes the first queued frame; begins a read, which is done at once if the chip has a copy, or brings the page in as zeros.
pub fn fault(keeper: &mut Keeper, slot: usize, page: usize) -> u32 {
    let page = keeper.flat(slot, page);
    let frame = queue::first(&keeper.memory.free_queue).expect("question 20");
    queue::remove(&mut keeper.memory.free_queue, frame);
    keeper.memory.frames[frame] = Frame { page: page as u16 + 1, ..Frame::default() };
    match keeper.record_of(page) {
        Some(record) if keeper.memory.states[record] == LIVE => match chip::place_of(keeper, record) {
            Some(place) => {
                let copy = keeper.memory.chip_words[chip::words_of(keeper, place)].to_vec();
                in_service(keeper, frame, &copy);
            }
            None => keeper.memory.frames[frame].transfer = READING,
        },
        held => {
            if held.is_none() {
                let record = take_record(keeper, slot, neighbour(keeper, page), NULLED);
                keeper.memory.addresses[page] = record as u16 + 1;
            }
            in_service(keeper, frame, &vec![0; keeper.sizes.words]);
        }
    }
    frame as u32
}

/// The record held by the closest lower page of the page's design that has one.
pub fn neighbour(keeper: &Keeper, page: usize) -> Option<usize> {
    let first = page - page % keeper.sizes.pages;
    let held = keeper.memory.addresses[first..page].iter().rev().find(|&&address| address != 0);
    held.map(|&address| address as usize - 1)
}

/// The free records by number.
pub fn free_records(keeper: &Keeper) -> impl Iterator<Item = usize> + '_ {
    (0..keeper.sizes.records).filter(|record| keeper.memory.free_map[record / 32] >> (record % 32) & 1 == 1)
}

/// The free record that is taken: the nearest to a neighbour, of two equally near the lower; without a neighbour the first counting up
/// from the hand.
fn choose(keeper: &Keeper, neighbour: Option<usize>) -> Option<usize> {
    let hand = keeper.memory.pool.hand as usize;
    match neighbour {
        Some(near) => free_records(keeper).min_by_key(|&record| (record.abs_diff(near), record)),
        None => free_records(keeper).min_by_key(|&record| (record < hand, record)),
    }
}

/// A free record becomes the slot's, in a state; the hand stands just past it.
pub fn take_record(keeper: &mut Keeper, slot: usize, neighbour: Option<usize>, state: u8) -> usize {
    let count = keeper.sizes.records;
    let record = choose(keeper, neighbour).expect("question 19");
    let memory = &mut keeper.memory;
    memory.free_map[record / 32] &= !(1 << (record % 32));
    memory.pool.free -= 1;
    memory.pool.hand = ((record + 1) % count) as u32;
    memory.states[record] = state;
    memory.owners[record] = slot as u8;
    record
}

/// The frame of a page that is in one.
fn frame_at(keeper: &Keeper, slot: usize, page: usize) -> usize {
    keeper.frame_of(keeper.flat(slot, page)).expect("question 13")
}

pub fn read(keeper: &mut Keeper, slot: usize, page: usize, word: usize) -> u32 {
    let frame = frame_at(keeper, slot, page);
    keeper.memory.frames[frame].used = 1;
    keeper.memory.frame_words[frame * keeper.sizes.words + word]
}

/// A page's first write is charged to the account that pays.
pub fn write(keeper: &mut Keeper, slot: usize, page: usize, word: usize, value: u32) -> u32 {
    let frame = frame_at(keeper, slot, page);
    let page = keeper.flat(slot, page);
    if !keeper.charged(page) {
        let payer = keeper.payer(slot);
        keeper.memory.used[payer] += 1;
    }
    keeper.memory.frames[frame].used = 1;
    keeper.memory.frames[frame].modified = 1;
    keeper.memory.frame_words[frame * keeper.sizes.words + word] = value;
    0
}

pub fn wire(keeper: &mut Keeper, slot: usize, page: usize) -> u32 {
    let frame = frame_at(keeper, slot, page);
    queue::remove(&mut keeper.memory.removal_list, frame);
    keeper.memory.frames[frame].wired = 1;
    0
}

pub fn unwire(keeper: &mut Keeper, slot: usize, page: usize) -> u32 {
    let frame = frame_at(keeper, slot, page);
    queue::push_end(&mut keeper.memory.removal_list, frame);
    keeper.memory.frames[frame].wired = 0;
    keeper.memory.frames[frame].initial = 0;
    0
}

/// Pages from `count` up become zeros: their records released, never freed here; their frames freed in page order.
pub fn truncate(keeper: &mut Keeper, slot: usize, count: usize) -> u32 {
    let payer = keeper.payer(slot);
    for page in keeper.pages_of(slot).skip(count) {
        let frame = keeper.frame_of(page);
        if keeper.charged(page) {
            keeper.memory.used[payer] -= 1;
        }
        if let Some(frame) = frame {
            queue::remove(&mut keeper.memory.removal_list, frame);
            free_frame(keeper, frame);
        }
        if let Some(record) = keeper.record_of(page) {
            set_state(keeper, record, RELEASED);
            keeper.memory.addresses[page] = 0;
        }
    }
    0
}
