//! Events that begin and end transfers to the disk: update, page done, map done.

use super::{chip, free_frame, free_record, in_service, records_in, set_state};
use crate::keeper::Keeper;
use crate::queue;
use crate::tables::{LEAVING, LIVE, NO_TRANSFER, NULLED, READING, RELEASED};

/// The image lists live addresses. Nulled records of pages in no frame, and released ones, become leaving.
pub fn update(keeper: &mut Keeper, slot: usize) -> u32 {
    for record in records_in(keeper, slot, RELEASED) {
        set_state(keeper, record, LEAVING);
    }
    for page in keeper.pages_of(slot) {
        let live = keeper.holds(page, LIVE);
        keeper.memory.images[page] = if live { keeper.memory.addresses[page] } else { 0 };
        if let Some(record) = keeper.record_of(page) {
            if keeper.memory.states[record] == NULLED && keeper.frame_of(page).is_none() {
                set_state(keeper, record, LEAVING);
                keeper.memory.addresses[page] = 0;
            }
        }
    }
    keeper.memory.updating[slot] = 1;
    0
}

pub fn map_done(keeper: &mut Keeper, slot: usize, good: bool) -> u32 {
    let pages = keeper.pages_of(slot);
    if good {
        keeper.disk.maps[pages.clone()].copy_from_slice(&keeper.memory.images[pages.clone()]);
    }
    for record in records_in(keeper, slot, LEAVING) {
        if good {
            free_record(keeper, record);
        } else {
            set_state(keeper, record, RELEASED);
        }
    }
    keeper.memory.images[pages].fill(0);
    keeper.memory.updating[slot] = 0;
    0
}

/// A good one puts the record's words into the chip, as they are after it.
pub fn page_done(keeper: &mut Keeper, frame: usize, good: bool) -> u32 {
    let reading = keeper.memory.frames[frame].transfer == READING;
    let record = record_in(keeper, frame);
    match (reading, good) {
        (true, true) => good_read(keeper, frame),
        (false, true) => good_write(keeper, frame),
        (true, false) => free_frame(keeper, frame),
        (false, false) => failed_write(keeper, frame),
    }
    if good {
        chip::put(keeper, record);
    }
    0
}

/// The record of the page in a frame in transfer.
fn record_in(keeper: &Keeper, frame: usize) -> usize {
    let page = keeper.memory.frames[frame].page as usize - 1;
    keeper.record_of(page).expect("a page in a frame has an address")
}

fn good_read(keeper: &mut Keeper, frame: usize) {
    let from = keeper.words_of_record(record_in(keeper, frame));
    let words = keeper.disk.records[from].to_vec();
    in_service(keeper, frame, &words);
}

fn good_write(keeper: &mut Keeper, frame: usize) {
    let record = record_in(keeper, frame);
    let from = keeper.words_of_frame(frame);
    let to = keeper.words_of_record(record);
    keeper.disk.records[to].copy_from_slice(&keeper.memory.frame_words[from]);
    set_state(keeper, record, LIVE);
    free_frame(keeper, frame);
}

/// Used stays as the reads since the claim left it.
fn failed_write(keeper: &mut Keeper, frame: usize) {
    let entry = &mut keeper.memory.frames[frame];
    entry.transfer = NO_TRANSFER;
    entry.modified = 1;
    entry.initial = 0;
    queue::push_end(&mut keeper.memory.removal_list, frame);
}
