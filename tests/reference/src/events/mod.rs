//! What each event does, once every question has said yes. Each function gives the event's result.

pub mod chip;
mod claim;
mod designs;
mod limits;
pub mod line;
pub mod pages;
mod transfers;

use crate::event::Event;
use crate::keeper::Keeper;
use crate::queue;
use crate::tables::{Frame, FREE};

/// The event's own work, then the copies go whose records it left not live.
pub fn carry_out(keeper: &mut Keeper, event: Event) -> u32 {
    let result = own_work(keeper, event);
    chip::drop_stale(keeper);
    result
}

fn own_work(keeper: &mut Keeper, event: Event) -> u32 {
    match event {
        Event::Create { slot, account, number } => designs::create(keeper, slot, account, number),
        Event::Delete { slot } => designs::delete(keeper, slot),
        Event::Activate { slot } => designs::activate(keeper, slot),
        Event::Deactivate { slot } => designs::deactivate(keeper, slot),
        Event::Limit { account, pages } => limits::limit(keeper, account, pages),
        Event::Move { giver, taker, pages } => limits::shift(keeper, giver, taker, pages),
        Event::Fault { slot, page } => pages::fault(keeper, slot, page),
        Event::Read { slot, page, word } => pages::read(keeper, slot, page, word),
        Event::Write { slot, page, word, value } => pages::write(keeper, slot, page, word, value),
        Event::Wire { slot, page } => pages::wire(keeper, slot, page),
        Event::Unwire { slot, page } => pages::unwire(keeper, slot, page),
        Event::Truncate { slot, count } => pages::truncate(keeper, slot, count),
        Event::Claim => claim::claim(keeper),
        Event::Update { slot } => transfers::update(keeper, slot),
        Event::PageDone { frame, good } => transfers::page_done(keeper, frame, good == 1),
        Event::MapDone { slot, good } => transfers::map_done(keeper, slot, good == 1),
        Event::Join { slot, page } => line::join(keeper, slot, page),
        Event::Turn => line::turn(keeper),
        Event::Look { .. } | Event::Export { .. } | Event::Import { .. } => 0,
    }
}

/// The page in a frame comes into service with these words: initial on, the other switches off, at the front of the removal list.
fn in_service(keeper: &mut Keeper, frame: usize, words: &[u32]) {
    let to = keeper.words_of_frame(frame);
    keeper.memory.frame_words[to].copy_from_slice(words);
    let page = keeper.memory.frames[frame].page;
    keeper.memory.frames[frame] = Frame { page, initial: 1, ..Frame::default() };
    queue::push_front(&mut keeper.memory.removal_list, frame);
}

/// A frame loses its page and switches and joins the free queue's end; its words stay.
fn free_frame(keeper: &mut Keeper, frame: usize) {
    keeper.memory.frames[frame] = Frame::default();
    queue::push_end(&mut keeper.memory.free_queue, frame);
}

/// Moves a record to a state other than free; its slot stays.
fn set_state(keeper: &mut Keeper, record: usize, state: u8) {
    keeper.memory.states[record] = state;
}

/// A record becomes free, with no slot.
fn free_record(keeper: &mut Keeper, record: usize) {
    let memory = &mut keeper.memory;
    memory.states[record] = FREE;
    memory.owners[record] = 0;
    memory.free_map[record / 32] |= 1 << (record % 32);
    memory.pool.free += 1;
}

/// The records of a slot that are in a state, in ascending order.
fn records_in(keeper: &Keeper, slot: usize, state: u8) -> Vec<usize> {
    let memory = &keeper.memory;
    let own = |&record: &usize| memory.owners[record] as usize == slot && memory.states[record] == state;
    (0..keeper.sizes.records).filter(own).collect()
}
