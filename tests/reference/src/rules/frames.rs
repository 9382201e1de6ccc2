//! The memory rules about frames and the two queues.

use super::{distinct, View};
use crate::queue;
use crate::tables::{Frame, LIVE, NO_TRANSFER, READING, WRITING};

pub fn queues_packed(view: &View) -> bool {
    let packed = |entries: &[u16]| {
        entries[queue::length(entries)..].iter().all(|&entry| entry == 0)
            && distinct(entries, view.sizes.frames)
    };
    packed(&view.memory.free_queue) && packed(&view.memory.removal_list)
}

/// Which frames stand in a queue.
fn queued(view: &View, entries: &[u16]) -> Vec<bool> {
    let mut found = vec![false; view.sizes.frames];
    for &entry in entries.iter().filter(|&&entry| entry != 0) {
        found[entry as usize - 1] = true;
    }
    found
}

/// Free queue, removal list, wired, in transfer.
pub fn one_place(view: &View) -> bool {
    let free = queued(view, &view.memory.free_queue);
    let list = queued(view, &view.memory.removal_list);
    view.memory.frames.iter().enumerate().all(|(number, frame)| {
        let places = [free[number], list[number], frame.wired == 1, frame.transfer != NO_TRANSFER];
        places.iter().filter(|&&place| place).count() == 1
    })
}

pub fn free_frames_bare(view: &View) -> bool {
    let free = queued(view, &view.memory.free_queue);
    view.memory.frames.iter().enumerate().all(|(number, frame)| {
        let switches = frame.used + frame.modified + frame.wired + frame.initial;
        if free[number] {
            frame.page == 0 && switches == 0
        } else {
            frame.page != 0
        }
    })
}

pub fn no_page_twice(view: &View) -> bool {
    let pages: Vec<u16> = view.memory.frames.iter().map(|frame| frame.page).collect();
    distinct(&pages, view.sizes.all_pages())
}

/// The record of a frame's page, if the frame has a page and the page an address.
fn record_of(view: &View, frame: &Frame) -> Option<usize> {
    let page = (frame.page as usize).checked_sub(1)?;
    (view.memory.addresses[page] as usize).checked_sub(1)
}

pub fn pages_addressed(view: &View) -> bool {
    view.memory.frames.iter().filter(|frame| frame.page != 0).all(|frame| match record_of(view, frame) {
        Some(record) => frame.transfer != READING || view.memory.states[record] == LIVE,
        None => false,
    })
}

pub fn written_modified(view: &View) -> bool {
    view.memory.frames.iter().all(|frame| frame.transfer != WRITING || frame.modified == 1)
}

pub fn clean_frames(view: &View) -> bool {
    let size = view.sizes.words;
    let words = view.memory.frame_words.chunks(size);
    view.memory.frames.iter().zip(words).all(|(frame, words)| {
        let in_service = frame.page != 0 && frame.transfer == NO_TRANSFER;
        if !in_service || frame.modified == 1 {
            return true;
        }
        match record_of(view, frame) {
            Some(record) if view.memory.states[record] == LIVE => {
                *words == view.disk.records[record * size..(record + 1) * size]
            }
            _ => words.iter().all(|&word| word == 0),
        }
    })
}
