//! The memory rules about records, addresses, images, slots and counts.

use super::{distinct, View};
use crate::accounts;
use crate::tables::{FILED, FREE, LEAVING, LIVE, NULLED, RELEASED};

pub fn one_holder(view: &View) -> bool {
    distinct(&view.memory.addresses, view.sizes.records)
}

/// Nulled or live exactly where a page holds the record, filed exactly where an inactive design lists it.
pub fn states_agree(view: &View) -> bool {
    (0..view.sizes.records).all(|record| {
        let state = view.memory.states[record];
        agrees(view, record, view.holder[record], state == NULLED || state == LIVE)
            && agrees(view, record, view.lister[record], state == FILED)
    })
}

/// A page (+ 1) stands for the record exactly if `held`, and then the slots are the same.
fn agrees(view: &View, record: usize, page: u16, held: bool) -> bool {
    match page {
        0 => !held,
        page => held && view.slot_of(page as usize - 1) == view.memory.owners[record] as usize,
    }
}

/// The stored map may list the page's own, released and leaving records; the begun image no leaving ones.
pub fn listed(view: &View) -> bool {
    (0..view.sizes.all_pages()).all(|page| {
        let slot = view.slot_of(page);
        view.memory.active[slot] == 0
            || own_or(view, page, view.disk.maps[page], &[RELEASED, LEAVING])
                && own_or(view, page, view.memory.images[page], &[RELEASED])
    })
}

/// The entry is 0, or the page's address, or its record is the slot's and in one of these states.
fn own_or(view: &View, page: usize, entry: u16, states: &[u8]) -> bool {
    if entry == 0 || view.memory.addresses[page] == entry {
        return true;
    }
    let record = entry as usize - 1;
    view.memory.owners[record] as usize == view.slot_of(page) && states.contains(&view.memory.states[record])
}

/// The marks are of one image at a time: a mark is the slot that set it, + 1.
pub fn images_distinct(view: &View) -> bool {
    let mut marks = vec![0; view.sizes.records + 1];
    view.memory.images.iter().enumerate().all(|(page, &entry)| {
        let mark = view.slot_of(page) + 1;
        entry == 0 || std::mem::replace(&mut marks[entry as usize], mark) != mark
    })
}

pub fn updates(view: &View) -> bool {
    let under_way = |slot: usize| view.memory.updating[slot] == 1;
    let images = view.memory.images.chunks(view.sizes.pages).enumerate();
    let states = view.memory.states.iter().zip(&view.memory.owners);
    images.into_iter().all(|(slot, image)| under_way(slot) || image.iter().all(|&entry| entry == 0))
        && states.into_iter().all(|(&state, &owner)| state != LEAVING || under_way(owner as usize))
}

pub fn active_filled(view: &View) -> bool {
    (0..view.sizes.slots).all(|slot| view.memory.active[slot] == 0 || view.disk.numbers[slot] != 0)
}

pub fn inactive_bare(view: &View) -> bool {
    (0..view.sizes.slots).all(|slot| {
        let pages = slot * view.sizes.pages..(slot + 1) * view.sizes.pages;
        view.memory.active[slot] == 1
            || view.memory.updating[slot] == 0
                && view.memory.addresses[pages.clone()].iter().all(|&entry| entry == 0)
                && view.frame[pages].iter().all(|&frame| frame == 0)
    })
}

pub fn hand(view: &View) -> bool {
    (view.memory.pool.hand as usize) < view.sizes.records
}

/// Bits from R up are 0.
pub fn free_agrees(view: &View) -> bool {
    let bit = |record: usize| view.memory.free_map[record / 32] >> (record % 32) & 1 == 1;
    let count = view.memory.states.iter().filter(|&&state| state == FREE).count();
    (0..view.sizes.records).all(|record| bit(record) == (view.memory.states[record] == FREE))
        && !(view.sizes.records..view.sizes.map_words() * 32).any(bit)
        && view.memory.pool.free as usize == count
}

/// By the account that pays.
pub fn used_counts(view: &View) -> bool {
    accounts::counts(view, &view.disk.limits) == view.memory.used
}
