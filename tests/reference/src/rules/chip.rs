//! The memory rules about the chip.

use super::{distinct, View};
use crate::tables::LIVE;

pub fn next_exists(view: &View) -> bool {
    (view.memory.chip_next[0] as usize) < view.sizes.chip
}

pub fn no_record_twice(view: &View) -> bool {
    distinct(&view.memory.chip_records, view.sizes.records)
}

/// The places with what stands in them: record + 1, or 0, and the words.
fn places<'a>(view: &'a View) -> impl Iterator<Item = (u16, &'a [u32])> {
    view.memory.chip_records.iter().copied().zip(view.memory.chip_words.chunks(view.sizes.words))
}

pub fn empty_bare(view: &View) -> bool {
    places(view).all(|(entry, words)| entry != 0 || words.iter().all(|&word| word == 0))
}

/// A record that does not exist is not live.
pub fn copies_live(view: &View) -> bool {
    let size = view.sizes.words;
    places(view).filter(|&(entry, _)| entry != 0).all(|(entry, words)| {
        let record = entry as usize - 1;
        view.memory.states.get(record) == Some(&LIVE)
            && *words == view.disk.records[record * size..(record + 1) * size]
    })
}
