//! The chip between the frames and the records: copies of live records, each in a place.

use crate::keeper::Keeper;
use crate::tables::LIVE;
use std::ops::Range;

/// The place that has a record's copy.
pub fn place_of(keeper: &Keeper, record: usize) -> Option<usize> {
    keeper.memory.chip_records.iter().position(|&entry| entry as usize == record + 1)
}

pub fn words_of(keeper: &Keeper, place: usize) -> Range<usize> {
    place * keeper.sizes.words..(place + 1) * keeper.sizes.words
}

/// A record's words go in: they replace its own copy, otherwise they go into the next place, which moves on, round.
pub fn put(keeper: &mut Keeper, record: usize) {
    let place = place_of(keeper, record).unwrap_or_else(|| {
        let next = keeper.memory.chip_next[0] as usize;
        keeper.memory.chip_next[0] = ((next + 1) % keeper.sizes.chip) as u16;
        next
    });
    let (from, to) = (keeper.words_of_record(record), words_of(keeper, place));
    keeper.memory.chip_words[to].copy_from_slice(&keeper.disk.records[from]);
    keeper.memory.chip_records[place] = record as u16 + 1;
}

/// Copies of records that are not live any more are dropped; the empty places hold zeros.
pub fn drop_stale(keeper: &mut Keeper) {
    for place in 0..keeper.sizes.chip {
        let record = (keeper.memory.chip_records[place] as usize).checked_sub(1);
        if record.is_some_and(|record| keeper.memory.states[record] != LIVE) {
            let words = words_of(keeper, place);
            keeper.memory.chip_words[words].fill(0);
            keeper.memory.chip_records[place] = 0;
        }
    }
}
