//! Question 1: the sizes are within their limits and every slice has its exact length.

use crate::tables::{Disk, Memory, Sizes, LINE};

pub fn disk_fits(sizes: &Sizes, disk: &Disk) -> bool {
    sizes.within()
        && disk.records.len() == sizes.records * sizes.words
        && disk.numbers.len() == sizes.slots
        && disk.accounts.len() == sizes.slots
        && disk.maps.len() == sizes.all_pages()
        && disk.limits.len() == sizes.accounts
        && disk.parents.len() == sizes.accounts
        && disk.highest.len() == 1
}

pub fn memory_fits(sizes: &Sizes, memory: &Memory) -> bool {
    sizes.within()
        && memory.frames.len() == sizes.frames
        && memory.frame_words.len() == sizes.frames * sizes.words
        && memory.free_queue.len() == sizes.frames
        && memory.removal_list.len() == sizes.frames
        && memory.addresses.len() == sizes.all_pages()
        && memory.states.len() == sizes.records
        && memory.owners.len() == sizes.records
        && memory.free_map.len() == sizes.map_words()
        && memory.active.len() == sizes.slots
        && memory.updating.len() == sizes.slots
        && memory.images.len() == sizes.all_pages()
        && memory.chip_words.len() == sizes.chip * sizes.words
        && memory.chip_records.len() == sizes.chip
        && memory.chip_next.len() == 1
        && memory.line.len() == LINE
        && memory.used.len() == sizes.accounts
}
