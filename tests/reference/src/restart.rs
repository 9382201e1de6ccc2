//! What restart leaves: the memory from the disk part alone, and the highest number.

use crate::accounts::payer;
use crate::questions::HIGH;
use crate::tables::{Disk, Memory, Pool, Sizes, FILED, FREE};

/// The highest of itself and of the numbers below 2,147,483,648 that stand in slots: an older pack has a lower one.
pub fn highest(disk: &Disk) -> u32 {
    let low = disk.numbers.iter().copied().filter(|&number| number < HIGH);
    low.fold(disk.highest[0], u32::max)
}

pub fn memory(sizes: &Sizes, disk: &Disk) -> Memory {
    let mut memory = Memory::zeros(sizes);
    for frame in 0..sizes.frames {
        memory.free_queue[frame] = frame as u16 + 1;
    }
    for (page, &entry) in disk.maps.iter().enumerate() {
        if entry != 0 {
            let slot = page / sizes.pages;
            memory.states[entry as usize - 1] = FILED;
            memory.owners[entry as usize - 1] = slot as u8;
            memory.used[payer(&disk.parents, &disk.limits, disk.accounts[slot] as usize)] += 1;
        }
    }
    let mut pool = Pool::default();
    for record in 0..sizes.records {
        if memory.states[record] == FREE {
            memory.free_map[record / 32] |= 1 << (record % 32);
            pool.free += 1;
        }
    }
    memory.pool = pool;
    memory
}
