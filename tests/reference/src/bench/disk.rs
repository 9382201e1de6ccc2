//! A disk in use: seven of eight records listed, by designs of like lengths.

use crate::drive::random::Random;
use crate::drive::shadow::marked;
use crate::keeper::Keeper;
use crate::tables::Sizes;

/// Slots below this one are busy: their designs are active all the time. The others come and go.
pub fn busy(sizes: &Sizes) -> usize {
    sizes.slots.div_ceil(2)
}

/// The busy slots and three of four others hold a design with pages.
fn filled(sizes: &Sizes) -> usize {
    busy(sizes) + (sizes.slots - busy(sizes)) * 3 / 4
}

/// Tables whose disk part is in use; memory is not yet restarted.
pub fn used(sizes: Sizes, random: &mut Random) -> Keeper {
    let mut keeper = Keeper::lent(sizes);
    let filled = filled(&sizes);
    keeper.disk.limits.fill(u16::MAX);
    for slot in 0..filled {
        keeper.disk.numbers[slot] = slot as u32 + 1;
        keeper.disk.accounts[slot] = (slot % sizes.accounts) as u16;
    }
    let listed = (sizes.records * 7 / 8).min(filled * sizes.pages);
    list(&mut keeper, filled, listed, random);
    keeper
}

/// So many records, any, are listed by the designs of the first slots, page by page.
pub fn list(keeper: &mut Keeper, filled: usize, listed: usize, random: &mut Random) {
    let sizes = keeper.sizes;
    for (place, record) in shuffled(sizes.records, random).into_iter().take(listed).enumerate() {
        let page = keeper.flat(place % filled, place / filled);
        keeper.disk.maps[page] = record as u16 + 1;
        let number = keeper.disk.numbers[place % filled];
        let words = keeper.words_of_record(record);
        keeper.disk.records[words].fill_with(|| marked(random.up_to(0xFFFF) as u32, number));
    }
}

/// The numbers below n in any order.
fn shuffled(n: usize, random: &mut Random) -> Vec<usize> {
    let mut numbers: Vec<usize> = (0..n).collect();
    for last in (1..n).rev() {
        numbers.swap(last, random.below(last + 1));
    }
    numbers
}
