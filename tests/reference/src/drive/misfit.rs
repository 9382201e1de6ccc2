//! Tables of wrong lengths, and sizes that are not those of the tables.

use super::random::Random;
use crate::keeper::Keeper;
use crate::tables::Sizes;

/// One table too long or too short, or one size another one, or sizes at the edge of their limits.
pub fn misfit(keeper: &mut Keeper, seed: u64) {
    let mut random = Random::new(seed);
    match random.below(4) {
        0 => resize(keeper, &mut random),
        1 => relend(keeper, &mut random),
        _ => bend_table(keeper, &mut random),
    }
}

fn bend_table(keeper: &mut Keeper, random: &mut Random) {
    fn bend<T: Default + Clone>(table: &mut Vec<T>, longer: bool) {
        table.resize(if longer { table.len() + 1 } else { table.len() - 1 }, T::default());
    }
    let longer = random.percent(50);
    let (disk, memory) = (&mut keeper.disk, &mut keeper.memory);
    match random.below(23) {
        0 => bend(&mut disk.records, longer),
        1 => bend(&mut disk.numbers, longer),
        2 => bend(&mut disk.accounts, longer),
        3 => bend(&mut disk.maps, longer),
        4 => bend(&mut disk.limits, longer),
        5 => bend(&mut memory.frames, longer),
        6 => bend(&mut memory.frame_words, longer),
        7 => bend(&mut memory.free_queue, longer),
        8 => bend(&mut memory.removal_list, longer),
        9 => bend(&mut memory.addresses, longer),
        10 => bend(&mut memory.states, longer),
        11 => bend(&mut memory.owners, longer),
        12 => bend(&mut memory.free_map, longer),
        13 => bend(&mut memory.active, longer),
        14 => bend(&mut memory.updating, longer),
        15 => bend(&mut memory.images, longer),
        16 => bend(&mut memory.line, longer),
        17 => bend(&mut disk.parents, longer),
        18 => bend(&mut disk.highest, longer),
        19 => bend(&mut memory.chip_words, longer),
        20 => bend(&mut memory.chip_records, longer),
        21 => bend(&mut memory.chip_next, longer),
        _ => bend(&mut memory.used, longer),
    }
}

/// One of the seven sizes.
fn size_of(sizes: &mut Sizes, which: usize) -> &mut usize {
    match which {
        0 => &mut sizes.words,
        1 => &mut sizes.records,
        2 => &mut sizes.frames,
        3 => &mut sizes.slots,
        4 => &mut sizes.pages,
        5 => &mut sizes.accounts,
        _ => &mut sizes.chip,
    }
}

/// The tables stay, a size is another one.
fn resize(keeper: &mut Keeper, random: &mut Random) {
    let size = size_of(&mut keeper.sizes, random.below(7));
    *size = random.pick(&[0, *size + 1, *size - 1, 4097, 65_536, usize::MAX]);
}

/// Other tables, all of the lengths that their sizes say: one size is 0, its limit, or one more than that.
fn relend(keeper: &mut Keeper, random: &mut Random) {
    let [words, records, frames, slots, pages, accounts, chip] = [(); 7].map(|_| random.up_to(3));
    let mut sizes = Sizes { words, records, frames, slots, pages, accounts, chip };
    let which = random.below(7);
    let most = *size_of(&mut Sizes::MOST.clone(), which);
    *size_of(&mut sizes, which) = random.pick(&[0, most, most + 1]);
    *keeper = Keeper::lent(sizes);
}
