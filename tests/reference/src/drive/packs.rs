//! Random packs for mending: sound, hurt in one place, or hurt everywhere, of all sizes.

use super::random::Random;
use super::trees::tree;
use crate::questions::HIGH;
use crate::tables::{Disk, Sizes};

/// Small sizes mostly, now and then the largest.
fn sizes(random: &mut Random) -> Sizes {
    let most = Sizes::MOST;
    let mut size = |most: usize, small: usize| {
        let most = if random.percent(2) { most } else { small };
        random.up_to(most)
    };
    Sizes {
        words: size(4, 2),
        records: size(most.records, 12),
        frames: 1,
        slots: size(most.slots, 6),
        pages: size(most.pages, 5),
        accounts: size(most.accounts, 3),
        chip: 1,
    }
}

/// A pack that keeps the disk rules: numbers, records and accounts given out once.
fn sound(random: &mut Random, sizes: &Sizes) -> Disk {
    let highest = vec![random.pick(&[0, 7, 3000, HIGH - 1, HIGH, u32::MAX])];
    let mut disk = Disk { parents: tree(sizes.accounts, random), highest, ..Disk::zeros(sizes) };
    let mut records: Vec<u16> = (1..=sizes.records as u16).collect();
    for slot in 0..sizes.slots {
        if random.percent(70) {
            disk.numbers[slot] = 1 + slot as u32 + random.below(3) as u32 * 1000;
            if random.percent(20) {
                disk.numbers[slot] |= HIGH;
            }
            disk.accounts[slot] = random.below(sizes.accounts) as u16;
            for page in 0..sizes.pages {
                if !records.is_empty() && random.percent(50) {
                    let taken = random.below(records.len());
                    disk.maps[slot * sizes.pages + page] = records.swap_remove(taken);
                }
            }
        }
    }
    disk
}

/// One place gets another value: often one that stands elsewhere, or one just past a limit.
fn hurt(random: &mut Random, sizes: &Sizes, disk: &mut Disk) {
    let slot = random.below(sizes.slots);
    match random.below(6) {
        0 => disk.numbers[slot] = random.pick(&disk.numbers),
        1 => disk.numbers[slot] = random.pick(&[0, 7, HIGH, u32::MAX]),
        2 => disk.accounts[slot] = random.pick(&[sizes.accounts as u16 - 1, sizes.accounts as u16, u16::MAX]),
        3 => disk.maps[random.below(sizes.all_pages())] = random.pick(&disk.maps),
        4 => disk.maps[random.below(sizes.all_pages())] = random.pick(&[sizes.records as u16, sizes.records as u16 + 1, u16::MAX]),
        _ => disk.maps[random.below(sizes.all_pages())] = random.up_to(sizes.records) as u16,
    }
}

/// A parent that is not lower: no mending helps.
fn hurt_parents(random: &mut Random, sizes: &Sizes, disk: &mut Disk) {
    if let Some(account) = random.find(sizes.accounts, |account| account > 0) {
        disk.parents[account] = random.pick(&[account as u16, account as u16 + 1, u16::MAX]);
    }
}

/// A pack and its sizes.
pub fn pack(seed: u64) -> (Sizes, Disk) {
    let mut random = Random::new(seed);
    let sizes = sizes(&mut random);
    let mut disk = sound(&mut random, &sizes);
    let times = match random.below(4) {
        0 => 0,
        1 => 1,
        2 => random.up_to(8),
        _ => sizes.slots + sizes.all_pages(),
    };
    for _ in 0..times {
        hurt(&mut random, &sizes, &mut disk);
    }
    if random.percent(5) {
        hurt_parents(&mut random, &sizes, &mut disk);
    }
    (sizes, disk)
}
