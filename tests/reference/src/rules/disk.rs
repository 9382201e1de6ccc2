//! The disk rules.

use super::distinct;
use crate::tables::{Disk, Sizes};

type DiskRule = (&'static str, fn(&Sizes, &Disk) -> bool);

pub const DISK: [DiskRule; 6] = [
    ("an empty slot has account 0 and a zero map", empty_slots_bare),
    ("an entry is at most R", entries_in_range),
    ("no record stands in two entries", no_record_twice),
    ("no number stands in two slots", no_number_twice),
    ("an account is below Q", accounts_in_range),
    ("a parent is a lower account", parents_lower),
];

pub fn kept(sizes: &Sizes, disk: &Disk) -> bool {
    DISK.iter().all(|(_, rule)| rule(sizes, disk))
}

pub fn broken(sizes: &Sizes, disk: &Disk) -> Vec<&'static str> {
    DISK.iter().filter(|(_, rule)| !rule(sizes, disk)).map(|&(name, _)| name).collect()
}

fn empty_slots_bare(sizes: &Sizes, disk: &Disk) -> bool {
    disk.maps.chunks(sizes.pages).enumerate().all(|(slot, map)| {
        disk.numbers[slot] != 0 || disk.accounts[slot] == 0 && map.iter().all(|&entry| entry == 0)
    })
}

fn entries_in_range(sizes: &Sizes, disk: &Disk) -> bool {
    disk.maps.iter().all(|&entry| entry as usize <= sizes.records)
}

fn no_record_twice(sizes: &Sizes, disk: &Disk) -> bool {
    distinct(&disk.maps, sizes.records)
}

/// Of filled slots only.
fn no_number_twice(_: &Sizes, disk: &Disk) -> bool {
    let twice = |slot: usize| disk.numbers[..slot].contains(&disk.numbers[slot]);
    (0..disk.numbers.len()).all(|slot| disk.numbers[slot] == 0 || !twice(slot))
}

fn accounts_in_range(sizes: &Sizes, disk: &Disk) -> bool {
    disk.accounts.iter().all(|&account| (account as usize) < sizes.accounts)
}

fn parents_lower(_: &Sizes, disk: &Disk) -> bool {
    lower(&disk.parents)
}

/// Each account but 0 has a parent with a lower number; account 0's is not looked at.
pub fn lower(parents: &[u16]) -> bool {
    (1..parents.len()).all(|account| (parents[account] as usize) < account)
}
