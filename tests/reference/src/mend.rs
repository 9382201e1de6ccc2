//! Mending the disk part of a pack that restart turns away: a work list of changes, made step by step from the paper's sentences.

use crate::event::Answer;
use crate::fit;
use crate::tables::{Disk, Sizes};
use std::collections::{BTreeMap, BTreeSet};

/// One change: which slot, which page (N for a number or an account), what stood there, and the step that changed it.
#[repr(C)]
#[derive(Clone, Copy, Debug, Default, PartialEq, Eq)]
pub struct Change {
    pub slot: u32,
    pub page: u32,
    pub old: u32,
    pub reason: u32,
}

/// The places that a list must have.
pub fn places(sizes: &Sizes) -> usize {
    sizes.slots * (sizes.pages + 2)
}

/// Mends the disk part, and stores the changes at the front of the list; the result is their count.
pub fn mend(sizes: &Sizes, disk: &mut Disk, list: &mut [Change]) -> Answer {
    if !fit::disk_fits(sizes, disk) {
        return Answer::refused(1);
    }
    if list.len() < places(sizes) {
        return Answer::refused(24);
    }
    let mut work = Work { sizes, disk, changes: Vec::new() };
    work.equal_numbers();
    work.empty_slots();
    work.accounts();
    work.entries();
    work.shared_records();
    let changes = work.changes;
    list[..changes.len()].copy_from_slice(&changes);
    Answer::done(changes.len() as u32)
}

struct Work<'a> {
    sizes: &'a Sizes,
    disk: &'a mut Disk,
    changes: Vec<Change>,
}

impl Work<'_> {
    fn list(&mut self, slot: usize, page: usize, old: u32, reason: u32) {
        if old != 0 {
            self.changes.push(Change { slot: slot as u32, page: page as u32, old, reason });
        }
    }

    fn clear_number(&mut self, slot: usize, reason: u32) {
        let old = std::mem::take(&mut self.disk.numbers[slot]);
        self.list(slot, self.sizes.pages, old, reason);
    }

    fn clear_account(&mut self, slot: usize, reason: u32) {
        let old = std::mem::take(&mut self.disk.accounts[slot]);
        self.list(slot, self.sizes.pages, old as u32, reason);
    }

    fn clear_entry(&mut self, slot: usize, page: usize, reason: u32) {
        let old = std::mem::take(&mut self.disk.maps[slot * self.sizes.pages + page]);
        self.list(slot, page, old as u32, reason);
    }

    fn clear_map(&mut self, slot: usize, reason: u32) {
        for page in 0..self.sizes.pages {
            self.clear_entry(slot, page, reason);
        }
    }

    /// Of filled slots with the same number, all but the lowest are emptied, number, account and map.
    fn equal_numbers(&mut self) {
        let mut seen = BTreeSet::new();
        for slot in 0..self.sizes.slots {
            let number = self.disk.numbers[slot];
            if number != 0 && !seen.insert(number) {
                self.clear_number(slot, 1);
                self.clear_account(slot, 1);
                self.clear_map(slot, 1);
            }
        }
    }

    /// Empty slots get account 0 and a zero map.
    fn empty_slots(&mut self) {
        for slot in 0..self.sizes.slots {
            if self.disk.numbers[slot] == 0 {
                self.clear_account(slot, 2);
                self.clear_map(slot, 2);
            }
        }
    }

    /// An account of Q or more becomes 0.
    fn accounts(&mut self) {
        for slot in 0..self.sizes.slots {
            if self.disk.accounts[slot] as usize >= self.sizes.accounts {
                self.clear_account(slot, 3);
            }
        }
    }

    /// An entry above R becomes 0.
    fn entries(&mut self) {
        self.clear_entries(4, |entry, sizes| entry as usize > sizes.records);
    }

    /// A record still named twice loses all its entries.
    fn shared_records(&mut self) {
        let mut names: BTreeMap<u16, usize> = BTreeMap::new();
        for &entry in &self.disk.maps {
            *names.entry(entry).or_default() += 1;
        }
        self.clear_entries(5, |entry, _| entry != 0 && names[&entry] > 1);
    }

    fn clear_entries(&mut self, reason: u32, wanted: impl Fn(u16, &Sizes) -> bool) {
        for slot in 0..self.sizes.slots {
            for page in 0..self.sizes.pages {
                if wanted(self.disk.maps[slot * self.sizes.pages + page], self.sizes) {
                    self.clear_entry(slot, page, reason);
                }
            }
        }
    }
}
