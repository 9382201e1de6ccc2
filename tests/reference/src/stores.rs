//! The stores that create and import make to the disk part, in their order. A cut falls before or after a store, never inside one.

use crate::tables::Disk;

/// One store.
#[derive(Clone, Debug, PartialEq, Eq)]
pub enum Store {
    /// The new highest number, first of all.
    Highest { number: u32 },
    /// Import: a page's words go into the record that it takes.
    Record { record: usize, words: Vec<u32> },
    /// Create: number and account, the last.
    Named { slot: usize, number: u32, account: u16 },
    /// Import: number, account and whole map, the last.
    Slot { slot: usize, number: u32, account: u16, map: Vec<u16> },
}

impl Store {
    pub fn make(&self, disk: &mut Disk) {
        match self {
            Store::Highest { number } => disk.highest[0] = *number,
            Store::Record { record, words } => {
                let start = record * words.len();
                disk.records[start..start + words.len()].copy_from_slice(words);
            }
            Store::Named { slot, number, account } => {
                disk.numbers[*slot] = *number;
                disk.accounts[*slot] = *account;
            }
            Store::Slot { slot, number, account, map } => {
                let start = slot * map.len();
                disk.numbers[*slot] = *number;
                disk.accounts[*slot] = *account;
                disk.maps[start..start + map.len()].copy_from_slice(map);
            }
        }
    }
}

/// The stores of a create: a cut between them only skips a number.
pub fn create(slot: usize, account: usize, number: u32) -> [Store; 2] {
    [Store::Highest { number }, Store::Named { slot, number, account: account as u16 }]
}
