//! A design carried to another board: export writes its sheet, import takes one in.

use crate::accounts;
use crate::event::{Answer, Event};
use crate::events::pages::take_record;
use crate::keeper::Keeper;
use crate::questions;
use crate::sheet::Sheet;
use crate::stores::Store;
use crate::tables::FILED;

impl Keeper {
    /// What a slot's design says on the disk: its listed pages that are not all zeros.
    pub fn sheet_of(&self, slot: usize) -> Sheet {
        let first = self.flat(slot, 0);
        let woven = self.pages_of(slot).filter_map(|page| {
            let record = (self.disk.maps[page] as usize).checked_sub(1)?;
            let words = self.disk.records[self.words_of_record(record)].to_vec();
            words.iter().any(|&word| word != 0).then_some((page - first, words))
        });
        Sheet {
            words: self.sizes.words,
            pages: self.sizes.pages,
            number: self.disk.numbers[slot],
            woven: woven.collect(),
        }
    }

    /// The sheet at the buffer's front; the result is its length. Bytes after it, and on a refusal all, are untouched.
    pub fn export(&self, slot: usize, buffer: &mut [u8]) -> Answer {
        let refusal = match self.common() {
            0 => questions::refusal(self, Event::Export { slot }),
            number => number,
        };
        if refusal != 0 {
            return Answer::refused(refusal);
        }
        let sheet = self.sheet_of(slot).print();
        if buffer.len() < sheet.len() {
            return Answer::refused(31);
        }
        buffer[..sheet.len()].copy_from_slice(&sheet);
        Answer::done(sheet.len() as u32)
    }

    /// A sheet becomes the design of an empty slot, under the caller's account and number; the result is the sheet's own number.
    pub fn import(&mut self, slot: usize, account: usize, number: u32, bytes: &[u8]) -> Answer {
        let refusal = match self.common() {
            0 => questions::refusal(self, Event::Import { slot, account, number }),
            number => number,
        };
        if refusal != 0 {
            return Answer::refused(refusal);
        }
        let Some(sheet) = Sheet::parse(bytes) else {
            return Answer::refused(29);
        };
        match self.cannot_take(account, &sheet) {
            0 => {
                let stores = self.take_in(slot, account, number, &sheet);
                stores.iter().for_each(|store| store.make(&mut self.disk));
                Answer::done(sheet.number)
            }
            number => Answer::refused(number),
        }
    }

    /// Questions 30, 18 and 19: the last two only of a sheet that has pages, for all of them together.
    fn cannot_take(&self, account: usize, sheet: &Sheet) -> u32 {
        let (payer, pages) = (self.payer_of(account), sheet.woven.len());
        if (sheet.words, sheet.pages) != (self.sizes.words, self.sizes.pages) {
            30
        } else if pages > 0 && self.memory.used[payer] as usize + pages > self.disk.limits[payer] as usize {
            18
        } else if pages > 0 && pages > self.memory.pool.free as usize {
            19
        } else {
            0
        }
    }

    /// Takes the records of a sheet's pages, the first by the hand, each next one near the one before it; gives the stores in their
    /// order: the highest number, the records, the slot. Memory is as the import leaves it, the disk as it was.
    pub fn take_in(&mut self, slot: usize, account: usize, number: u32, sheet: &Sheet) -> Vec<Store> {
        let (mut stores, mut map, mut last) = (vec![Store::Highest { number }], vec![0; self.sizes.pages], None);
        for (page, words) in &sheet.woven {
            let record = take_record(self, slot, last, FILED);
            stores.push(Store::Record { record, words: words.clone() });
            map[*page] = record as u16 + 1;
            last = Some(record);
        }
        stores.push(Store::Slot { slot, number, account: account as u16, map });
        let payer = self.payer_of(account);
        self.memory.used[payer] += sheet.woven.len() as u16;
        stores
    }

    fn payer_of(&self, account: usize) -> usize {
        accounts::payer(&self.disk.parents, &self.disk.limits, account)
    }
}
