//! The edges of import by hand, over every keeper: the questions in their order, what is charged, the records taken, what it leaves.

mod common;

use common::all::{export, import};
use common::{ask, does};
use reference::event::Answer;
use reference::keeper::Keeper;
use reference::questions::HIGH;
use reference::sheet::Sheet;
use reference::tables::{Sizes, FILED, FREE};

const BOARD: Sizes = Sizes { words: 2, records: 8, frames: 2, slots: 3, pages: 4, accounts: 3, chip: 2 };

/// A board with limits 6, 0 and 2; account 2's parent is 1, and 1's is 0.
fn start() -> Keeper {
    let mut keeper = Keeper::lent(BOARD);
    assert_eq!(keeper.format(&[0, 0, 1]), Answer::done(0));
    keeper.disk.limits.copy_from_slice(&[6, 0, 2]);
    assert_eq!(keeper.restart(), Answer::done(0));
    keeper
}

/// Number 7, with a word 1 on each of these pages.
fn sheet(pages: &[usize]) -> Vec<u8> {
    let woven = pages.iter().map(|&page| (page, vec![page as u32 + 1, 0])).collect();
    Sheet { words: 2, pages: 4, number: 7, woven }.print()
}

/// Slot 2 holds these records, all others are free; the hand stands here.
fn with_taken(records: &[u16], hand: u32) -> Keeper {
    let mut keeper = start();
    if !records.is_empty() {
        keeper.disk.numbers[2] = 3;
    }
    keeper.disk.maps[8..8 + records.len()].copy_from_slice(&records.iter().map(|record| record + 1).collect::<Vec<u16>>());
    assert_eq!(keeper.restart(), Answer::done(0));
    keeper.memory.pool.hand = hand;
    keeper
}

fn refuses(before: &Keeper, place: [usize; 2], number: u32, bytes: &[u8], refusal: u32) {
    import(before, place, number, bytes, Answer::refused(refusal));
}

/// The result is the sheet's own number; the caller's stands in the slot.
#[test]
fn whole() {
    let before = start();
    let after = import(&before, [1, 2], 9, &sheet(&[0, 3]), Answer::done(7));
    let mut wanted = before.clone();
    wanted.disk.numbers[1] = 9;
    wanted.disk.highest[0] = 9;
    wanted.disk.accounts[1] = 2;
    wanted.disk.maps[4..8].copy_from_slice(&[1, 0, 0, 2]);
    wanted.disk.records[..4].copy_from_slice(&[1, 0, 4, 0]);
    wanted.memory.states[..2].fill(FILED);
    wanted.memory.owners[..2].fill(1);
    wanted.memory.free_map[0] = 0b1111_1100;
    wanted.memory.used[2] = 2;
    wanted.memory.pool.hand = 2;
    wanted.memory.pool.free = 6;
    assert!(after == wanted);
    // a restart, which puts the hand at 0, finds the same
    let mut again = after.clone();
    assert_eq!(again.restart(), Answer::done(0));
    wanted.memory.pool.hand = 0;
    assert!(again == wanted);
}

/// Each question before the next: one after the other is put right.
#[test]
fn questions_in_order() {
    let mut keeper = start();
    does(&mut keeper, 0x01, &[0, 0, 40]);
    does(&mut keeper, 0x0F, &[0, 0]);
    let other = Sheet { words: 3, pages: 4, number: 7, woven: vec![(0, vec![1, 0, 0])] }.print();
    let mut hurt = keeper.clone();
    hurt.memory.used[0] += 1;
    let mut misfit = hurt.clone();
    misfit.memory.used.push(0);
    refuses(&misfit, [3, 0], 40, &[], 1);
    refuses(&hurt, [3, 0], 40, &[], 2);
    for (place, number) in [([3, 0], 40), ([usize::MAX, 0], 40), ([0, 3], 40), ([0, usize::MAX], 40), ([0, 0], 0)] {
        refuses(&keeper, place, number, &[], 3);
    }
    refuses(&keeper, [0, 0], HIGH, &[], 32);
    refuses(&keeper, [0, 0], 40, &[], 5);
    refuses(&keeper, [1, 0], 40, &[], 6);
    refuses(&keeper, [1, 0], 39, &[], 33);
    refuses(&keeper, [1, 0], 41, &[], 29);
    refuses(&keeper, [1, 0], 41, &other, 30);
    refuses(&keeper, [1, 0], 41, &sheet(&[0, 1]), 18);
    let mut full = with_taken(&[0, 1, 2, 3], 0);
    full.disk.maps[0..3].copy_from_slice(&[5, 6, 7]);
    full.disk.numbers[0] = 40;
    full.disk.limits[0] = 8;
    assert_eq!(full.restart(), Answer::done(0));
    refuses(&full, [1, 0], 41, &sheet(&[0, 1]), 18);
    full.disk.limits[0] = 9;
    refuses(&full, [1, 0], 41, &sheet(&[0, 1]), 19);
    import(&full, [1, 0], 41, &sheet(&[0]), Answer::done(7));
}

/// For all pages together, of the account that pays.
#[test]
fn charged_together() {
    let mut keeper = start();
    refuses(&keeper, [0, 2], 9, &sheet(&[0, 1, 2]), 18);
    assert_eq!(import(&keeper, [0, 2], 9, &sheet(&[1, 2]), Answer::done(7)).memory.used, [0, 0, 2]);
    // account 1 has limit 0: account 0 pays
    assert_eq!(import(&keeper, [0, 1], 9, &sheet(&[0, 1, 2]), Answer::done(7)).memory.used, [3, 0, 0]);
    does(&mut keeper, 0x0F, &[0, 2]);
    refuses(&keeper, [0, 1], 9, &sheet(&[0, 1, 2]), 18);
    // account 2 too, once its limit is 0
    does(&mut keeper, 0x0F, &[2, 0]);
    assert_eq!(import(&keeper, [0, 2], 9, &sheet(&[0, 3]), Answer::done(7)).memory.used, [2, 0, 0]);
    // one charged page less is left for the next
    let keeper = import(&keeper, [0, 2], 9, &sheet(&[3]), Answer::done(7));
    refuses(&keeper, [1, 0], 10, &sheet(&[0, 3]), 18);
    import(&keeper, [1, 0], 10, &sheet(&[3]), Answer::done(7));
}

/// A sheet without pages asks neither 18 nor 19, takes no record and moves no hand.
#[test]
fn without_pages() {
    let mut keeper = with_taken(&[0, 1, 2, 3], 3);
    keeper.disk.maps[0..4].copy_from_slice(&[5, 6, 7, 8]);
    keeper.disk.numbers[0] = 4;
    assert_eq!(keeper.restart(), Answer::done(0));
    does(&mut keeper, 0x0F, &[0, 1]);
    keeper.memory.pool.hand = 5;
    assert_eq!((keeper.memory.used[0], keeper.memory.pool.free), (8, 0));
    let after = import(&keeper, [1, 1], 9, &sheet(&[]), Answer::done(7));
    let mut wanted = keeper.clone();
    wanted.disk.numbers[1] = 9;
    wanted.disk.highest[0] = 9;
    wanted.disk.accounts[1] = 1;
    assert!(after == wanted);
}

/// The first by the hand, counting up and round; each next nearest to the one before it, of two equally near the lower; the hand ends just
/// past the last.
#[test]
fn records_taken() {
    let taken: [(&[u16], u32, &[usize], &[u16], u32); 7] = [
        (&[], 0, &[0, 1, 2, 3], &[0, 1, 2, 3], 4),
        (&[], 5, &[0, 1, 2, 3], &[5, 4, 3, 2], 3),
        (&[], 7, &[1, 3], &[7, 6], 7),
        (&[7], 7, &[0, 1], &[0, 1], 2),
        (&[3, 4], 3, &[0, 2, 3], &[5, 6, 7], 0),
        (&[4], 3, &[0, 1, 3], &[3, 2, 1], 2),
        (&[2, 3, 5, 6], 4, &[0, 1, 2, 3], &[4, 1, 0, 7], 0),
    ];
    for (held, hand, pages, wanted, end) in taken {
        let mut keeper = with_taken(held, hand);
        keeper.disk.limits[0] = 60;
        let after = import(&keeper, [0, 0], 9, &sheet(pages), Answer::done(7));
        let entries: Vec<u16> = pages.iter().map(|&page| after.disk.maps[page] - 1).collect();
        assert_eq!((&entries[..], after.memory.pool.hand), (wanted, end), "held {held:?}, hand {hand}");
        for (&page, &record) in pages.iter().zip(wanted) {
            assert_eq!((after.memory.states[record as usize], after.memory.owners[record as usize]), (FILED, 0));
            assert_eq!(after.disk.records[2 * record as usize..][..2], [page as u32 + 1, 0]);
        }
        let free = after.memory.states.iter().filter(|&&state| state == FREE).count();
        assert_eq!((free, after.memory.pool.free as usize), (8 - held.len() - pages.len(), free));
    }
}

/// A sheet's own number may stand in a slot already; the caller's may not, and may be the sheet's own.
#[test]
fn numbers() {
    let mut keeper = start();
    does(&mut keeper, 0x01, &[0, 0, 7]);
    import(&keeper, [1, 0], 9, &sheet(&[0]), Answer::done(7));
    refuses(&keeper, [1, 0], 7, &sheet(&[0]), 6);
    import(&start(), [1, 0], 7, &sheet(&[0]), Answer::done(7));
    let most = Sheet { words: 2, pages: 4, number: u32::MAX, woven: Vec::new() }.print();
    import(&keeper, [1, 0], HIGH - 1, &most, Answer::done(u32::MAX));
    refuses(&keeper, [1, 0], u32::MAX, &most, 32);
}

/// An imported design is one at rest: it is activated, read, and its sheet is the one that came, under its new number.
#[test]
fn at_rest() {
    let mut keeper = import(&start(), [1, 0], 9, &sheet(&[0, 3]), Answer::done(7));
    let mut own = sheet(&[0, 3]);
    own[13] = 9;
    export(&keeper, 1, 100, Answer::done(own.len() as u32), &own);
    assert_eq!(ask(&mut keeper, 0x02, &[1]), Answer::refused(7));
    does(&mut keeper, 0x03, &[1]);
    let frame = does(&mut keeper, 0x05, &[1, 3]);
    does(&mut keeper, 0x0D, &[frame, 1]);
    assert_eq!(does(&mut keeper, 0x06, &[1, 3, 0]), 4);
    does(&mut keeper, 0x08, &[]);
    does(&mut keeper, 0x04, &[1]);
}
