//! The chip between the frames and the records, by the reference, the C port and the proved keeper: its places, its rules, and that nobody
//! sees it but by transfers that are not made.

mod common;

use common::all::{apply, import};
use common::{fresh, with_design_of};
use reference::drive::act::{Before, Call};
use reference::drive::boards;
use reference::drive::choose::Chooser;
use reference::drive::random::Random;
use reference::drive::REFERENCE;
use reference::event::{Answer, Request};
use reference::keeper::Keeper;
use reference::linked;
use reference::program::SIZES;
use reference::sheet::Sheet;
use reference::tables::{Frame, Sizes, LIVE, NO_TRANSFER, NULLED, READING};

/// Five pages and three places, so that a place is taken from another record.
const BOARD: Sizes = Sizes { pages: 5, records: 6, chip: 3, ..SIZES };

/// Every keeper carries an event out.
fn does(keeper: &mut Keeper, kind: u32, values: &[u32], result: u32) {
    *keeper = apply(keeper, kind, values, Answer::done(result));
}

/// The frame that the next fault takes.
fn next_frame(keeper: &Keeper) -> u32 {
    keeper.memory.free_queue[0] as u32 - 1
}

/// A page of slot 0 is written at word 0 and stored; the copy goes in.
fn store(keeper: &mut Keeper, page: u32, value: u32) {
    let frame = next_frame(keeper);
    does(keeper, 5, &[0, page], frame);
    does(keeper, 7, &[0, page, 0, value], 0);
    does(keeper, 8, &[], 2);
    does(keeper, 13, &[frame, 1], 0);
}

/// The design's map is stored, and the design put down and taken up again: its pages are on the disk alone.
fn copies_go(keeper: &mut Keeper) {
    for (kind, good) in [(12, 0), (14, 1), (4, 0), (3, 0)] {
        does(keeper, kind, &[0, good], 0);
    }
}

/// Page 0, 1 and so on of slot 0 hold these values at word 0, and their copies are in the chip.
fn stored(sizes: Sizes, values: &[u32]) -> Keeper {
    let mut keeper = with_design_of(sizes, 10);
    values.iter().enumerate().for_each(|(page, &value)| store(&mut keeper, page as u32, value));
    keeper
}

/// The chip: its records, the first word of each place, the next place.
fn chip(keeper: &Keeper) -> (Vec<u16>, Vec<u32>, u16) {
    let memory = &keeper.memory;
    let first = memory.chip_words.chunks(keeper.sizes.words).map(|words| words[0]);
    (memory.chip_records.clone(), first.collect(), memory.chip_next[0])
}

#[test]
fn sizes_and_lengths() {
    for (places, refusal) in [(0, 1), (1, 0), (256, 0), (257, 1)] {
        let keeper = Keeper::lent(Sizes { chip: places, ..SIZES });
        for subject in linked::all() {
            assert_eq!(
                (subject.format)(&mut keeper.clone(), &[0]),
                Answer::refused(refusal),
                "{} {places}",
                subject.name
            );
            assert_eq!(
                (subject.restart)(&mut keeper.clone()),
                Answer::refused(refusal),
                "{} {places}",
                subject.name
            );
        }
    }
    let bends: [fn(&mut Keeper); 6] = [
        |keeper| keeper.memory.chip_words.push(0),
        |keeper| keeper.memory.chip_words.truncate(3),
        |keeper| keeper.memory.chip_records.push(0),
        |keeper| keeper.memory.chip_records.truncate(1),
        |keeper| keeper.memory.chip_next.push(0),
        |keeper| keeper.memory.chip_next.truncate(0),
    ];
    for bend in bends {
        let mut keeper = fresh(SIZES);
        bend(&mut keeper);
        apply(&keeper, 15, &[0, 1], Answer::refused(1));
        for subject in linked::all() {
            assert_eq!((subject.restart)(&mut keeper.clone()), Answer::refused(1), "{}", subject.name);
        }
    }
}

/// Each rule refuses tables alone, and no other one does.
#[test]
fn rules() {
    let sound = stored(BOARD, &[7, 8]);
    assert_eq!(chip(&sound), (vec![1, 2, 0], vec![7, 8, 0], 2));
    let damages: [(fn(&mut Keeper), u32); 10] = [
        (|keeper| keeper.memory.chip_next[0] = 0, 0),
        (|keeper| keeper.memory.chip_next[0] = 3, 2),
        (|keeper| (keeper.memory.chip_records[2], keeper.memory.chip_words[4]) = (1, 7), 2),
        (|keeper| keeper.memory.chip_words[5] = 1, 2),
        (|keeper| keeper.memory.chip_words[1] = 1, 2),
        (|keeper| keeper.disk.records[1] = 1, 2),
        (|keeper| keeper.memory.chip_records[2] = 4, 2),
        (|keeper| keeper.memory.chip_records[2] = 7, 2),
        (|keeper| keeper.memory.chip_records[2] = u16::MAX, 2),
        (|keeper| (keeper.memory.chip_records[0], keeper.memory.chip_words[0]) = (0, 0), 0),
    ];
    for (damage, refusal) in damages {
        let mut keeper = sound.clone();
        damage(&mut keeper);
        apply(&keeper, 15, &[0, 10], Answer::refused(refusal));
    }
}

/// In turn, 0 to B - 1 and round; a record replaces its own copy, and next stays then.
#[test]
fn places_in_turn() {
    let mut keeper = stored(BOARD, &[7, 8, 9, 10]);
    assert_eq!(chip(&keeper), (vec![4, 2, 3], vec![10, 8, 9], 1));
    let frame = next_frame(&keeper);
    does(&mut keeper, 5, &[0, 2], frame);
    does(&mut keeper, 7, &[0, 2, 0, 99], 0);
    assert_eq!(chip(&keeper), (vec![4, 2, 3], vec![10, 8, 9], 1));
    does(&mut keeper, 8, &[], 2);
    let mut failed = keeper.clone();
    does(&mut failed, 13, &[frame, 0], 0);
    assert_eq!(chip(&failed), (vec![4, 2, 3], vec![10, 8, 9], 1));
    does(&mut keeper, 13, &[frame, 1], 0);
    assert_eq!(chip(&keeper), (vec![4, 2, 3], vec![10, 8, 99], 1));
    let read = next_frame(&keeper);
    does(&mut keeper, 5, &[0, 0], read);
    assert_eq!(keeper.memory.frames[read as usize].transfer, READING);
    let mut failed = keeper.clone();
    does(&mut failed, 13, &[read, 0], 0);
    assert_eq!(chip(&failed), (vec![4, 2, 3], vec![10, 8, 99], 1));
    does(&mut keeper, 13, &[read, 1], 0);
    assert_eq!(chip(&keeper), (vec![4, 1, 3], vec![10, 7, 99], 2));
}

/// In service at once, as after a good read; the chip stays. With one place, too.
#[test]
fn a_fault_finds_a_copy() {
    for (places, page) in [(2, 0), (2, 1), (1, 1)] {
        let mut keeper = stored(Sizes { chip: places, ..BOARD }, &[7, 8]);
        let (before, frame) = (chip(&keeper), next_frame(&keeper));
        keeper.memory.frame_words.fill(0xEEEE);
        does(&mut keeper, 5, &[0, page], frame);
        let wanted = Frame { page: page as u16 + 1, initial: 1, ..Frame::default() };
        assert_eq!(
            (keeper.memory.frames[frame as usize], keeper.memory.removal_list[0]),
            (wanted, frame as u16 + 1)
        );
        assert_eq!(chip(&keeper), before);
        apply(&keeper, 13, &[frame, 1], Answer::refused(22));
        apply(&keeper, 5, &[0, page], Answer::refused(15));
        apply(&keeper, 6, &[0, page, 0], Answer::done(7 + page));
        apply(&keeper, 6, &[0, page, 1], Answer::done(0));
    }
}

/// A page whose address is nulled is zeros, also where its record's words are still there.
#[test]
fn zeros_claimed() {
    let mut keeper = stored(BOARD, &[7, 8]);
    let frame = next_frame(&keeper);
    does(&mut keeper, 5, &[0, 0], frame);
    does(&mut keeper, 7, &[0, 0, 0, 0], 0);
    does(&mut keeper, 8, &[], 2);
    assert_eq!((keeper.memory.states[0], chip(&keeper)), (NULLED, (vec![0, 2, 0], vec![0, 8, 0], 2)));
    let mut shown = keeper.clone();
    does(&mut shown, 5, &[0, 0], next_frame(&keeper));
    apply(&shown, 6, &[0, 0, 0], Answer::done(0));
    store(&mut keeper, 2, 9);
    assert_eq!(chip(&keeper), (vec![0, 2, 3], vec![0, 8, 9], 0));
}

/// An unmodified page that is claimed stays in the chip.
#[test]
fn unmodified_claimed() {
    let mut keeper = stored(BOARD, &[7, 8]);
    let (before, frame) = (chip(&keeper), next_frame(&keeper));
    does(&mut keeper, 5, &[0, 0], frame);
    does(&mut keeper, 8, &[], 2);
    assert_eq!((keeper.memory.frames[frame as usize].page, chip(&keeper)), (0, before));
}

/// From the count up; updates and map dones leave the chip.
#[test]
fn truncated() {
    let mut keeper = stored(BOARD, &[7, 8, 9]);
    does(&mut keeper, 11, &[0, 1], 0);
    assert_eq!(chip(&keeper), (vec![1, 0, 0], vec![7, 0, 0], 0));
    does(&mut keeper, 12, &[0], 0);
    does(&mut keeper, 14, &[0, 1], 0);
    assert_eq!(chip(&keeper), (vec![1, 0, 0], vec![7, 0, 0], 0));
}

/// A design put down takes its copies with it, and no other's; taken up again it brings nothing in.
#[test]
fn put_down() {
    let mut keeper = stored(BOARD, &[7]);
    does(&mut keeper, 1, &[1, 0, 8], 0);
    does(&mut keeper, 3, &[1], 0);
    let frame = next_frame(&keeper);
    does(&mut keeper, 5, &[1, 4], frame);
    does(&mut keeper, 7, &[1, 4, 0, 5], 0);
    does(&mut keeper, 8, &[], 2);
    does(&mut keeper, 13, &[frame, 1], 0);
    assert_eq!(chip(&keeper), (vec![1, 2, 0], vec![7, 5, 0], 2));
    copies_go(&mut keeper);
    assert_eq!((keeper.memory.states[0], chip(&keeper)), (LIVE, (vec![0, 2, 0], vec![0, 5, 0], 2)));
}

/// Restart reads the disk alone; an import puts nothing in.
#[test]
fn restart_and_import() {
    let keeper = stored(BOARD, &[7, 8]);
    let sheet = Sheet { words: 2, pages: 5, number: 3, woven: vec![(0, vec![1, 2]), (3, vec![3, 4])] };
    let after = import(&keeper, [1, 0], 9, &sheet.print(), Answer::done(3));
    assert_eq!(chip(&after), chip(&keeper));
    for subject in linked::all() {
        let mut after = keeper.clone();
        assert_eq!((subject.restart)(&mut after), Answer::done(0));
        assert_eq!(chip(&after), (vec![0; 3], vec![0; 3], 0), "{}", subject.name);
    }
}

fn emptied(keeper: &mut Keeper) {
    let memory = &mut keeper.memory;
    memory.chip_records.fill(0);
    memory.chip_words.fill(0);
    memory.chip_next.fill(0);
}

/// How many faults found a copy; for each of them the keeper without one gets the good report of its read.
fn beside(seed: u64, sizes: Sizes, acts: usize) -> u64 {
    let (mut chooser, mut with, mut found) = (Chooser::new(seed, &sizes), Keeper::lent(sizes), 0);
    let mut without = with.clone();
    for _ in 0..acts {
        let act = chooser.next(&with);
        if !matches!(act.before, Before::Nothing) {
            continue;
        }
        let answers = [&mut with, &mut without].map(|keeper| act.call.make(&REFERENCE, keeper));
        assert_eq!(answers[0], answers[1], "list seed {seed}, {sizes:?}: {act:?}");
        for frame in 0..sizes.frames {
            let served = with.memory.frames[frame].transfer == NO_TRANSFER;
            if served
                && without.memory.frames[frame].transfer == READING
                && matches!(act.call, Call::Apply(_))
            {
                found += 1;
                without.apply(Request { kind: 13, first: frame as u32, second: 1, ..Request::default() });
            }
        }
        emptied(&mut without);
        let mut same = with.clone();
        emptied(&mut same);
        assert!(same == without, "list seed {seed}, {sizes:?}: {act:?}");
    }
    found
}

/// With and without the chip, over random lists: the same answers, and the same tables but for the chip.
#[test]
fn nobody_sees_it() {
    let (mut random, mut found) = (Random::new(13), 0);
    for seed in 0..300 {
        let (words, pages) = boards::page_sizes(&mut random);
        found += beside(seed, boards::sizes(&mut random, words, pages), 300);
    }
    println!("{found} faults found a copy");
    assert!(found > 500, "only {found}");
}
