//! The waiting line of paper 02, case by case: join, turn, the bound, and that the bound needs each of its premises.

mod common;

use common::{ask, copies_go, does, refuses, with_design_of};
use reference::event::Answer;
use reference::keeper::Keeper;
use reference::program::SIZES;
use reference::tables::{Sizes, LINE, NO_TRANSFER, READING, WRITING};

const NARROW: Sizes = Sizes { frames: 1, ..SIZES };

/// Slot 0 has an active design with page 0 in frame 0; slot 1 is empty.
fn opened(sizes: Sizes) -> Keeper {
    let mut keeper = with_design_of(sizes, 10);
    assert_eq!(does(&mut keeper, 5, &[0, 0]), 0);
    keeper
}

fn join(keeper: &mut Keeper, slot: u32, page: u32) {
    assert_eq!(does(keeper, 18, &[slot, page]), 0);
}

fn turn(keeper: &mut Keeper) -> u32 {
    does(keeper, 19, &[])
}

/// The pages that wait, by their flat numbers.
fn waiting(keeper: &Keeper) -> Vec<u16> {
    keeper.memory.line.iter().filter(|&&entry| entry != 0).map(|entry| entry - 1).collect()
}

#[test]
fn joining_asks_3_and_27_alone() {
    let mut keeper = opened(SIZES);
    join(&mut keeper, 1, 2);
    refuses(&mut keeper, 18, &[2, 0], 3);
    refuses(&mut keeper, 18, &[0, 3], 3);
    for _ in 1..LINE {
        join(&mut keeper, 0, 1);
    }
    refuses(&mut keeper, 18, &[0, 0], 27);
    refuses(&mut keeper, 18, &[2, 0], 3);
    assert_eq!((waiting(&keeper)[0], waiting(&keeper).len()), (5, LINE));
}

#[test]
fn no_other_kind() {
    let mut keeper = opened(SIZES);
    for kind in [0, 16, 20, 21, 274] {
        refuses(&mut keeper, kind, &[0, 0], 3);
    }
}

#[test]
fn nobody_waits() {
    let mut keeper = opened(SIZES);
    let before = keeper.clone();
    assert_eq!(turn(&mut keeper), 0);
    assert!(keeper == before);
}

/// Wired or not; the same page twice is served twice; no switch changes.
#[test]
fn served_in_service() {
    let mut keeper = opened(SIZES);
    join(&mut keeper, 0, 0);
    join(&mut keeper, 0, 0);
    let frame = keeper.memory.frames[0];
    assert_eq!(turn(&mut keeper), 1);
    assert_eq!((waiting(&keeper), keeper.memory.frames[0]), (vec![0], frame));
    does(&mut keeper, 9, &[0, 0]);
    assert_eq!(turn(&mut keeper), 1);
    assert_eq!(waiting(&keeper), []);
}

#[test]
fn to_the_back_in_transfer() {
    let mut keeper = opened(SIZES);
    does(&mut keeper, 7, &[0, 0, 0, 9]);
    does(&mut keeper, 8, &[]);
    assert_eq!(keeper.memory.frames[0].transfer, WRITING);
    join(&mut keeper, 0, 0);
    join(&mut keeper, 0, 1);
    assert_eq!((turn(&mut keeper), waiting(&keeper)), (0, vec![1, 0]));
    does(&mut keeper, 13, &[0, 1]);
    does(&mut keeper, 12, &[0]);
    does(&mut keeper, 14, &[0, 1]);
    copies_go(&mut keeper, 0);
    join(&mut keeper, 0, 2);
    let frame = does(&mut keeper, 5, &[0, 0]) as usize;
    assert_eq!(keeper.memory.frames[frame].transfer, READING);
    assert_eq!((turn(&mut keeper), turn(&mut keeper)), (0, 1));
    assert_eq!((turn(&mut keeper), waiting(&keeper)), (0, vec![2, 0]));
}

/// An accepted fault, also one that finds a copy, and a claim that looks and frees, or begins a write: the request stays first, the
/// result is 0.
#[test]
fn stays_first() {
    let mut keeper = opened(NARROW);
    does(&mut keeper, 7, &[0, 0, 0, 9]);
    join(&mut keeper, 0, 1);
    join(&mut keeper, 0, 0);
    assert_eq!(turn(&mut keeper), 0);
    assert_eq!((keeper.memory.frames[0].transfer, waiting(&keeper)), (WRITING, vec![1, 0]));
    does(&mut keeper, 13, &[0, 1]);
    assert_eq!((turn(&mut keeper), keeper.memory.frames[0].page), (0, 2));
    assert_eq!((turn(&mut keeper), waiting(&keeper)), (1, vec![0]));
    assert_eq!((turn(&mut keeper), keeper.memory.frames[0].page), (0, 0));
    assert_eq!((turn(&mut keeper), keeper.memory.frames[0].page, keeper.memory.frames[0].transfer), (0, 1, NO_TRANSFER));
    assert_eq!((turn(&mut keeper), waiting(&keeper)), (1, vec![]));
}

#[test]
fn a_refused_claim_refuses_the_turn() {
    let mut keeper = opened(NARROW);
    does(&mut keeper, 9, &[0, 0]);
    join(&mut keeper, 0, 1);
    refuses(&mut keeper, 19, &[], 21);
}

#[test]
fn sent_away() {
    let mut keeper = opened(Sizes { records: 1, ..SIZES });
    for (slot, page) in [(1, 0), (0, 1), (0, 0)] {
        join(&mut keeper, slot, page);
    }
    assert_eq!((turn(&mut keeper), turn(&mut keeper), turn(&mut keeper)), (4, 19, 1));
    does(&mut keeper, 1, &[1, 0, 8]);
    join(&mut keeper, 1, 0);
    assert_eq!((turn(&mut keeper), waiting(&keeper)), (8, vec![]));
}

#[test]
fn restart_empties_the_line() {
    let mut keeper = opened(SIZES);
    join(&mut keeper, 0, 1);
    keeper.restart();
    assert_eq!(keeper.memory.line, vec![0; LINE]);
}

/// Refused by 1 or 2 for the line alone: its length, a gap, a page that does not exist.
#[test]
fn questions_1_and_2() {
    let mut keeper = opened(SIZES);
    let sound = keeper.clone();
    for (line, refusal) in [(vec![0; LINE - 1], 1), (vec![0; LINE + 1], 1)] {
        keeper.memory.line = line;
        refuses(&mut keeper, 19, &[], refusal);
        assert_eq!(keeper.restart(), Answer::refused(1));
    }
    for (place, entry, refusal) in [(0, 6, 0), (0, 7, 2), (1, 6, 2), (31, 1, 2)] {
        keeper = sound.clone();
        keeper.memory.line[place] = entry;
        assert_eq!(ask(&mut keeper, 15, &[0, 10]).refusal, refusal, "{entry} in place {place}");
    }
}

/// One frame, page 0 in it, page 1 waits: it is served in the third turn, and not before.
#[test]
fn the_bound_is_met_exactly() {
    let mut keeper = opened(NARROW);
    join(&mut keeper, 0, 1);
    assert_eq!((turn(&mut keeper), turn(&mut keeper), turn(&mut keeper)), (0, 0, 1));
}

/// After three turns it still waits where one premise does not hold.
#[test]
fn the_bound_needs_its_premises() {
    let mut all_wired = opened(NARROW);
    does(&mut all_wired, 9, &[0, 0]);
    let mut bad_done = opened(NARROW);
    does(&mut bad_done, 7, &[0, 0, 0, 9]);
    let mut others = opened(NARROW);
    let mut in_transfer = opened(NARROW);
    does(&mut in_transfer, 7, &[0, 0, 0, 9]);
    for keeper in [&mut all_wired, &mut bad_done, &mut others, &mut in_transfer] {
        join(keeper, 0, 1);
    }
    for _ in 0..3 {
        refuses(&mut all_wired, 19, &[], 21);
        assert_eq!(turn(&mut bad_done), 0);
        ask(&mut bad_done, 13, &[0, 0]);
        assert_eq!(turn(&mut others), 0);
        ask(&mut others, 5, &[0, 2]);
    }
    assert_eq!(turn(&mut in_transfer), 0);
    refuses(&mut in_transfer, 19, &[], 21);
    refuses(&mut in_transfer, 19, &[], 21);
    for keeper in [all_wired, bad_done, others, in_transfer] {
        assert_eq!(waiting(&keeper), [1]);
    }
}
