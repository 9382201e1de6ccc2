//! The edges of paper 01, 1 to 12, and those of a page in transfer.

mod common;

use common::{ask, copies_go, does, fresh, refuses, with_design_of};
use reference::event::Answer;
use reference::keeper::Keeper;
use reference::program::SIZES;
use reference::tables::{Sizes, FREE, LEAVING, LIVE, NULLED, RELEASED};

fn with_design(limit: u32) -> Keeper {
    with_design_of(SIZES, limit)
}

/// A page of slot 0 is brought in, written at word 0, and its write done.
fn store(keeper: &mut Keeper, slot: u32, page: u32, value: u32) {
    does(keeper, 0x05, &[slot, page]);
    does(keeper, 0x07, &[slot, page, 0, value]);
    does(keeper, 0x08, &[]);
    let frame = keeper.frame_of(keeper.flat(slot as usize, page as usize)).unwrap();
    does(keeper, 0x0D, &[frame as u32, 1]);
}

fn update(keeper: &mut Keeper, slot: u32) {
    does(keeper, 0x0C, &[slot]);
    does(keeper, 0x0E, &[slot, 1]);
}

/// Page 0 of slot 0 is listed with 9 at word 0; then it is brought in again, zeroed and claimed.
fn zeros_claimed(limit: u32) -> Keeper {
    let mut keeper = with_design(limit);
    store(&mut keeper, 0, 0, 9);
    update(&mut keeper, 0);
    copies_go(&mut keeper, 0);
    does(&mut keeper, 0x05, &[0, 0]);
    does(&mut keeper, 0x0D, &[1, 1]);
    does(&mut keeper, 0x07, &[0, 0, 0, 0]);
    does(&mut keeper, 0x08, &[]);
    keeper
}

fn state_of(keeper: &Keeper, page: usize) -> u8 {
    keeper.memory.states[keeper.record_of(page).unwrap()]
}

#[test]
fn edge_1_records_within_limits() {
    for (records, refusal) in [(0, 1), (1, 0), (4096, 0), (4097, 1)] {
        let mut keeper = Keeper::lent(Sizes { records, ..SIZES });
        assert_eq!(keeper.format(&[0]), Answer::refused(refusal));
        assert_eq!(keeper.restart(), Answer::refused(refusal));
        assert_eq!(ask(&mut keeper, 0x0F, &[0, 1]), Answer::refused(refusal));
        assert_eq!(keeper.page_look(0, 0).refusal, if refusal == 1 { 1 } else { 4 });
    }
}

#[test]
fn edge_2_create_number_0() {
    refuses(&mut fresh(SIZES), 0x01, &[0, 0, 0], 3);
}

#[test]
fn edge_3_last_word() {
    let mut keeper = with_design(2);
    does(&mut keeper, 0x05, &[0, 0]);
    does(&mut keeper, 0x07, &[0, 0, 1, 9]);
    assert_eq!(does(&mut keeper, 0x06, &[0, 0, 1]), 9);
    refuses(&mut keeper, 0x06, &[0, 0, 2], 3);
    let part = keeper.page_look(0, 0);
    assert_eq!(keeper.memory.frame_words[part.start..part.start + part.count], [0, 9]);
}

#[test]
fn edge_4_truncate_to_all() {
    let mut keeper = with_design(2);
    store(&mut keeper, 0, 2, 5);
    let before = keeper.clone();
    does(&mut keeper, 0x0B, &[0, 3]);
    assert!(keeper == before);
    refuses(&mut keeper, 0x0B, &[0, 4], 3);
}

#[test]
fn edge_5_record_then_frame() {
    for (records, number) in [(2, 19), (3, 20)] {
        let mut keeper = with_design_of(Sizes { records, ..SIZES }, 2);
        for page in 0..2 {
            does(&mut keeper, 0x05, &[0, page]);
            does(&mut keeper, 0x07, &[0, page, 0, 9]);
        }
        assert_eq!((keeper.memory.used[0], keeper.disk.limits[0], keeper.memory.free_queue[0]), (2, 2, 0));
        refuses(&mut keeper, 0x05, &[0, 2], number);
    }
}

#[test]
fn edge_6_looks() {
    let mut keeper = with_design(3);
    does(&mut keeper, 0x05, &[0, 0]);
    assert_eq!(does(&mut keeper, 0x08, &[]), 2);
    let mut keeper = with_design_of(Sizes { frames: 5, pages: 5, records: 5, ..SIZES }, 5);
    for page in 0..5 {
        does(&mut keeper, 0x05, &[0, page]);
        does(&mut keeper, 0x09, &[0, page]);
        does(&mut keeper, 0x0A, &[0, page]);
        does(&mut keeper, 0x06, &[0, page, 0]);
    }
    assert!(keeper.memory.frames.iter().all(|frame| frame.used == 1 && frame.initial == 0));
    assert_eq!(does(&mut keeper, 0x08, &[]), 6);
}

#[test]
fn edge_7_fresh_page_claimed() {
    let mut keeper = with_design(3);
    does(&mut keeper, 0x05, &[0, 0]);
    assert_eq!(keeper.memory.used[0], 0);
    does(&mut keeper, 0x08, &[]);
    assert_eq!((state_of(&keeper, 0), keeper.memory.used[0]), (NULLED, 0));
}

#[test]
fn edge_8_zeros_claimed_then_cut() {
    let mut keeper = zeros_claimed(3);
    assert!(keeper.memory.frames.iter().all(|frame| frame.transfer == 0));
    assert_eq!(state_of(&keeper, 0), NULLED);
    keeper.restart();
    does(&mut keeper, 0x03, &[0]);
    does(&mut keeper, 0x05, &[0, 0]);
    does(&mut keeper, 0x0D, &[0, 1]);
    assert_eq!(does(&mut keeper, 0x06, &[0, 0, 0]), 9);
}

#[test]
fn edge_9_truncate_during_an_update() {
    let mut keeper = with_design(3);
    store(&mut keeper, 0, 0, 9);
    let record = keeper.record_of(0).unwrap();
    does(&mut keeper, 0x0C, &[0]);
    does(&mut keeper, 0x0B, &[0, 0]);
    assert_eq!(keeper.memory.states[record], RELEASED);
    does(&mut keeper, 0x0E, &[0, 1]);
    assert_eq!(keeper.memory.states[record], RELEASED);
    assert_eq!(keeper.disk.maps[0] as usize, record + 1);
    update(&mut keeper, 0);
    assert_eq!((keeper.memory.states[record], keeper.disk.maps[0]), (FREE, 0));
}

#[test]
fn edge_10_failed_map_done() {
    let mut keeper = with_design(3);
    store(&mut keeper, 0, 0, 9);
    update(&mut keeper, 0);
    let record = keeper.record_of(0).unwrap();
    does(&mut keeper, 0x0B, &[0, 0]);
    does(&mut keeper, 0x0C, &[0]);
    assert_eq!(keeper.memory.states[record], LEAVING);
    does(&mut keeper, 0x0E, &[0, 0]);
    assert_eq!(keeper.memory.states[record], RELEASED);
    assert_eq!(keeper.disk.maps[0] as usize, record + 1);
    assert_eq!((keeper.memory.updating[0], keeper.memory.images[0]), (0, 0));
}

#[test]
fn edge_11_one_record_in_two_entries() {
    let mut keeper = fresh(SIZES);
    does(&mut keeper, 0x01, &[0, 0, 7]);
    keeper.disk.maps[0] = 2;
    assert_eq!(keeper.clone().restart(), Answer::done(0));
    keeper.disk.maps[2] = 2;
    let before = keeper.clone();
    assert_eq!(keeper.restart(), Answer::refused(2));
    assert!(keeper == before);
}

#[test]
fn edge_12_used_over_the_limit() {
    let mut keeper = zeros_claimed(1);
    does(&mut keeper, 0x01, &[1, 0, 8]);
    does(&mut keeper, 0x03, &[1]);
    store(&mut keeper, 1, 0, 5);
    assert_eq!(state_of(&keeper, 3), LIVE);
    update(&mut keeper, 1);
    assert_eq!(keeper.restart(), Answer::done(0));
    assert_eq!((keeper.memory.used[0], keeper.disk.limits[0]), (2, 1));
    does(&mut keeper, 0x03, &[0]);
    does(&mut keeper, 0x05, &[0, 1]);
    refuses(&mut keeper, 0x07, &[0, 1, 0, 4], 18);
}

/// Looking is free, also at limit 0; a page's first write is charged, also of an equal value, and no later one.
#[test]
fn looking_is_free() {
    let mut keeper = with_design(0);
    does(&mut keeper, 0x05, &[0, 0]);
    does(&mut keeper, 0x06, &[0, 0, 1]);
    assert_eq!(keeper.page_look(0, 0).refusal, 0);
    refuses(&mut keeper, 0x07, &[0, 0, 1, 0], 18);
    refuses(&mut keeper, 0x07, &[0, 0, 1, 9], 18);
    assert_eq!(keeper.memory.used[0], 0);
    does(&mut keeper, 0x0F, &[0, 1]);
    does(&mut keeper, 0x07, &[0, 0, 1, 0]);
    does(&mut keeper, 0x0F, &[0, 0]);
    does(&mut keeper, 0x07, &[0, 0, 1, 9]);
    assert_eq!(keeper.memory.used[0], 1);
    does(&mut keeper, 0x07, &[0, 0, 1, 0]);
    does(&mut keeper, 0x08, &[]);
    assert_eq!((state_of(&keeper, 0), keeper.memory.used[0]), (NULLED, 0));
}

/// While page 0's write is under way: read and look are accepted, the others get 14, and used is as the reads leave it.
#[test]
fn read_while_written() {
    let mut keeper = with_design(2);
    does(&mut keeper, 0x05, &[0, 0]);
    does(&mut keeper, 0x07, &[0, 0, 1, 9]);
    assert_eq!(does(&mut keeper, 0x08, &[]), 2);
    let claimed = keeper.clone();
    assert_eq!(keeper.page_look(0, 0).refusal, 0);
    assert!(keeper == claimed, "a look changed a table");
    for (kind, values) in [(0x07, &[0, 0, 1, 5][..]), (0x09, &[0, 0]), (0x0A, &[0, 0]), (0x05, &[0, 0]), (0x0B, &[0, 0])] {
        refuses(&mut keeper, kind, values, 14);
    }
    refuses(&mut keeper, 0x06, &[0, 1, 1], 13);
    assert_eq!(does(&mut keeper, 0x06, &[0, 0, 1]), 9);
    does(&mut keeper, 0x0D, &[0, 0]);
    let frame = &keeper.memory.frames[0];
    assert_eq!((frame.used, frame.modified, frame.initial, frame.transfer), (1, 1, 0, 0));
    assert_eq!(does(&mut keeper, 0x08, &[]), 2);
    does(&mut keeper, 0x0D, &[0, 0]);
    assert_eq!(keeper.memory.frames[0].used, 0);
    assert_eq!(does(&mut keeper, 0x08, &[]), 1);
}

/// While it is being read all of them get 14.
#[test]
fn none_while_read() {
    let mut keeper = with_design(2);
    store(&mut keeper, 0, 0, 9);
    update(&mut keeper, 0);
    copies_go(&mut keeper, 0);
    does(&mut keeper, 0x05, &[0, 0]);
    for kind in [0x05, 0x06, 0x07, 0x09, 0x0A, 0x0B] {
        refuses(&mut keeper, kind, &[0, 0, 0, 0], 14);
    }
    assert_eq!(keeper.page_look(0, 0).refusal, 14);
}
