//! Stretches written to files, for bench/lists.c to replay with a library of the keeper that has no chip, and with this one and a chip of one place.

use super::stretch::{stretch, Stretch, STRETCHES};
use crate::event::Request;
use crate::keeper::Keeper;
use crate::tables::Sizes;
use std::path::Path;

/// Each stretch into a file of the folder; prints a line for each: its kinds, and the file.
pub fn write(sizes: Sizes, folder: &str) {
    for (number, kinds) in STRETCHES.into_iter().enumerate() {
        let mut stretch = stretch(Sizes { chip: 1, ..sizes }, kinds);
        empty_chip(&mut stretch.start);
        check(&stretch);
        let file = Path::new(folder).join(format!("stretch{number}"));
        std::fs::write(&file, bytes(&stretch)).expect("the file is written");
        println!("{}\t{}", stretch.name, file.display());
    }
}

fn empty_chip(keeper: &mut Keeper) {
    keeper.memory.chip_words.fill(0);
    keeper.memory.chip_records.fill(0);
    keeper.memory.chip_next.fill(0);
}

/// The keeper without a chip, which is one whose chip is emptied before each event, gives the same answers and leaves the same tables.
fn check(stretch: &Stretch) {
    let mut keeper = stretch.start.clone();
    for (request, wanted) in stretch.requests.chunks(5).zip(&stretch.answers) {
        empty_chip(&mut keeper);
        assert_eq!(keeper.apply(Request::of(request)), *wanted, "{}: a copy is found", stretch.name);
    }
    assert!(tables(&keeper) == tables(&stretch.end), "{}: other tables", stretch.name);
}

/// Six sizes, the number of requests, these and their answers, the tables at the start and at the end: all but the chip's, low byte first.
fn bytes(stretch: &Stretch) -> Vec<u8> {
    let Sizes { words, records, frames, slots, pages, accounts, .. } = stretch.start.sizes;
    let sizes = [words, records, frames, slots, pages, accounts, stretch.answers.len()];
    let mut out: Vec<u8> = sizes.iter().flat_map(|&size| (size as u32).to_le_bytes()).collect();
    out.extend(of32(&stretch.requests));
    out.extend(stretch.answers.iter().flat_map(|answer| of32(&[answer.refusal, answer.result])));
    out.extend(tables(&stretch.start));
    out.extend(tables(&stretch.end));
    out
}

/// In the order of include/keeper_easy.h.
fn tables(keeper: &Keeper) -> Vec<u8> {
    let (disk, memory) = (&keeper.disk, &keeper.memory);
    let frames = memory.frames.iter().flat_map(|frame| {
        let [low, high] = frame.page.to_le_bytes();
        [low, high, frame.used, frame.modified, frame.wired, frame.initial, frame.transfer, 0]
    });
    [
        of32(&disk.records),
        of32(&disk.numbers),
        of16(&disk.accounts),
        of16(&disk.maps),
        of16(&disk.limits),
        of16(&disk.parents),
        of32(&disk.highest),
        frames.collect(),
        of32(&memory.frame_words),
        of16(&memory.free_queue),
        of16(&memory.removal_list),
        of16(&memory.addresses),
        memory.states.clone(),
        memory.owners.clone(),
        of32(&memory.free_map),
        memory.active.clone(),
        memory.updating.clone(),
        of16(&memory.images),
        of16(&memory.line),
        of16(&memory.used),
        of32(&[memory.pool.hand, memory.pool.free]),
    ]
    .concat()
}

fn of16(numbers: &[u16]) -> Vec<u8> {
    numbers.iter().flat_map(|number| number.to_le_bytes()).collect()
}

fn of32(numbers: &[u32]) -> Vec<u8> {
    numbers.iter().flat_map(|number| number.to_le_bytes()).collect()
}
