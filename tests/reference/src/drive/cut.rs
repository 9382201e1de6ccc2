//! A power cut: each open write's record and open update's map is old or new, memory holds anything.

use super::random::Random;
use super::sheets;
use crate::keeper::Keeper;
use crate::questions::HIGH;
use crate::rules;
use crate::stores::{self, Store};
use crate::tables::{Frame, Memory, Pool, WRITING};

pub fn cut(keeper: &mut Keeper, seed: u64) {
    let mut random = Random::new(seed);
    land_writes(keeper, &mut random);
    land_updates(keeper, &mut random);
    match random.below(3) {
        0 => {}
        1 => keeper.memory = Memory::zeros(&keeper.sizes),
        _ => scramble(&mut keeper.memory, &mut random),
    }
}

/// The first stores of a create or an import that were made before power failed.
#[derive(Clone, Copy, Default)]
pub struct Inside {
    pub create: bool,
    pub made: usize,
}

/// Some stores of a create or an import into an empty slot, but not the last. None if the tables allow it not.
pub fn inside(keeper: &mut Keeper, seed: u64) -> Inside {
    let (mut random, sizes, highest) = (Random::new(seed), keeper.sizes, keeper.disk.highest[0]);
    let empty = random.find(sizes.slots, |slot| keeper.disk.numbers[slot] == 0);
    let sound = rules::kept(keeper) && highest < HIGH - 1;
    let Some(slot) = empty.filter(|_| sound) else { return Inside::default() };
    let number = (highest + random.up_to(3) as u32).min(HIGH - 1);
    let create = random.percent(50);
    let stores = match create {
        true => stores::create(slot, 0, number).to_vec(),
        false => import(keeper, slot, number, &mut random),
    };
    let made = random.below(stores.len().max(1));
    stores[..made].iter().for_each(|store| store.make(&mut keeper.disk));
    Inside { create, made }
}

/// The stores of an import of any sheet; none if there are too few records.
fn import(keeper: &Keeper, slot: usize, number: u32, random: &mut Random) -> Vec<Store> {
    let sheet = sheets::of_form(random, keeper.sizes.words, keeper.sizes.pages, number);
    match sheet.woven.len() > keeper.memory.pool.free as usize {
        true => Vec::new(),
        false => keeper.clone().take_in(slot, 0, number, &sheet),
    }
}

fn land_writes(keeper: &mut Keeper, random: &mut Random) {
    for number in 0..keeper.sizes.frames {
        let frame = keeper.memory.frames[number];
        if frame.transfer == WRITING && random.percent(50) {
            let record = keeper.record_of(frame.page as usize - 1).expect("a page in a frame has an address");
            let (from, to) = (keeper.words_of_frame(number), keeper.words_of_record(record));
            keeper.disk.records[to].copy_from_slice(&keeper.memory.frame_words[from]);
        }
    }
}

fn land_updates(keeper: &mut Keeper, random: &mut Random) {
    for slot in 0..keeper.sizes.slots {
        if keeper.memory.updating[slot] == 1 && random.percent(50) {
            let pages = keeper.pages_of(slot);
            keeper.disk.maps[pages.clone()].copy_from_slice(&keeper.memory.images[pages]);
        }
    }
}

/// Any bytes in every memory table.
fn scramble(memory: &mut Memory, random: &mut Random) {
    for frame in &mut memory.frames {
        let [page, used, modified, wired, initial, transfer] = [(); 6].map(|_| random.next() as u8);
        *frame = Frame { page: page.into(), used, modified, wired, initial, transfer };
    }
    let (wide, words) = ([&mut memory.frame_words, &mut memory.free_map, &mut memory.chip_words], random.next() as u32);
    for table in wide {
        table.iter_mut().for_each(|word| *word = words ^ random.next() as u32);
    }
    for table in [
        &mut memory.free_queue,
        &mut memory.removal_list,
        &mut memory.addresses,
        &mut memory.images,
        &mut memory.chip_records,
        &mut memory.chip_next,
        &mut memory.line,
        &mut memory.used,
    ] {
        table.iter_mut().for_each(|entry| *entry = random.next() as u16);
    }
    for table in [&mut memory.states, &mut memory.owners, &mut memory.active, &mut memory.updating] {
        table.iter_mut().for_each(|entry| *entry = random.next() as u8);
    }
    memory.pool = Pool { hand: random.next() as u32, free: random.next() as u32 };
}
