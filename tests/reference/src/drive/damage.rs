//! Tables damaged cell by cell, in step with each other, or so that one rule alone is broken.

use super::aimed::{aimed, set_state};
use super::random::Random;
use crate::keeper::Keeper;
use crate::queue;
use crate::tables::{Frame, RELEASED};

pub const TABLES: usize = 24;

/// One damage aimed at one rule, which is returned; or one or two at random.
pub fn damage(keeper: &mut Keeper, seed: u64) -> Option<&'static str> {
    let mut random = Random::new(seed);
    if random.percent(60) {
        if let Some(rule) = aimed(keeper, &mut random) {
            return Some(rule);
        }
    }
    for _ in 0..random.up_to(2) {
        match random.below(12) {
            0 => change_state(keeper, &mut random),
            1 => move_frame(keeper, &mut random),
            2 => change_frame(keeper, &mut random),
            3 => forge_entry(keeper, &mut random),
            4 => swap_cells(keeper, &mut random),
            5 => swap_pages(keeper, &mut random),
            6 => copy_frame(keeper, &mut random),
            7 => forge_image(keeper, &mut random),
            8 => forge_line(keeper, &mut random),
            9 => forge_copy(keeper, &mut random),
            _ => change_cell(keeper, &mut random),
        }
    }
    None
}

/// A record gets another state and slot, the free map and count in step.
fn change_state(keeper: &mut Keeper, random: &mut Random) {
    let record = random.below(keeper.sizes.records);
    let any = random.below(6) as u8;
    let state = if random.percent(80) { any } else { keeper.memory.states[record] };
    set_state(keeper, record, state);
    if random.percent(50) {
        keeper.memory.owners[record] = random.below(keeper.sizes.slots) as u8;
    }
}

/// To a queue's end, if there is room: an earlier damage may have filled it.
fn join(queue: &mut [u16], frame: usize) {
    if queue::length(queue) < queue.len() {
        queue::push_end(queue, frame);
    }
}

/// A frame leaves its queue or joins one.
fn move_frame(keeper: &mut Keeper, random: &mut Random) {
    let frame = random.below(keeper.sizes.frames);
    let memory = &mut keeper.memory;
    queue::remove(&mut memory.free_queue, frame);
    queue::remove(&mut memory.removal_list, frame);
    let queue = if random.percent(50) { &mut memory.free_queue } else { &mut memory.removal_list };
    if random.percent(80) {
        join(queue, frame);
    }
    if random.percent(30) {
        memory.frames[frame] = Frame::default();
    }
}

/// A frame in use becomes a free one's double, words and all.
fn copy_frame(keeper: &mut Keeper, random: &mut Random) {
    let (size, memory) = (keeper.sizes.words, &mut keeper.memory);
    let from = random.find(memory.frames.len(), |frame| memory.frames[frame].page != 0);
    let to = random.find(memory.frames.len(), |frame| memory.frames[frame].page == 0);
    if let (Some(from), Some(to)) = (from, to) {
        memory.frames[to] = memory.frames[from];
        memory.frame_words.copy_within(from * size..(from + 1) * size, to * size);
        queue::remove(&mut memory.free_queue, to);
        queue::remove(&mut memory.removal_list, to);
        if memory.removal_list.contains(&(from as u16 + 1)) {
            join(&mut memory.removal_list, to);
        }
    }
}

/// A released record enters its slot's begun image, once or twice.
fn forge_image(keeper: &mut Keeper, random: &mut Random) {
    let memory = &keeper.memory;
    let begun = |slot: u8| memory.updating.get(slot as usize) == Some(&1);
    let fits = |record: usize| memory.states[record] == RELEASED && begun(memory.owners[record]);
    if let Some(record) = random.find(keeper.sizes.records, fits) {
        let start = keeper.flat(memory.owners[record] as usize, 0);
        for _ in 0..2 {
            let page = start + random.below(keeper.sizes.pages);
            keeper.memory.images[page] = record as u16 + 1;
        }
    }
}

/// A place of the waiting line, mostly one that is taken or the first that is not, becomes empty, a page, or one past the last.
fn forge_line(keeper: &mut Keeper, random: &mut Random) {
    let pages = keeper.sizes.all_pages();
    let line = &mut keeper.memory.line;
    let near = line.len().min(queue::length(line) + 2);
    let among = if random.percent(80) { near } else { line.len() };
    let at = random.below(among);
    let any = random.up_to(pages) as u16;
    line[at] = random.pick(&[0, any, pages as u16 + 1, u16::MAX]);
}

/// A place of the chip becomes empty, or some record's, mostly with its words.
fn forge_copy(keeper: &mut Keeper, random: &mut Random) {
    let place = random.below(keeper.sizes.chip);
    let entry = random.below(keeper.sizes.records + 2);
    keeper.memory.chip_records[place] = entry as u16;
    if random.percent(80) {
        let (size, records) = (keeper.sizes.words, &keeper.disk.records);
        let words = match entry.checked_sub(1).and_then(|record| records.get(record * size..(record + 1) * size)) {
            Some(words) => words.to_vec(),
            None => vec![0; size],
        };
        keeper.memory.chip_words[place * size..(place + 1) * size].copy_from_slice(&words);
    }
}

/// A frame's page, switches or transfer change, mostly of a frame with a page.
fn change_frame(keeper: &mut Keeper, random: &mut Random) {
    let pages = keeper.sizes.all_pages();
    let frames = &mut keeper.memory.frames;
    let any = random.below(frames.len());
    let number = random.find(frames.len(), |frame| frames[frame].page != 0).unwrap_or(any);
    let frame = &mut frames[if random.percent(80) { number } else { any }];
    match random.below(6) {
        0 => frame.page = random.below(pages + 2) as u16,
        1 => frame.used = random.below(3) as u8,
        2 => frame.modified = random.below(3) as u8,
        3 => frame.wired = random.below(3) as u8,
        4 => frame.initial = random.below(3) as u8,
        _ => frame.transfer = random.below(4) as u8,
    }
}

/// An entry of the map, image or addresses becomes another record, also one that stands elsewhere.
fn forge_entry(keeper: &mut Keeper, random: &mut Random) {
    let page = random.below(keeper.sizes.all_pages());
    let entry = random.below(keeper.sizes.records + 2) as u16;
    match random.below(4) {
        0 => keeper.disk.maps[page] = entry,
        1 => keeper.memory.images[page] = entry,
        2 => keeper.memory.images[page] = keeper.disk.maps[random.below(keeper.sizes.all_pages())],
        _ => keeper.memory.addresses[page] = entry,
    }
}

/// Two pages change places in one table.
fn swap_pages(keeper: &mut Keeper, random: &mut Random) {
    let pages = keeper.sizes.all_pages();
    let (one, other) = (random.below(pages), random.below(pages));
    match random.below(3) {
        0 => keeper.disk.maps.swap(one, other),
        1 => keeper.memory.images.swap(one, other),
        _ => keeper.memory.addresses.swap(one, other),
    }
}

/// Two cells change places in a small table.
fn swap_cells(keeper: &mut Keeper, random: &mut Random) {
    let (one, other) = (random.next() as usize, random.next() as usize);
    fn swap<T>(table: &mut [T], one: usize, other: usize) {
        table.swap(one % table.len(), other % table.len());
    }
    match random.below(10) {
        9 => swap(&mut keeper.memory.chip_records, one, other),
        8 => swap(&mut keeper.disk.parents, one, other),
        0 => swap(&mut keeper.disk.numbers, one, other),
        1 => swap(&mut keeper.disk.accounts, one, other),
        2 => swap(&mut keeper.memory.frames, one, other),
        3 => swap(&mut keeper.memory.removal_list, one, other),
        4 => swap(&mut keeper.memory.states, one, other),
        5 => swap(&mut keeper.memory.active, one, other),
        6 => swap(&mut keeper.memory.updating, one, other),
        _ => swap(&mut keeper.memory.used, one, other),
    }
}

/// A cell of a table, as a number that can be changed.
trait Cell: Copy {
    fn changed(self, change: &dyn Fn(u32) -> u32) -> Self;
}

impl Cell for u8 {
    fn changed(self, change: &dyn Fn(u32) -> u32) -> u8 {
        change(self.into()) as u8
    }
}

impl Cell for u16 {
    fn changed(self, change: &dyn Fn(u32) -> u32) -> u16 {
        change(self.into()) as u16
    }
}

impl Cell for u32 {
    fn changed(self, change: &dyn Fn(u32) -> u32) -> u32 {
        change(self)
    }
}

fn put<T: Cell>(table: &mut [T], at: u64, change: &dyn Fn(u32) -> u32) {
    let at = (at % table.len() as u64) as usize;
    table[at] = table[at].changed(change);
}

/// Any cell of any table but the frames becomes a value near it, or an extreme one.
fn change_cell(keeper: &mut Keeper, random: &mut Random) {
    let (at, any, how) = (random.next(), random.next() as u32, random.below(6));
    let change = move |old: u32| match how {
        0 => 0,
        1 => old.wrapping_add(1),
        2 => old.wrapping_sub(1),
        3 => old ^ 1 << (any % 32),
        4 => u32::MAX,
        _ => any % 8,
    };
    let (disk, memory) = (&mut keeper.disk, &mut keeper.memory);
    match random.below(TABLES) {
        0 => put(&mut disk.records, at, &change),
        1 => put(&mut disk.numbers, at, &change),
        2 => put(&mut disk.accounts, at, &change),
        3 => put(&mut disk.maps, at, &change),
        4 => put(&mut disk.limits, at, &change),
        5 => put(&mut memory.frame_words, at, &change),
        6 => put(&mut memory.free_queue, at, &change),
        7 => put(&mut memory.removal_list, at, &change),
        8 => put(&mut memory.addresses, at, &change),
        9 => put(&mut memory.states, at, &change),
        10 => put(&mut memory.owners, at, &change),
        11 => put(&mut memory.free_map, at, &change),
        12 => put(&mut memory.active, at, &change),
        13 => put(&mut memory.updating, at, &change),
        14 => put(&mut memory.images, at, &change),
        15 => put(&mut memory.used, at, &change),
        16 => put(&mut memory.line, at, &change),
        17 => memory.pool.hand = change(memory.pool.hand),
        18 => put(&mut disk.parents, at, &change),
        19 => put(&mut disk.highest, at, &change),
        20 => put(&mut memory.chip_words, at, &change),
        21 => put(&mut memory.chip_records, at, &change),
        22 => put(&mut memory.chip_next, at, &change),
        _ => memory.pool.free = change(memory.pool.free),
    }
}
