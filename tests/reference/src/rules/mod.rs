//! Question 2: both sets of rules are kept.

pub mod chip; // the rules of the chip
pub mod disk; // the rules of the disk part
pub mod frames; // the rules of frames and queues
pub mod line; // the rules of the waiting line
pub mod records; // the rules of records, addresses, images and counts
pub mod values; // what names something names something that exists

use crate::keeper::Keeper;
use crate::tables::{Disk, Memory, Sizes};

/// The tables with their inverses: who holds a record, which inactive page lists it, where a page is. 0 is none.
pub struct View<'a> {
    pub sizes: &'a Sizes,
    pub disk: &'a Disk,
    pub memory: &'a Memory,
    pub holder: Vec<u16>,
    pub lister: Vec<u16>,
    pub frame: Vec<u8>,
}

pub type Rule = (&'static str, fn(&View) -> bool);

/// Asked once the disk rules and the values are in order.
pub const MEMORY: [Rule; 23] = [
    ("a queue is packed, no frame in it twice", frames::queues_packed),
    ("each frame is in exactly one place", frames::one_place),
    ("a free frame has no page and no switch on, any other has a page", frames::free_frames_bare),
    ("no page is in two frames", frames::no_page_twice),
    ("a page in a frame has an address, a reading one a live one", frames::pages_addressed),
    ("a frame being written is modified", frames::written_modified),
    ("an unmodified frame in service equals its record, or zeros", frames::clean_frames),
    ("no two pages hold one record", records::one_holder),
    ("each record's state and slot agree with its holder", records::states_agree),
    ("a listed record of an active design is the page's own, released or leaving", records::listed),
    ("no record stands twice in one image", records::images_distinct),
    ("an image is zero and none leaving unless an update is under way", records::updates),
    ("an active slot is filled", records::active_filled),
    ("an inactive slot has no address, frame or update", records::inactive_bare),
    ("the hand is below R", records::hand),
    ("the free map and count agree with the states", records::free_agrees),
    ("used counts equal their definition", records::used_counts),
    ("the waiting line is packed", line::packed),
    ("a page that waits exists", line::pages_exist),
    ("the chip's next place is below B", chip::next_exists),
    ("no record is in the chip twice", chip::no_record_twice),
    ("an empty place of the chip holds zeros", chip::empty_bare),
    ("a copy's record is live, and its words equal the record's", chip::copies_live),
];

/// All rules by name.
pub fn names() -> impl Iterator<Item = &'static str> {
    let disk = disk::DISK.iter().map(|rule| rule.0);
    disk.chain([values::NAME]).chain(MEMORY.iter().map(|rule| rule.0))
}

pub fn kept(keeper: &Keeper) -> bool {
    disk::kept(&keeper.sizes, &keeper.disk) && values::in_range(&keeper.sizes, &keeper.memory) && {
        let view = View::of(keeper);
        MEMORY.iter().all(|(_, rule)| rule(&view))
    }
}

/// The rules that fail, by name: those of the disk and of values first, the others only once these hold.
pub fn broken(keeper: &Keeper) -> Vec<&'static str> {
    let mut names = disk::broken(&keeper.sizes, &keeper.disk);
    if !values::in_range(&keeper.sizes, &keeper.memory) {
        names.push(values::NAME);
    }
    if names.is_empty() {
        let view = View::of(keeper);
        names.extend(MEMORY.iter().filter(|(_, rule)| !rule(&view)).map(|(name, _)| name));
    }
    names
}

impl View<'_> {
    pub fn of(keeper: &Keeper) -> View<'_> {
        let (sizes, disk, memory) = (&keeper.sizes, &keeper.disk, &keeper.memory);
        let mut holder = vec![0; sizes.records];
        let mut lister = vec![0; sizes.records];
        let mut frame = vec![0; sizes.all_pages()];
        for page in 0..sizes.all_pages() {
            if memory.addresses[page] != 0 {
                holder[memory.addresses[page] as usize - 1] = page as u16 + 1;
            }
            if disk.maps[page] != 0 && memory.active[page / sizes.pages] == 0 {
                lister[disk.maps[page] as usize - 1] = page as u16 + 1;
            }
        }
        for (number, entry) in memory.frames.iter().enumerate() {
            if entry.page != 0 {
                frame[entry.page as usize - 1] = number as u8 + 1;
            }
        }
        View { sizes, disk, memory, holder, lister, frame }
    }

    pub fn slot_of(&self, page: usize) -> usize {
        page / self.sizes.pages
    }
}

/// No number above 0 stands twice; numbers above `most` are not looked at.
pub fn distinct(entries: &[u16], most: usize) -> bool {
    let mut seen = vec![false; most + 1];
    entries.iter().all(|&entry| {
        let entry = entry as usize;
        entry == 0 || entry > most || !std::mem::replace(&mut seen[entry], true)
    })
}
