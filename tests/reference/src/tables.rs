//! The sizes and the lent tables: the disk part, and the memory part that is lost at a cut.

#[repr(C)]
#[derive(Clone, Copy, Debug, Default, PartialEq, Eq)]
pub struct Sizes {
    pub words: usize,
    pub records: usize,
    pub frames: usize,
    pub slots: usize,
    pub pages: usize,
    pub accounts: usize,
    pub chip: usize,
}

impl Sizes {
    pub const MOST: Sizes =
        Sizes { words: 1024, records: 4096, frames: 64, slots: 64, pages: 256, accounts: 16, chip: 256 };

    pub fn within(&self) -> bool {
        let limit = |n, most| 1 <= n && n <= most;
        limit(self.words, Sizes::MOST.words)
            && limit(self.records, Sizes::MOST.records)
            && limit(self.frames, Sizes::MOST.frames)
            && limit(self.slots, Sizes::MOST.slots)
            && limit(self.pages, Sizes::MOST.pages)
            && limit(self.accounts, Sizes::MOST.accounts)
            && limit(self.chip, Sizes::MOST.chip)
    }

    /// Pages of all slots; page p of slot s has the flat number `s * pages + p`.
    pub fn all_pages(&self) -> usize {
        self.slots * self.pages
    }

    /// Words of the free map.
    pub fn map_words(&self) -> usize {
        self.records.div_ceil(32)
    }
}

/// page: 0 for none, else the flat page number + 1. Switches are 0 or 1.
#[repr(C)]
#[derive(Clone, Copy, Debug, Default, PartialEq, Eq)]
pub struct Frame {
    pub page: u16,
    pub used: u8,
    pub modified: u8,
    pub wired: u8,
    pub initial: u8,
    pub transfer: u8,
}

pub const NO_TRANSFER: u8 = 0;
pub const READING: u8 = 1;
pub const WRITING: u8 = 2;

/// How many requests can wait.
pub const LINE: usize = 32;

pub const FREE: u8 = 0;
pub const FILED: u8 = 1;
pub const NULLED: u8 = 2;
pub const LIVE: u8 = 3;
pub const RELEASED: u8 = 4;
pub const LEAVING: u8 = 5;

/// Where the search for a free record starts for a page without a neighbour, and the count of free records.
#[repr(C)]
#[derive(Clone, Copy, Debug, Default, PartialEq, Eq)]
pub struct Pool {
    pub hand: u32,
    pub free: u32,
}

/// Map entry: 0 for a page of zeros, else record + 1. Number 0: an empty slot.
#[derive(Clone, Debug, Default, PartialEq, Eq)]
pub struct Disk {
    pub records: Vec<u32>,
    pub numbers: Vec<u32>,
    pub accounts: Vec<u16>,
    pub maps: Vec<u16>,
    pub limits: Vec<u16>,
    pub parents: Vec<u16>,
    /// One number: the highest below 2,147,483,648 ever given.
    pub highest: Vec<u32>,
}

/// Queues hold frame + 1, packed at the front; addresses, images and the chip's places hold record + 1, or 0; the line holds flat page
/// numbers + 1.
#[derive(Clone, Debug, Default, PartialEq, Eq)]
pub struct Memory {
    pub frames: Vec<Frame>,
    pub frame_words: Vec<u32>,
    pub free_queue: Vec<u16>,
    pub removal_list: Vec<u16>,
    pub addresses: Vec<u16>,
    pub states: Vec<u8>,
    pub owners: Vec<u8>,
    pub free_map: Vec<u32>,
    pub active: Vec<u8>,
    pub updating: Vec<u8>,
    pub images: Vec<u16>,
    pub chip_words: Vec<u32>,
    pub chip_records: Vec<u16>,
    /// One number: the place that is filled next.
    pub chip_next: Vec<u16>,
    pub line: Vec<u16>,
    pub used: Vec<u16>,
    pub pool: Pool,
}

impl Disk {
    /// Tables of the right lengths, all zero.
    pub fn zeros(sizes: &Sizes) -> Disk {
        Disk {
            records: vec![0; sizes.records * sizes.words],
            numbers: vec![0; sizes.slots],
            accounts: vec![0; sizes.slots],
            maps: vec![0; sizes.all_pages()],
            limits: vec![0; sizes.accounts],
            parents: vec![0; sizes.accounts],
            highest: vec![0],
        }
    }
}

impl Memory {
    /// Tables of the right lengths, all zero.
    pub fn zeros(sizes: &Sizes) -> Memory {
        Memory {
            frames: vec![Frame::default(); sizes.frames],
            frame_words: vec![0; sizes.frames * sizes.words],
            free_queue: vec![0; sizes.frames],
            removal_list: vec![0; sizes.frames],
            addresses: vec![0; sizes.all_pages()],
            states: vec![0; sizes.records],
            owners: vec![0; sizes.records],
            free_map: vec![0; sizes.map_words()],
            active: vec![0; sizes.slots],
            updating: vec![0; sizes.slots],
            images: vec![0; sizes.all_pages()],
            chip_words: vec![0; sizes.chip * sizes.words],
            chip_records: vec![0; sizes.chip],
            chip_next: vec![0],
            line: vec![0; LINE],
            used: vec![0; sizes.accounts],
            pool: Pool::default(),
        }
    }
}
