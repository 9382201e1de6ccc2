//! The C port. build.rs names its calls `c_port_*`, so that it and the proved keeper link into one program.

use crate::drive::Subject;
use crate::event::{Answer, Part, Request};
use crate::keeper::Keeper;
use crate::mend::Change;
use crate::tables::{self, Frame, Pool, Sizes};
use std::marker::PhantomData;

#[repr(C)]
struct Slice<T> {
    at: *mut T,
    len: usize,
}

// layout: made by tools/tables.py from tools/tables.txt
#[repr(C)]
struct Disk {
    records: Slice<u32>,
    numbers: Slice<u32>,
    accounts: Slice<u16>,
    maps: Slice<u16>,
    limits: Slice<u16>,
    parents: Slice<u16>,
    highest: Slice<u32>,
}

#[repr(C)]
struct Memory {
    frames: Slice<Frame>,
    frame_words: Slice<u32>,
    free_queue: Slice<u16>,
    removal_list: Slice<u16>,
    addresses: Slice<u16>,
    states: Slice<u8>,
    owners: Slice<u8>,
    free_map: Slice<u32>,
    active: Slice<u8>,
    updating: Slice<u8>,
    images: Slice<u16>,
    chip_words: Slice<u32>,
    chip_records: Slice<u16>,
    chip_next: Slice<u16>,
    line: Slice<u16>,
    used: Slice<u16>,
    pool: *mut Pool,
}
// end of layout

/// `struct keeper` of bench/keeper.h over a keeper's tables.
#[repr(C)]
pub struct Lent<'a> {
    pub sizes: Sizes,
    disk: Disk,
    memory: Memory,
    tables: PhantomData<&'a mut Keeper>,
}

#[link(name = "keeper_c", kind = "static")]
extern "C" {
    fn c_port_format(keeper: *mut Lent, wanted: *const u16, wanted_count: usize) -> Answer;
    fn c_port_restart(keeper: *mut Lent) -> Answer;
    fn c_port_apply(keeper: *mut Lent, request: Request) -> Answer;
    fn c_port_mend(keeper: *mut Lent, changes: Slice<Change>) -> Answer;
    fn c_port_apply_all(
        keeper: *mut Lent,
        requests: *const u32,
        requests_count: usize,
        answers: *mut u32,
        answers_count: usize,
    ) -> Answer;
    fn c_port_page_look(keeper: *const Lent, slot: usize, page: usize) -> Part;
    fn c_port_export(keeper: *const Lent, slot: usize, sheet: *mut u8, sheet_count: usize) -> Answer;
    fn c_port_import(
        keeper: *mut Lent,
        slot: usize,
        account: usize,
        number: u32,
        sheet: *const u8,
        sheet_count: usize,
    ) -> Answer;
}

fn slice<T>(table: &mut Vec<T>) -> Slice<T> {
    Slice { at: table.as_mut_ptr(), len: table.len() }
}

// lent: made by tools/tables.py from tools/tables.txt
fn lent_disk(disk: &mut tables::Disk) -> Disk {
    Disk {
        records: slice(&mut disk.records),
        numbers: slice(&mut disk.numbers),
        accounts: slice(&mut disk.accounts),
        maps: slice(&mut disk.maps),
        limits: slice(&mut disk.limits),
        parents: slice(&mut disk.parents),
        highest: slice(&mut disk.highest),
    }
}

fn lent_memory(memory: &mut tables::Memory) -> Memory {
    Memory {
        frames: slice(&mut memory.frames),
        frame_words: slice(&mut memory.frame_words),
        free_queue: slice(&mut memory.free_queue),
        removal_list: slice(&mut memory.removal_list),
        addresses: slice(&mut memory.addresses),
        states: slice(&mut memory.states),
        owners: slice(&mut memory.owners),
        free_map: slice(&mut memory.free_map),
        active: slice(&mut memory.active),
        updating: slice(&mut memory.updating),
        images: slice(&mut memory.images),
        chip_words: slice(&mut memory.chip_words),
        chip_records: slice(&mut memory.chip_records),
        chip_next: slice(&mut memory.chip_next),
        line: slice(&mut memory.line),
        used: slice(&mut memory.used),
        pool: &mut memory.pool,
    }
}
// end of lent

impl Lent<'_> {
    pub fn of(keeper: &mut Keeper) -> Lent<'_> {
        Lent {
            sizes: keeper.sizes,
            disk: lent_disk(&mut keeper.disk),
            memory: lent_memory(&mut keeper.memory),
            tables: PhantomData,
        }
    }

    pub fn format(&mut self, wanted: &[u16]) -> Answer {
        unsafe { c_port_format(self, wanted.as_ptr(), wanted.len()) }
    }

    pub fn restart(&mut self) -> Answer {
        unsafe { c_port_restart(self) }
    }

    pub fn apply(&mut self, request: Request) -> Answer {
        unsafe { c_port_apply(self, request) }
    }

    pub fn mend(&mut self, list: &mut Vec<Change>) -> Answer {
        unsafe { c_port_mend(self, slice(list)) }
    }

    pub fn apply_all(&mut self, requests: &[u32], answers: &mut [u32]) -> Answer {
        let (asked, told) = (requests.len(), answers.len());
        unsafe { c_port_apply_all(self, requests.as_ptr(), asked, answers.as_mut_ptr(), told) }
    }

    pub fn page_look(&self, slot: u32, page: u32) -> Part {
        unsafe { c_port_page_look(self, slot as usize, page as usize) }
    }

    pub fn export(&self, slot: usize, sheet: &mut [u8]) -> Answer {
        unsafe { c_port_export(self, slot, sheet.as_mut_ptr(), sheet.len()) }
    }

    pub fn import(&mut self, slot: usize, account: usize, number: u32, sheet: &[u8]) -> Answer {
        unsafe { c_port_import(self, slot, account, number, sheet.as_ptr(), sheet.len()) }
    }
}

pub const C_PORT: Subject = Subject {
    name: "C port",
    format: |keeper, wanted| Lent::of(keeper).format(wanted),
    restart: |keeper| Lent::of(keeper).restart(),
    apply: |keeper, request| Lent::of(keeper).apply(request),
    apply_all: |keeper, requests, answers| Lent::of(keeper).apply_all(requests, answers),
    // the look changes nothing, so a copy of the tables serves
    page_look: |keeper, slot, page| Lent::of(&mut keeper.clone()).page_look(slot, page),
    export: |keeper, slot, sheet| {
        let mut copy = keeper.clone();
        let answer = Lent::of(&mut copy).export(slot, sheet);
        assert!(copy == *keeper, "an export of the C port changed a table");
        answer
    },
    import: |keeper, slot, account, number, sheet| Lent::of(keeper).import(slot, account, number, sheet),
};
