//! Random lists of events that drive two subjects side by side, and what must hold along them.

pub mod act; // one thing that a list does
pub mod aimed; // damage that one rule alone refuses
pub mod aims; // the next event on the way to a design at rest
pub mod batch; // a stretch of a list in one call
pub mod boards; // random boards
pub mod bound; // the bound on waiting
pub mod carried; // the next import or export of a list
pub mod chips; // what an event may do to the chip
pub mod choose; // the next act of a list, by what the tables hold
pub mod compare; // the two subjects agree, and each keeps the paper's promises
pub mod counts; // how often each kind and refusal was seen
pub mod cut; // a power cut
pub mod damage; // tables damaged
pub mod fields; // a random list as bytes for the event program
pub mod given; // numbers that were given, none twice
pub mod high; // numbers above the bound
pub mod list; // a whole run of lists
pub mod misfit; // tables of wrong lengths
pub mod moves; // what was seen of limits, moves and payers
pub mod packs; // packs to mend
pub mod random; // random numbers from a seed
pub mod shadow; // what each page must read as
pub mod sheets; // random sheets
pub mod trees; // trees of accounts
pub mod turns; // how turns went

use crate::event::{Answer, Part, Request};
use crate::keeper::Keeper;

/// A keeper as its public calls, over tables that the driver owns and lends.
#[derive(Clone, Copy)]
pub struct Subject {
    pub name: &'static str,
    pub format: fn(&mut Keeper, &[u16]) -> Answer,
    pub restart: fn(&mut Keeper) -> Answer,
    pub apply: fn(&mut Keeper, Request) -> Answer,
    pub apply_all: fn(&mut Keeper, &[u32], &mut [u32]) -> Answer,
    pub page_look: fn(&Keeper, u32, u32) -> Part,
    /// Slot and buffer.
    pub export: fn(&Keeper, usize, &mut [u8]) -> Answer,
    /// Slot, account, number and sheet.
    pub import: fn(&mut Keeper, usize, usize, u32, &[u8]) -> Answer,
}

pub const REFERENCE: Subject = Subject {
    name: "reference",
    format: Keeper::format,
    restart: Keeper::restart,
    apply: Keeper::apply,
    apply_all: Keeper::apply_all,
    page_look: Keeper::page_look,
    export: Keeper::export,
    import: Keeper::import,
};
