//! Speed: one list of events for each size, made once with the reference and replayed by each keeper over its own tables.

pub mod calls; // each keeper's calls, one function a kind
pub mod disk; // a disk in use, to start from
pub mod list; // the list of a size, and the tables that it starts from
#[cfg(keeper)]
pub mod lists; // requests one by one and in lists
pub mod stretch; // events of some kinds, for lists in one call
pub mod mix; // the next event of a list
pub mod replay; // a list replayed with a clock
#[cfg(keeper)]
pub mod side; // the keepers side by side
pub mod values; // likely values for an event
pub mod written; // stretches in files, for a keeper without a chip

use crate::drive::counts::KINDS;
use crate::program;
use crate::tables::Sizes;

/// The sizes that are measured, by name.
pub const SIZES: [(&str, Sizes); 3] = [
    ("smallest", Sizes { chip: 1, ..program::SIZES }),
    ("middle", Sizes { words: 64, records: 512, frames: 16, slots: 16, pages: 64, accounts: 4, chip: 32 }),
    ("largest", Sizes::MOST),
];

/// Some of the kinds, as `drive::counts::KINDS` numbers them: those of requests, then the other calls.
pub const ACTIVATE: usize = 2;
pub const FAULT: usize = 4;
pub const PAGE_DONE: usize = 12;
pub const TURN: usize = 16;
pub const FORMAT: usize = 17;
pub const RESTART: usize = 18;
pub const LOOK: usize = 19;
/// A call that question 1 refuses at once: what it takes to make a call and to be answered.
pub const REFUSED: usize = 20;

/// All kinds with their names.
pub fn kinds() -> impl Iterator<Item = (usize, &'static str)> {
    KINDS.into_iter().chain(["refused"]).enumerate()
}
