//! What the tests of single cases share: the reference, formatted and restarted, and its answers to one event after the other.
// each test uses some of them
#![allow(dead_code)]

pub mod all; // a call over every keeper

use reference::event::{Answer, Request};
use reference::keeper::Keeper;
use reference::tables::Sizes;

/// A formatted and restarted keeper; account 0 is every account's parent.
pub fn fresh(sizes: Sizes) -> Keeper {
    let mut keeper = Keeper::lent(sizes);
    assert_eq!(keeper.format(&vec![0; sizes.accounts]), Answer::done(0));
    assert_eq!(keeper.restart(), Answer::done(0));
    keeper
}

/// Slot 0 of it has an active design with number 7, and account 0 a limit.
pub fn with_design_of(sizes: Sizes, limit: u32) -> Keeper {
    let mut keeper = fresh(sizes);
    does(&mut keeper, 0x0F, &[0, limit]);
    does(&mut keeper, 0x01, &[0, 0, 7]);
    does(&mut keeper, 0x03, &[0]);
    keeper
}

/// An event with these values, the others 0.
pub fn ask(keeper: &mut Keeper, kind: u32, values: &[u32]) -> Answer {
    let value = |at: usize| values.get(at).copied().unwrap_or(0);
    keeper.apply(Request { kind, first: value(0), second: value(1), third: value(2), fourth: value(3) })
}

/// An event that is carried out; its result.
pub fn does(keeper: &mut Keeper, kind: u32, values: &[u32]) -> u32 {
    let answer = ask(keeper, kind, values);
    assert_eq!(answer.refusal, 0, "{kind:02X} {values:?}");
    answer.result
}

/// A design at rest loses its copies in the chip, so that a fault on a page of it begins a read.
pub fn copies_go(keeper: &mut Keeper, slot: u32) {
    does(keeper, 0x04, &[slot]);
    does(keeper, 0x03, &[slot]);
}

/// An event that is refused, and changes nothing.
pub fn refuses(keeper: &mut Keeper, kind: u32, values: &[u32], number: u32) {
    let before = keeper.clone();
    assert_eq!(ask(keeper, kind, values), Answer::refused(number), "{kind:02X} {values:?}");
    assert!(*keeper == before, "{kind:02X} {values:?} changed a table");
}
