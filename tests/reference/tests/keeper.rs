//! The proved keeper, as firmware links it, and the reference side by side over random lists: the same answers, results and tables.
#![cfg(keeper)]

use reference::drive::{list, REFERENCE};
use reference::linked::proved::PROVED;

#[test]
fn keeper_agrees_with_the_reference() {
    let counts = list::run_as_set([REFERENCE, PROVED]);
    println!("{counts}");
}
