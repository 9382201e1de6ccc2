//! The C port and the reference side by side over random lists: the same answers, results and tables.

use reference::drive::{list, REFERENCE};
use reference::linked::c_port::C_PORT;

#[test]
fn c_port_agrees_with_the_reference() {
    let counts = list::run_as_set([REFERENCE, C_PORT]);
    println!("{counts}");
}
