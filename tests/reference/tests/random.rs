//! Two copies of the reference side by side over random lists: the same answers, and the paper's promises.

use reference::drive::{list, REFERENCE};

/// What a design above the bound stays usable for.
const ON_HIGH: [&str; 15] = [
    "restart",
    "delete",
    "activate",
    "deactivate",
    "fault",
    "read",
    "write",
    "wire",
    "unwire",
    "truncate",
    "update",
    "map done",
    "join",
    "page look",
    "export",
];

#[test]
fn lists_keep_the_promises() {
    let counts = list::run_as_set([REFERENCE, REFERENCE]);
    println!("{counts}");
    assert_eq!(counts.kinds_missing(), Vec::<&str>::new(), "never carried out");
    assert_eq!(counts.refusals_missing(), Vec::<u32>::new(), "never given");
    assert!(counts.inside * 50 > counts.cuts, "cuts inside a create or an import: {} of {}", counts.inside, counts.cuts);
    assert!(!counts.taken.never_full(), "records taken on a nearly full disk: {:?}", counts.taken);
    assert!(!counts.taken.rare(), "records taken near another, out of order, of two equally near: {:?}", counts.taken);
    assert!(!counts.written.rare(), "reads and looks of pages being written, failed writes of pages read: {:?}", counts.written);
    assert!(!counts.batches.rare(), "lists in one call: {:?}", counts.batches);
    assert!(!counts.moves.rarer_than(20), "limits, moves and who pays: {:?}", counts.moves);
    assert!(!counts.turns.rare(), "turns: {:?}", counts.turns);
    assert!(!counts.bound.rare(), "runs to the bound on waiting: {:?}", counts.bound);
    assert_eq!(counts.high.rarer_than(20, &ON_HIGH), Vec::<&str>::new(), "numbers above the bound: {:?}", counts.high);
    assert!(!counts.numbers.rarer_than(20), "numbers given once: {:?}", counts.numbers);
    assert!(!counts.chips.rarer_than(20), "the chip: {:?}", counts.chips);
    assert_eq!(counts.seldom_alone(), [], "rules that seldom stood alone");
}
