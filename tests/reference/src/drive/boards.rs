//! Random boards: the tables as a random list of events with cuts leaves them, designs in all states.

use super::act::Before;
use super::choose::{Chooser, LARGE};
use super::list::prepare;
use super::random::Random;
use super::REFERENCE;
use crate::keeper::Keeper;
use crate::rules;
use crate::tables::{Sizes, FILED};

/// Small sizes, where everything runs short, with this W and N.
pub fn sizes(random: &mut Random, words: usize, pages: usize) -> Sizes {
    let records = random.pick(&[4, 8, 24, LARGE - 1]);
    Sizes {
        words,
        records: random.up_to(records),
        frames: random.up_to(5),
        slots: 1 + random.up_to(5),
        pages,
        accounts: random.up_to(4),
        chip: random.up_to(4),
    }
}

/// A W and an N.
pub fn page_sizes(random: &mut Random) -> (usize, usize) {
    (random.pick(&[1, 2, 3, 9]), random.pick(&[1, 2, 3, 5, 12]))
}

/// Tables of these sizes that keep the rules, after so many acts at most.
pub fn board(seed: u64, sizes: Sizes, acts: usize) -> Keeper {
    let (mut chooser, mut keeper) = (Chooser::new(seed, &sizes), Keeper::lent(sizes));
    let first = sizes.accounts + 2;
    for _ in 0..first + chooser.random.below(acts) {
        let act = chooser.next(&keeper);
        if matches!(act.before, Before::Nothing | Before::Cut(_) | Before::CutInside(_) | Before::Age(_)) {
            prepare(&mut keeper, act.before);
            act.call.make(&REFERENCE, &mut keeper);
        }
    }
    if !rules::kept(&keeper) {
        keeper.restart();
    }
    hold_zeros(&mut keeper, &mut chooser.random);
    keeper
}

/// Now and then a design at rest lists a record of zeros, as a pack may have it.
fn hold_zeros(keeper: &mut Keeper, random: &mut Random) {
    let filed = random.find(keeper.sizes.records, |record| keeper.memory.states[record] == FILED);
    if let Some(record) = filed.filter(|_| random.percent(30)) {
        let words = keeper.words_of_record(record);
        keeper.disk.records[words].fill(0);
    }
}
