//! The list of a size, and the tables that it starts from.

use super::mix::{Mix, Step};
use super::{calls, disk, ACTIVATE, FAULT, FORMAT, PAGE_DONE, REFUSED, RESTART};
use crate::drive::random::Random;
use crate::event::Answer;
use crate::keeper::Keeper;
use crate::tables::Sizes;

/// Every replay starts from these tables and must give these answers; after the mixed steps its tables must be those.
pub struct List {
    pub start: Keeper,
    pub steps: Vec<Step>,
    pub answers: Vec<Answer>,
    pub mixed: usize,
    pub after_mixed: Keeper,
}

/// So many events of mixed kinds, then restarts, formats and refused calls, so many each.
pub fn list(sizes: Sizes, mixed: usize, last: usize) -> List {
    let mut mix = Mix::new(Random::new(1));
    let start = started(sizes, &mut mix);
    let mut keeper = start.clone();
    let (mut steps, mut answers) = (Vec::new(), Vec::new());
    for _ in 0..mixed {
        let step = mix.next(&keeper);
        answers.push(carried_out(&mut keeper, &step));
        steps.push(step);
    }
    for (kind, refusal) in [(RESTART, 0), (FORMAT, 0), (REFUSED, 1)] {
        steps.extend(vec![Step { kind, values: [0; 4] }; last]);
        answers.extend(vec![Answer { refusal, result: 0 }; last]);
    }
    List { start, steps, answers, mixed, after_mixed: keeper }
}

/// Restarted from a disk in use, its busy designs active, its frames filled; then some events of mixed kinds.
pub fn started(sizes: Sizes, mix: &mut Mix) -> Keeper {
    let mut keeper = disk::used(sizes, &mut mix.random);
    carried_out(&mut keeper, &Step { kind: RESTART, values: [0; 4] });
    for slot in 0..disk::busy(&sizes) {
        carried_out(&mut keeper, &Step { kind: ACTIVATE, values: [slot as u32, 0, 0, 0] });
    }
    for kind in [FAULT, PAGE_DONE].repeat(sizes.frames) {
        if let Some(step) = mix.allowed(kind, &keeper) {
            carried_out(&mut keeper, &step);
        }
    }
    for _ in 0..300 {
        let step = mix.next(&keeper);
        carried_out(&mut keeper, &step);
    }
    keeper
}

/// The reference's answer to a call that is carried out, as all are but the refused ones at the end.
pub fn carried_out(keeper: &mut Keeper, step: &Step) -> Answer {
    let answer = calls::REFERENCE[step.kind](keeper, &step.values);
    assert_eq!(answer.refusal, 0, "{step:?}");
    answer
}
