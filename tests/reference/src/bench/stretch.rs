//! Events of some kinds, as many as a list in one call has at the most: all carried out, one after the other.

use super::list::{carried_out, started};
use super::mix::Mix;
use crate::drive::counts::{tag, KINDS, REQUESTS};
use crate::drive::random::Random;
use crate::event::Answer;
use crate::keeper::Keeper;
use crate::tables::Sizes;

/// How many events a stretch has.
pub const LENGTH: usize = 1000;

/// The kinds of each stretch: those that undo each other stand together. The first has all of them.
pub const STRETCHES: [&[usize]; 11] = [
    &[0, 1, 2, 3, 4, 5, 6, 7, 8, 9, 10, 11, 12, 13, 14, 15, 16],
    &[0, 1],
    &[2, 3],
    &[4, 12, 7],
    &[5],
    &[6],
    &[8, 9],
    &[10],
    &[11, 13],
    &[14],
    &[15, 16, 12],
];

/// Every replay starts from these tables, must give these answers and leave those tables.
pub struct Stretch {
    pub name: String,
    pub start: Keeper,
    pub requests: Vec<u32>,
    pub answers: Vec<Answer>,
    pub end: Keeper,
}

/// So that the tables allow some of the kinds at all, an event of any other kind comes between where they do not.
pub fn stretch(sizes: Sizes, kinds: &[usize]) -> Stretch {
    let mut any = Mix::of(Random::new(2), 0..REQUESTS);
    let start = started(sizes, &mut any);
    let mut own = Mix::of(Random::new(3), kinds.iter().copied());
    let (mut keeper, mut requests, mut answers) = (start.clone(), Vec::new(), Vec::new());
    for _ in 0..LENGTH {
        let step = own.one(&keeper).unwrap_or_else(|| any.next(&keeper));
        answers.push(carried_out(&mut keeper, &step));
        requests.push(tag(step.kind));
        requests.extend(step.values);
    }
    let names: Vec<&str> = kinds.iter().map(|&kind| KINDS[kind]).collect();
    let name = if kinds.len() == REQUESTS { "all kinds".to_string() } else { names.join(", ") };
    Stretch { name, start, requests, answers, end: keeper }
}
