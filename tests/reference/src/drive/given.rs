//! Numbers that were given: none is given twice. Which numbers a list draws, older packs that do not have the highest, and what was seen.

use super::act::{Act, Before, Call, Outcome};
use super::random::Random;
use crate::event::Event;
use crate::keeper::Keeper;
use crate::questions::HIGH;
use std::collections::BTreeSet;

/// The number for a create or an import: mostly one above the highest, sometimes the last that can be, the highest itself, any below it, one
/// that the ledgers do not hold. `new` is above all that the list drew before.
pub fn drawn(random: &mut Random, keeper: &Keeper, new: u32) -> u32 {
    let highest = keeper.disk.highest.first().copied().unwrap_or(0);
    match random.below(100) {
        0..=1 => HIGH - 1,
        2..=4 => random.pick(&[HIGH, u32::MAX, new | HIGH]),
        5..=8 => highest,
        9..=12 => random.below(highest as usize + 1) as u32,
        13..=30 => highest.saturating_add(1),
        _ => new,
    }
}

/// A number above the highest and above all that the list drew, if there is one.
pub fn above(keeper: &Keeper, drawn: u32) -> u32 {
    let highest = keeper.disk.highest.first().copied().unwrap_or(0);
    let next = drawn.max(highest).saturating_add(1);
    if next < HIGH - 1 { next } else { drawn + 1 }
}

/// The pack of an older board, which does not have the highest: mostly 0 stands there, sometimes another value, any is one for restart.
pub fn forget(keeper: &mut Keeper, random: &mut Random) {
    let highest = keeper.disk.highest[0];
    keeper.disk.highest[0] = match random.below(20) {
        0..=9 => 0,
        10..=12 => random.below(highest as usize + 1) as u32,
        13 => random.pick(&[HIGH - 1, HIGH, u32::MAX]),
        _ => highest,
    };
}

/// The numbers of all designs that a list had, those of the pack that it starts from among them.
#[derive(Default)]
pub struct Given(BTreeSet<u32>);

impl Given {
    pub fn of(keeper: &Keeper) -> Given {
        Given(keeper.disk.numbers.iter().copied().filter(|&number| number != 0).collect())
    }

    /// The pack of an older board starts the list anew, if its highest is lower than a number that was given.
    fn age(&mut self, after: &Keeper) {
        if self.0.iter().any(|&number| number < HIGH && number > after.disk.highest[0]) {
            self.0.clear();
        }
        self.0.extend(Given::of(after).0);
    }

    /// Follows one call; a format starts the list anew.
    pub fn follow(&mut self, act: &Act, after: &Keeper, outcome: &Outcome) -> Result<(), String> {
        if matches!(act.before, Before::Age(_)) {
            self.age(after);
        }
        match (act.call.event(), act.call, outcome.refusal()) {
            (_, Call::Format { .. }, 0) => *self = Given::default(),
            (Some(Event::Create { number, .. } | Event::Import { number, .. }), _, 0) if !self.0.insert(number) => {
                return Err(format!("number {number} was given twice"));
            }
            _ => {}
        }
        Ok(())
    }
}

/// Creates and imports answered 33, for the highest itself and for lower ones that stand in no slot; those carried out under the very next
/// number; restarts that stored the highest, those of them past a design of 2,147,483,648 or more, those that had nothing to store; and cuts
/// between the two stores of a create.
#[derive(Debug, Default)]
pub struct Numbers {
    pub creates: u64,
    pub imports: u64,
    pub equal: u64,
    pub lower: u64,
    pub next: u64,
    pub stored: u64,
    pub past_high: u64,
    pub stood: u64,
    pub between: u64,
}

impl Numbers {
    pub fn note(&mut self, call: &Call, refusal: u32, before: &Keeper, after: &Keeper) {
        let event = call.event();
        match (event, refusal) {
            (Some(Event::Create { number, .. } | Event::Import { number, .. }), 33) => {
                let create = matches!(event, Some(Event::Create { .. }));
                self.creates += create as u64;
                self.imports += !create as u64;
                self.equal += (number == before.disk.highest[0]) as u64;
                self.lower += (number < before.disk.highest[0]) as u64;
            }
            (Some(Event::Create { number, .. } | Event::Import { number, .. }), 0) => {
                self.next += (number - 1 == before.disk.highest[0]) as u64;
            }
            (None, 0) if matches!(call, Call::Restart) => {
                let stored = before.disk.highest != after.disk.highest;
                self.stored += stored as u64;
                self.past_high += (stored && before.disk.numbers.iter().any(|&number| number >= HIGH)) as u64;
                self.stood += !stored as u64;
            }
            _ => {}
        }
    }

    pub fn rarer_than(&self, least: u64) -> bool {
        let all = [
            self.creates,
            self.imports,
            self.equal,
            self.lower,
            self.next,
            self.stored,
            self.past_high,
            self.stood,
            self.between,
        ];
        all.into_iter().any(|count| count < least)
    }
}
