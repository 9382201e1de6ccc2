//! The next event of a list: of the kind that came least so far, if the tables allow one of it;
//! but a page done while many pages are in transfer, and a turn while many wait in line.

use super::{values, LOOK, PAGE_DONE, TURN};
use crate::drive::counts::{tag, REQUESTS};
use crate::drive::random::Random;
use crate::event::{Event, Request};
use crate::keeper::Keeper;
use crate::questions;

/// A call of a list. A format or restart has no values; a page look has slot and page.
#[derive(Clone, Copy, Debug)]
pub struct Step {
    pub kind: usize,
    pub values: [u32; 4],
}

impl Step {
    /// The event that it asks for, of the kinds that a mix holds.
    fn event(&self) -> Event {
        let [first, second, third, fourth] = self.values;
        if self.kind == LOOK {
            return Event::Look { slot: first as usize, page: second as usize };
        }
        let request = Request { kind: tag(self.kind), first, second, third, fourth };
        Event::decode(&request).expect("a kind of event")
    }
}

pub struct Mix {
    pub random: Random,
    /// How often each kind of request, and page look, came.
    counts: Vec<(usize, usize)>,
}

impl Mix {
    pub fn new(random: Random) -> Mix {
        Mix::of(random, (0..REQUESTS).chain([LOOK]))
    }

    /// Of these kinds alone.
    pub fn of(random: Random, kinds: impl Iterator<Item = usize>) -> Mix {
        Mix { random, counts: kinds.map(|kind| (0, kind)).collect() }
    }

    pub fn next(&mut self, keeper: &Keeper) -> Step {
        self.one(keeper).expect("a limit can always be set")
    }

    /// If the tables allow one of its kinds.
    pub fn one(&mut self, keeper: &Keeper) -> Option<Step> {
        let random = &mut self.random;
        let (report, treat) = (values::many_transfers(keeper), values::many_wait(keeper));
        let first = |kind| report && kind == PAGE_DONE || treat && kind == TURN;
        self.counts.sort_by_cached_key(|&(count, kind)| (!first(kind), count, random.next()));
        for at in 0..self.counts.len() {
            let kind = self.counts[at].1;
            if let Some(step) = self.allowed(kind, keeper) {
                self.counts[at].0 += 1;
                return Some(step);
            }
        }
        None
    }

    /// A call of this kind that every question says yes to, if a few tries find one.
    pub fn allowed(&mut self, kind: usize, keeper: &Keeper) -> Option<Step> {
        (0..8).find_map(|_| {
            let values = values::likely(kind, keeper, &mut self.random)?.map(|value| value as u32);
            let step = Step { kind, values };
            (questions::refusal(keeper, step.event()) == 0).then_some(step)
        })
    }
}
