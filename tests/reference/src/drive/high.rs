//! Numbers of 2,147,483,648 or more: packs of older boards that have such designs, and what was seen of them.

use super::act::Call;
use super::given;
use super::random::Random;
use crate::event::Event;
use crate::keeper::Keeper;
use crate::questions::HIGH;
use std::collections::BTreeMap;

/// Some designs get the same number above the bound, as an older board gave it, and the highest is as on an older pack. Their words carry
/// the number's low half, which stays.
pub fn age(keeper: &mut Keeper, seed: u64) {
    let mut random = Random::new(seed);
    for slot in 0..keeper.disk.numbers.len() {
        let high = keeper.disk.numbers[slot] | HIGH;
        if keeper.disk.numbers[slot] != 0 && random.percent(50) && !keeper.disk.numbers.contains(&high) {
            keeper.disk.numbers[slot] = high;
        }
    }
    given::forget(keeper, &mut random);
}

/// Creates and imports answered 32, and those carried out under the last number below the bound; and by kind, the calls that were carried
/// out on a design above it, restarts of packs with one among them.
#[derive(Debug, Default)]
pub struct High {
    pub creates: u64,
    pub imports: u64,
    pub last: u64,
    pub used: BTreeMap<&'static str, u64>,
}

impl High {
    pub fn note(&mut self, call: &Call, kind: &'static str, refusal: u32, before: &Keeper) {
        let event = call.event();
        match (event, refusal) {
            (Some(Event::Create { .. }), 32) => self.creates += 1,
            (Some(Event::Import { .. }), 32) => self.imports += 1,
            (Some(Event::Create { number, .. } | Event::Import { number, .. }), 0) => self.last += (number == HIGH - 1) as u64,
            (_, 0) => {
                let numbers = &before.disk.numbers;
                let own = match event.and_then(|event| event.slot()) {
                    Some(slot) => numbers[slot] >= HIGH,
                    None => matches!(call, Call::Restart) && numbers.iter().any(|&number| number >= HIGH),
                };
                if own {
                    *self.used.entry(kind).or_default() += 1;
                }
            }
            _ => {}
        }
    }

    /// Those of these kinds that were seen fewer times, and the rest if they were.
    pub fn rarer_than(&self, least: u64, kinds: &[&'static str]) -> Vec<&'static str> {
        let used = kinds.iter().map(|&kind| (kind, self.used.get(kind).copied().unwrap_or(0)));
        let rest = [("creates", self.creates), ("imports", self.imports), ("last", self.last)];
        used.chain(rest).filter(|&(_, count)| count < least).map(|(name, _)| name).collect()
    }
}
