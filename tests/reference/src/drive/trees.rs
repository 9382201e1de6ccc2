//! Trees of accounts: the parents that a format is to store, good and bad.

use super::random::Random;
use crate::tables::Sizes;

/// A list of parents that an act can carry; it may be one too long.
#[derive(Clone, Copy, Debug)]
pub struct Wanted {
    parents: [u16; Sizes::MOST.accounts + 1],
    count: usize,
}

impl Wanted {
    pub fn of(parents: &[u16]) -> Wanted {
        let mut all = [0; Sizes::MOST.accounts + 1];
        all[..parents.len()].copy_from_slice(parents);
        Wanted { parents: all, count: parents.len() }
    }

    pub fn parents(&self) -> &[u16] {
        &self.parents[..self.count]
    }
}

/// A parent for each account: any lower one, or the one just before it, so that chains are long; account 0's is anything.
pub fn tree(accounts: usize, random: &mut Random) -> Vec<u16> {
    let chained = random.percent(40);
    let parent = |account: usize, random: &mut Random| match account {
        0 => random.pick(&[0, 0, 1, u16::MAX]),
        _ if chained && random.percent(80) => account as u16 - 1,
        _ => random.below(account) as u16,
    };
    (0..accounts).map(|account| parent(account, random)).collect()
}

/// Mostly a tree; now and then with a parent that is not lower, or with one account too many or too few.
pub fn wanted(accounts: usize, random: &mut Random) -> Wanted {
    let mut parents = tree(accounts.min(Sizes::MOST.accounts), random);
    if accounts > 1 && random.percent(20) {
        let account = 1 + random.below(parents.len() - 1);
        parents[account] = random.pick(&[account as u16, account as u16 + 1, u16::MAX]);
    }
    match random.below(10) {
        0 => parents.push(0),
        1 => parents.truncate(parents.len().saturating_sub(1)),
        _ => {}
    }
    Wanted::of(&parents)
}
