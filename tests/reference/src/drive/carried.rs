//! The next import or export of a list.

use super::act::Call;
use super::given;
use super::random::Random;
use crate::keeper::Keeper;

/// Mostly into an empty slot, under a new number.
pub fn import(keeper: &Keeper, random: &mut Random, new: u32) -> Call {
    let sizes = keeper.sizes;
    let empty = random.find(sizes.slots, |slot| keeper.disk.numbers[slot] == 0);
    let slot = match empty {
        Some(slot) if random.percent(80) => slot,
        _ => random.below(sizes.slots + 1),
    };
    let other = [0, random.pick(&keeper.disk.numbers)];
    let number = if random.percent(80) { given::drawn(random, keeper, new) } else { random.pick(&other) };
    let account = if random.percent(95) { random.below(sizes.accounts) } else { sizes.accounts };
    Call::Import { slot, account, number, sheet: random.next() }
}

/// Mostly of a design at rest; with room for its sheet and more, just for it, for a byte less, for anything less.
pub fn export(keeper: &Keeper, random: &mut Random) -> Call {
    let sizes = keeper.sizes;
    let rests = |slot: usize| keeper.disk.numbers[slot] != 0 && keeper.memory.active[slot] == 0;
    let slot = match random.find(sizes.slots, rests) {
        Some(slot) if random.percent(80) => slot,
        _ => random.below(sizes.slots + 1),
    };
    let own = if slot < sizes.slots { keeper.sheet_of(slot).print().len() } else { 0 };
    let less = [own.saturating_sub(1), random.below(own + 1)];
    let room = if random.percent(60) { own + random.below(2) * 40 } else { random.pick(&less) };
    Call::Export { slot, room }
}
