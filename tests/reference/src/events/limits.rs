//! Events about an account: limit and move. Either can change who pays, so the used counts are worked out afresh.

use crate::accounts;
use crate::keeper::Keeper;
use crate::rules::View;

pub fn limit(keeper: &mut Keeper, account: usize, pages: usize) -> u32 {
    keeper.disk.limits[account] = pages as u16;
    count(keeper)
}

pub fn shift(keeper: &mut Keeper, giver: usize, taker: usize, pages: usize) -> u32 {
    keeper.disk.limits = accounts::moved(&keeper.disk.limits, giver, taker, pages);
    count(keeper)
}

fn count(keeper: &mut Keeper) -> u32 {
    keeper.memory.used = accounts::counts(&View::of(keeper), &keeper.disk.limits);
    0
}
