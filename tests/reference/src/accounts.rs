//! Accounts: who pays, what each account pays for, and what a move would leave.

use crate::rules::View;
use crate::tables::LIVE;

/// Who pays for an account's designs: "An account with limit 0 passes its charges up to its parent, and so on until one with a limit
/// above 0, or account 0, pays." A parent that is not lower, which question 2 refuses, ends it too.
pub fn payer(parents: &[u16], limits: &[u16], account: usize) -> usize {
    let parent = parents[account] as usize;
    if account == 0 || limits[account] > 0 || parent >= account {
        account
    } else {
        payer(parents, limits, parent)
    }
}

/// Each account's used count by these limits, worked out afresh: charged pages of active designs, and map entries above 0 of inactive
/// ones, over all designs that it pays for.
pub fn counts(view: &View, limits: &[u16]) -> Vec<u16> {
    let (disk, memory, pages) = (view.disk, view.memory, view.sizes.pages);
    let mut counts = vec![0; view.sizes.accounts];
    for slot in 0..view.sizes.slots {
        let all = slot * pages..(slot + 1) * pages;
        let used = match memory.active[slot] {
            1 => all.filter(|&page| charged(view, page)).count(),
            _ => disk.maps[all].iter().filter(|&&entry| entry != 0).count(),
        };
        counts[payer(&disk.parents, limits, disk.accounts[slot] as usize)] += used as u16;
    }
    counts
}

/// Whether a page of an active design is charged: its address is live, or it is in a frame and modified.
fn charged(view: &View, page: usize) -> bool {
    let address = view.memory.addresses[page] as usize;
    let live = address != 0 && view.memory.states[address - 1] == LIVE;
    let frame = view.frame[page] as usize;
    live || frame != 0 && view.memory.frames[frame - 1].modified == 1
}

/// Whether one of two accounts is the other's parent: the child is above 0, so account 0 is not its own.
pub fn kin(parents: &[u16], one: usize, other: usize) -> bool {
    let is_parent = |parent: usize, child: usize| child > 0 && parents[child] as usize == parent;
    is_parent(one, other) || is_parent(other, one)
}

/// The limits once so many pages of limit are moved.
pub fn moved(limits: &[u16], giver: usize, taker: usize, pages: usize) -> Vec<u16> {
    let mut limits = limits.to_vec();
    limits[giver] -= pages as u16;
    limits[taker] += pages as u16;
    limits
}
