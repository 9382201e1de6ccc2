//! What was seen of limits, moves and who pays: so that a run that tells nothing of them fails.

use super::act::Call;
use crate::accounts::{kin, payer};
use crate::event::Request;
use crate::keeper::Keeper;

/// Moves carried out, from a child and to a child, and among all of them those that changed who pays, with a used count in step; limits that
/// did; writes refused by 18 and writes charged whose payer is another account, and one that is neither the account nor its parent; moves
/// refused by 25 of kin and of others; moves refused by 26, and among them those of an account that was over its limit before.
#[derive(Debug, Default)]
pub struct Moves {
    pub up: u64,
    pub down: u64,
    pub new_payer: u64,
    pub new_counts: u64,
    pub limits_new_counts: u64,
    pub refused_passed_up: u64,
    pub charged_passed_up: u64,
    pub charged_farther: u64,
    pub no_kin: u64,
    pub kin_refused: u64,
    pub over: u64,
    pub over_before: u64,
}

impl Moves {
    pub fn note(&mut self, call: &Call, refusal: u32, before: &Keeper, after: &Keeper) {
        match *call {
            Call::Apply(Request { kind: 17, first, second, .. }) => {
                self.note_move([first as usize, second as usize], refusal, before, after)
            }
            Call::Apply(Request { kind: 15, .. }) if refusal == 0 => {
                self.limits_new_counts += (before.memory.used != after.memory.used) as u64;
            }
            Call::Apply(Request { kind: 7, first, .. }) if refusal == 0 || refusal == 18 => {
                self.note_write(first as usize, refusal, before, after);
            }
            _ => {}
        }
    }

    fn note_move(&mut self, [giver, taker]: [usize; 2], refusal: u32, before: &Keeper, after: &Keeper) {
        let disk = &before.disk;
        match refusal {
            0 => {
                let payers = |keeper: &Keeper| {
                    (0..keeper.sizes.slots).map(|slot| keeper.payer(slot)).collect::<Vec<usize>>()
                };
                self.up += (giver > taker) as u64;
                self.down += (giver < taker) as u64;
                self.new_payer += (payers(before) != payers(after)) as u64;
                self.new_counts += (before.memory.used != after.memory.used) as u64;
            }
            25 if kin(&disk.parents, giver, taker) => self.kin_refused += 1,
            25 => self.no_kin += 1,
            26 => {
                self.over += 1;
                let over = |account: usize| before.memory.used[account] > disk.limits[account];
                self.over_before += (0..before.sizes.accounts).any(over) as u64;
            }
            _ => {}
        }
    }

    fn note_write(&mut self, slot: usize, refusal: u32, before: &Keeper, after: &Keeper) {
        let disk = &before.disk;
        let account = disk.accounts[slot] as usize;
        let pays = payer(&disk.parents, &disk.limits, account);
        if pays == account {
            return;
        }
        if refusal == 18 {
            self.refused_passed_up += 1;
        } else if before.memory.used != after.memory.used {
            self.charged_passed_up += 1;
            self.charged_farther += (pays != disk.parents[account] as usize) as u64;
        }
    }

    /// Whether one of them was seen fewer than so many times.
    pub fn rarer_than(&self, least: u64) -> bool {
        let all = [
            self.up,
            self.down,
            self.new_payer,
            self.new_counts,
            self.limits_new_counts,
            self.refused_passed_up,
            self.charged_passed_up,
            self.charged_farther,
            self.no_kin,
            self.kin_refused,
            self.over,
            self.over_before,
        ];
        all.into_iter().any(|count| count < least)
    }
}
