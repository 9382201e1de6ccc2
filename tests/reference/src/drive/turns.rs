//! How the turns of a run went, as the tables and answers show it.

use crate::event::Answer;
use crate::keeper::Keeper;
use crate::queue;
use crate::tables::{LIVE, READING, WRITING};
use std::collections::BTreeMap;

#[derive(Debug, Default)]
pub struct Turns {
    pub nobody: u64,
    pub served: u64,
    pub served_wired: u64,
    pub back_reading: u64,
    pub back_writing: u64,
    pub faulted_read: u64,
    pub faulted_copy: u64,
    pub faulted_zeros: u64,
    pub claimed_free: u64,
    pub claimed_write: u64,
    pub claim_refused: u64,
    /// By the number that sent the request away.
    pub away: BTreeMap<u32, u64>,
}

impl Turns {
    /// Notes a turn that questions 1 and 2 let through.
    pub fn note(&mut self, answer: &Answer, before: &Keeper, after: &Keeper) {
        if matches!(answer.refusal, 1 | 2) {
            return;
        }
        let Some(page) = queue::first(&before.memory.line) else {
            self.nobody += 1;
            return;
        };
        let frame = |keeper: &Keeper| keeper.frame_of(page).map(|frame| keeper.memory.frames[frame]);
        match (answer.refusal, answer.result, frame(before), frame(after)) {
            (0, 1, Some(was), _) if was.wired == 1 => self.served_wired += 1,
            (0, 1, ..) => self.served += 1,
            (0, 3.., ..) => *self.away.entry(answer.result).or_default() += 1,
            (0, _, Some(was), _) if was.transfer == READING => self.back_reading += 1,
            (0, _, Some(_), _) => self.back_writing += 1,
            (0, _, None, Some(is)) if is.transfer == READING => self.faulted_read += 1,
            (0, _, None, Some(_)) if before.holds(page, LIVE) => self.faulted_copy += 1,
            (0, _, None, Some(_)) => self.faulted_zeros += 1,
            (0, ..) if writes(after) > writes(before) => self.claimed_write += 1,
            (0, ..) => self.claimed_free += 1,
            _ => self.claim_refused += 1,
        }
    }

    /// Whether a case came fewer than ten times, or one of the numbers that send away never.
    pub fn rare(&self) -> bool {
        let all = [
            self.nobody,
            self.served,
            self.served_wired,
            self.back_reading,
            self.back_writing,
            self.faulted_read,
            self.faulted_copy,
            self.faulted_zeros,
            self.claimed_free,
            self.claimed_write,
            self.claim_refused,
        ];
        all.into_iter().any(|count| count < 10) || !self.away.keys().eq(&[4, 8, 19])
    }
}

fn writes(keeper: &Keeper) -> usize {
    keeper.memory.frames.iter().filter(|frame| frame.transfer == WRITING).count()
}
