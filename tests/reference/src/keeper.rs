//! The public calls over the lent tables: format, restart, apply, a list of requests, page look. Export and import stand in carry.rs.

use crate::event::{Answer, Event, Part, Request};
use crate::tables::{Disk, Memory, Sizes, LIVE};
use crate::{accounts, events, fit, questions, restart, rules};
use std::ops::Range;

/// Everything that a caller lends.
#[derive(Clone, Debug, Default, PartialEq, Eq)]
pub struct Keeper {
    pub sizes: Sizes,
    pub disk: Disk,
    pub memory: Memory,
}

impl Keeper {
    /// Tables of the right lengths, not yet formatted or restarted.
    pub fn lent(sizes: Sizes) -> Keeper {
        Keeper { sizes, disk: Disk::zeros(&sizes), memory: Memory::zeros(&sizes) }
    }

    /// Zeroes the disk part and stores the wanted parents, account 0's always as 0. Memory is not lent to it.
    pub fn format(&mut self, wanted: &[u16]) -> Answer {
        if !fit::disk_fits(&self.sizes, &self.disk) || wanted.len() != self.sizes.accounts {
            return Answer::refused(1);
        }
        if !rules::disk::lower(wanted) {
            return Answer::refused(3);
        }
        self.disk = Disk::zeros(&self.sizes);
        self.disk.parents[1..].copy_from_slice(&wanted[1..]);
        Answer::done(0)
    }

    /// Builds memory anew from the disk part alone, and stores the highest number where a slot has a higher one.
    pub fn restart(&mut self) -> Answer {
        if !fit::disk_fits(&self.sizes, &self.disk) || !fit::memory_fits(&self.sizes, &self.memory) {
            return Answer::refused(1);
        }
        if !rules::disk::kept(&self.sizes, &self.disk) {
            return Answer::refused(2);
        }
        self.disk.highest[0] = restart::highest(&self.disk);
        self.memory = restart::memory(&self.sizes, &self.disk);
        Answer::done(0)
    }

    /// Every other event. A kind that is no event gets 3, after 1 and 2.
    pub fn apply(&mut self, request: Request) -> Answer {
        let common = self.common();
        if common != 0 {
            return Answer::refused(common);
        }
        let Some(event) = Event::decode(&request) else {
            return Answer::refused(3);
        };
        match questions::refusal(self, event) {
            0 => Answer::done(events::carry_out(self, event)),
            number => Answer::refused(number),
        }
    }

    /// A list of requests, five numbers each: each is applied to what the one before it left, and its answer, two numbers,
    /// stands in its place. Up to the shorter list. Returns the last answer.
    pub fn apply_all(&mut self, requests: &[u32], answers: &mut [u32]) -> Answer {
        let mut last = Answer::done(0);
        for (request, answer) in requests.chunks_exact(5).zip(answers.chunks_exact_mut(2)) {
            last = self.apply(Request::of(request));
            answer.copy_from_slice(&[last.refusal, last.result]);
        }
        last
    }

    /// The frame's own part of the lent words; alters nothing.
    pub fn page_look(&self, slot: u32, page: u32) -> Part {
        let (slot, page) = (slot as usize, page as usize);
        let refusal = match self.common() {
            0 => questions::refusal(self, Event::Look { slot, page }),
            number => number,
        };
        if refusal != 0 {
            return Part { refusal, start: 0, count: 0 };
        }
        let frame = self.frame_of(self.flat(slot, page)).expect("question 13");
        Part { refusal: 0, start: frame * self.sizes.words, count: self.sizes.words }
    }

    /// Questions 1 and 2.
    pub fn common(&self) -> u32 {
        if !fit::disk_fits(&self.sizes, &self.disk) || !fit::memory_fits(&self.sizes, &self.memory) {
            1
        } else if !rules::kept(self) {
            2
        } else {
            0
        }
    }

    pub fn flat(&self, slot: usize, page: usize) -> usize {
        slot * self.sizes.pages + page
    }

    /// The flat numbers of a slot's pages.
    pub fn pages_of(&self, slot: usize) -> Range<usize> {
        self.flat(slot, 0)..self.flat(slot, self.sizes.pages)
    }

    /// The frame that a page is in.
    pub fn frame_of(&self, page: usize) -> Option<usize> {
        self.memory.frames.iter().position(|frame| frame.page as usize == page + 1)
    }

    /// The record that a page holds.
    pub fn record_of(&self, page: usize) -> Option<usize> {
        (self.memory.addresses[page] as usize).checked_sub(1)
    }

    /// Whether a page holds a record in this state.
    pub fn holds(&self, page: usize, state: u8) -> bool {
        self.record_of(page).is_some_and(|record| self.memory.states[record] == state)
    }

    /// Whether a page is charged: its address is live, or it is in a frame and modified.
    pub fn charged(&self, page: usize) -> bool {
        let woven = self.frame_of(page).is_some_and(|frame| self.memory.frames[frame].modified == 1);
        woven || self.holds(page, LIVE)
    }

    /// The account that pays for a slot's pages.
    pub fn payer(&self, slot: usize) -> usize {
        let Disk { accounts, limits, parents, .. } = &self.disk;
        accounts::payer(parents, limits, accounts[slot] as usize)
    }

    pub fn words_of_frame(&self, frame: usize) -> Range<usize> {
        frame * self.sizes.words..(frame + 1) * self.sizes.words
    }

    pub fn words_of_record(&self, record: usize) -> Range<usize> {
        record * self.sizes.words..(record + 1) * self.sizes.words
    }
}
