//! How often each kind was carried out, each refusal given, and each rule broken alone.

use super::act::{Call, Outcome};
use super::batch::Batches;
use super::bound::Bound;
use super::chips::Chips;
use super::choose::LARGE;
use super::given::Numbers;
use super::high::High;
use super::moves::Moves;
use super::turns::Turns;
use crate::event::Request;
use crate::events::pages::{free_records, neighbour};
use crate::keeper::Keeper;
use crate::rules;
use crate::tables::WRITING;
use std::collections::BTreeMap;
use std::fmt;

/// The kinds of request first, then the other calls.
pub const KINDS: [&str; 20] = [
    "create",
    "delete",
    "activate",
    "deactivate",
    "fault",
    "read",
    "write",
    "claim",
    "wire",
    "unwire",
    "truncate",
    "update",
    "page done",
    "map done",
    "limit",
    "join",
    "turn",
    "format",
    "restart",
    "page look",
];

/// How many of them are kinds of request.
pub const REQUESTS: usize = 17;

/// The number that a request of a kind has; 0 for the other calls.
pub fn tag(kind: usize) -> u32 {
    match kind {
        0..=14 => kind as u32 + 1,
        15..=16 => kind as u32 + 3,
        _ => 0,
    }
}

/// Move stands apart: the benchmark has the kinds above, and with one account it could make no move. So do export and import.
pub const MOVE: u32 = 17;
const APART: [&str; 3] = ["move", "export", "import"];

#[derive(Default)]
pub struct Counts {
    pub carried_out: BTreeMap<&'static str, u64>,
    pub refused: BTreeMap<u32, u64>,
    /// Rules of question 2 that stood alone between a damaged table and an answer other than 2.
    pub alone: BTreeMap<&'static str, u64>,
    pub calls: u64,
    pub cuts: u64,
    /// Cuts inside a create or an import, after one of its stores or more.
    pub inside: u64,
    pub taken: Taken,
    pub written: Written,
    pub batches: Batches,
    pub moves: Moves,
    pub turns: Turns,
    pub bound: Bound,
    pub high: High,
    pub numbers: Numbers,
    pub chips: Chips,
}

/// Records taken by faults, and among them: where a lower page of the design had a record, where a higher one had (the pages come out
/// of order), where two free records were equally near; and where at most three of 64 or more were free, and the one taken was more than
/// a word of the free map away.
#[derive(Debug, Default)]
pub struct Taken {
    pub all: u64,
    pub near: u64,
    pub out_of_order: u64,
    pub ties: u64,
    pub few_free: u64,
    pub far: u64,
}

impl Taken {
    /// Notes the records that a call gave to pages.
    fn note(&mut self, before: &Keeper, after: &Keeper) {
        let pages = 0..before.memory.addresses.len().min(after.memory.addresses.len());
        for page in
            pages.filter(|&page| before.memory.addresses[page] == 0 && after.memory.addresses[page] != 0)
        {
            let last = page - page % before.sizes.pages + before.sizes.pages;
            let free = free_records(before).count();
            self.all += 1;
            self.few_free += (before.sizes.records >= LARGE && free <= 3) as u64;
            self.out_of_order +=
                before.memory.addresses[page + 1..last].iter().any(|&address| address != 0) as u64;
            if let Some(near) = neighbour(before, page) {
                let distances: Vec<usize> =
                    free_records(before).map(|record| record.abs_diff(near)).collect();
                let least = distances.iter().min();
                self.near += 1;
                self.far += least.is_some_and(|&least| least > 32 && free <= 3) as u64;
                self.ties +=
                    (distances.iter().filter(|distance| Some(*distance) == least).count() == 2) as u64;
            }
        }
    }

    /// Whether faults on nearly full larger disks are too few to tell anything, near and far.
    pub fn never_full(&self) -> bool {
        self.few_free < 20 || self.far < 5
    }

    /// Each of the first three is at least one in fifty.
    pub fn rare(&self) -> bool {
        [self.near, self.out_of_order, self.ties].into_iter().any(|count| count * 50 < self.all)
    }
}

/// Reads and looks that were carried out, and failed writes; and among them those of a page whose write was under way, and those that
/// found used on, as a read had left it.
#[derive(Debug, Default)]
pub struct Written {
    pub reads: u64,
    pub reads_of_written: u64,
    pub looks: u64,
    pub looks_of_written: u64,
    pub failed: u64,
    pub failed_used: u64,
}

impl Written {
    fn note(&mut self, call: &Call, before: &Keeper) {
        let writing = |slot: u32, page: u32| {
            let frame = before.frame_of(before.flat(slot as usize, page as usize));
            frame.is_some_and(|frame| before.memory.frames[frame].transfer == WRITING) as u64
        };
        match *call {
            Call::Look { slot, page } => {
                self.looks += 1;
                self.looks_of_written += writing(slot, page);
            }
            Call::Apply(Request { kind: 6, first, second, .. }) => {
                self.reads += 1;
                self.reads_of_written += writing(first, second);
            }
            Call::Apply(Request { kind: 13, first, second: 0, .. }) => {
                let frame = &before.memory.frames[first as usize];
                self.failed += (frame.transfer == WRITING) as u64;
                self.failed_used += (frame.transfer == WRITING && frame.used == 1) as u64;
            }
            _ => {}
        }
    }

    /// Each of them is at least one in fifty.
    pub fn rare(&self) -> bool {
        let among = [(self.reads_of_written, self.reads), (self.looks_of_written, self.looks), (self.failed_used, self.failed)];
        among.into_iter().any(|(count, all)| count * 50 < all || count == 0)
    }
}

/// A call's kind; of a request that is no event: none of them.
fn name(call: &Call) -> &'static str {
    match call {
        Call::Format { .. } => KINDS[REQUESTS],
        Call::Restart => KINDS[REQUESTS + 1],
        Call::Look { .. } => KINDS[REQUESTS + 2],
        Call::Apply(Request { kind: MOVE, .. }) => APART[0],
        Call::Export { .. } => APART[1],
        Call::Import { .. } => APART[2],
        Call::Apply(request) => (0..REQUESTS).find(|&kind| tag(kind) == request.kind).map_or("no event", |kind| KINDS[kind]),
    }
}

impl Counts {
    fn count(&mut self, call: &Call, outcome: &Outcome) {
        self.calls += 1;
        match outcome.refusal() {
            0 => *self.carried_out.entry(name(call)).or_default() += 1,
            number => *self.refused.entry(number).or_default() += 1,
        }
    }

    /// Counts a call, the record that a fault took, and what was asked of pages being written.
    pub fn count_call(&mut self, call: &Call, outcome: &Outcome, before: &Keeper, after: &Keeper) {
        self.count(call, outcome);
        if matches!(call, Call::Apply(Request { kind: 5 | 19, .. })) && outcome.refusal() == 0 {
            self.taken.note(before, after);
        }
        if outcome.refusal() == 0 {
            self.written.note(call, before);
            self.chips.note(call, before, after);
        }
        self.moves.note(call, outcome.refusal(), before, after);
        self.high.note(call, name(call), outcome.refusal(), before);
        self.numbers.note(call, outcome.refusal(), before, after);
        if let (Call::Apply(Request { kind: 19, .. }), Outcome::Answer(answer)) = (call, outcome) {
            self.turns.note(answer, before, after);
        }
    }

    /// Kinds never carried out.
    pub fn kinds_missing(&self) -> Vec<&'static str> {
        let all = KINDS.into_iter().chain(APART);
        all.filter(|kind| !self.carried_out.contains_key(kind)).collect()
    }

    /// How often each rule must have stood alone: 50 times in a run of 200,000 calls.
    fn floor(&self) -> u64 {
        (self.calls / 4_000).max(1)
    }

    /// Rules that stood alone less often, and how often.
    pub fn seldom_alone(&self) -> Vec<(&'static str, u64)> {
        let all = rules::names().map(|rule| (rule, self.alone.get(rule).copied().unwrap_or(0)));
        all.filter(|&(_, count)| count < self.floor()).collect()
    }

    /// Refusals of 1 to 22, 25 to 27, and 29 to 33, never given.
    pub fn refusals_missing(&self) -> Vec<u32> {
        (1..=22).chain(25..=27).chain(29..=33).filter(|number| !self.refused.contains_key(number)).collect()
    }
}

impl fmt::Display for Counts {
    fn fmt(&self, out: &mut fmt::Formatter) -> fmt::Result {
        writeln!(out, "{} calls, {} cuts, {} of them inside a create or an import", self.calls, self.cuts, self.inside)?;
        writeln!(out, "{:?}", self.taken)?;
        writeln!(out, "{:?}", self.written)?;
        writeln!(out, "{:?}", self.batches)?;
        writeln!(out, "{:?}", self.moves)?;
        writeln!(out, "{:?}", self.turns)?;
        writeln!(out, "{:?}", self.bound)?;
        writeln!(out, "{:?}", self.high)?;
        writeln!(out, "{:?}", self.numbers)?;
        writeln!(out, "{:?}", self.chips)?;
        writeln!(out, "carried out: {:?}", self.carried_out)?;
        writeln!(out, "refused: {:?}", self.refused)?;
        writeln!(out, "rules that alone refused a damaged table, each at least {} times:", self.floor())?;
        self.alone.iter().try_for_each(|(rule, count)| writeln!(out, "  {count:>6} {rule}"))
    }
}
