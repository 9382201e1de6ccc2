//! The bound on waiting: from tables that pass 1 and 2 and have a frame that is not wired, only turns and good done reports happen, and
//! no transfer is under way as a turn starts. Then the request in place k leaves within 3 k turns, and no turn is refused.

use super::random::Random;
use super::Subject;
use crate::event::{Answer, Request};
use crate::keeper::Keeper;
use crate::tables::NO_TRANSFER;
use crate::{queue, rules};

/// So many runs were made, from so many lines of 32; so many requests left along them, served or sent away, and so many in the last turn
/// that the bound gives them; so many runs from tables that were disturbed first.
#[derive(Debug, Default)]
pub struct Bound {
    pub runs: u64,
    pub full: u64,
    pub disturbed: u64,
    pub served: u64,
    pub sent_away: u64,
    pub last_turn: u64,
}

impl Bound {
    /// Whether one of them is too rare to tell anything.
    pub fn rare(&self) -> bool {
        [self.full, self.disturbed, self.served, self.sent_away, self.last_turn]
            .into_iter()
            .any(|count| count < 50)
    }
}

/// One run of both subjects over copies of the tables.
pub fn run(subjects: &[Subject; 2], sound: &Keeper, seed: u64, bound: &mut Bound) -> Result<(), String> {
    let mut random = Random::new(seed);
    let Some((start, disturbed)) = start(sound, &mut random) else {
        return Ok(());
    };
    let wait: Vec<u16> = start.memory.line.iter().copied().take_while(|&entry| entry != 0).collect();
    bound.runs += 1;
    bound.full += (wait.len() == start.memory.line.len()) as u64;
    bound.disturbed += disturbed as u64;
    let mut board = Board { subjects, keepers: [start.clone(), start] };
    let (mut turns, mut gone) = (0, 0);
    while gone < wait.len() {
        if turns == 3 * (gone + 1) {
            return Err(format!(
                "the bound: request {} of {} waits after {turns} turns",
                gone + 1,
                wait.len()
            ));
        }
        board.reports(&mut random)?;
        let first = board.keepers[0].memory.line[0];
        let answer = board.apply(Request { kind: 19, ..Request::default() })?;
        turns += 1;
        if answer.refusal != 0 {
            return Err(format!("the bound: turn {turns} is refused with {}", answer.refusal));
        }
        if answer.result != 0 {
            if first != wait[gone] {
                return Err(format!("the bound: page {first} leaves, page {} is first", wait[gone]));
            }
            gone += 1;
            bound.last_turn += (turns == 3 * gone) as u64;
            bound.served += (answer.result == 1) as u64;
            bound.sent_away += (answer.result >= 3) as u64;
        }
    }
    Ok(())
}

/// Tables with a line and a frame that is not wired, if they can be made so: more requests join now and then, and now and then they are
/// disturbed.
fn start(sound: &Keeper, random: &mut Random) -> Option<(Keeper, bool)> {
    let mut keeper = sound.clone();
    if random.percent(30) {
        disturb(&mut keeper, random);
    }
    let disturbed = keeper != *sound;
    let more = random.pick(&[0, 1, 2, 5, 32]);
    for _ in 0..more {
        let (slot, page) = (random.below(keeper.sizes.slots) as u32, random.below(keeper.sizes.pages) as u32);
        keeper.apply(Request { kind: 18, first: slot, second: page, third: 0, fourth: 0 });
    }
    let unwired = keeper.memory.frames.iter().any(|frame| frame.wired == 0);
    let waits = queue::first(&keeper.memory.line).is_some();
    (unwired && waits && rules::kept(&keeper)).then_some((keeper, disturbed))
}

/// What question 2 does not see: used and initial switches, the order of the queues, the hand.
fn disturb(keeper: &mut Keeper, random: &mut Random) {
    let memory = &mut keeper.memory;
    for frame in memory.frames.iter_mut().filter(|frame| frame.page != 0) {
        (frame.used, frame.initial) = (random.below(2) as u8, random.below(2) as u8);
    }
    for queue in [&mut memory.free_queue, &mut memory.removal_list] {
        for last in 1..queue::length(queue) {
            queue.swap(last, random.below(last + 1));
        }
    }
    memory.pool.hand = random.below(keeper.sizes.records) as u32;
}

struct Board<'a> {
    subjects: &'a [Subject; 2],
    keepers: [Keeper; 2],
}

impl Board<'_> {
    /// Both subjects answer and leave the same.
    fn apply(&mut self, request: Request) -> Result<Answer, String> {
        let [one, other] = [0, 1].map(|side| (self.subjects[side].apply)(&mut self.keepers[side], request));
        if one != other || self.keepers[0] != self.keepers[1] {
            return Err(format!("the bound: the subjects differ at {request:?}: {one:?} and {other:?}"));
        }
        Ok(one)
    }

    /// Good done reports of all transfers and some updates, in any order; now and then one of nothing, which is refused.
    fn reports(&mut self, random: &mut Random) -> Result<(), String> {
        let sizes = self.keepers[0].sizes;
        for start in [random.below(sizes.frames), 0] {
            for frame in start..sizes.frames {
                let moving = self.keepers[0].memory.frames[frame].transfer != NO_TRANSFER;
                if moving || random.percent(1) {
                    self.apply(Request { kind: 13, first: frame as u32, second: 1, ..Request::default() })?;
                }
            }
        }
        for slot in 0..sizes.slots {
            if self.keepers[0].memory.updating[slot] == 1 && random.percent(20) {
                self.apply(Request { kind: 14, first: slot as u32, second: 1, ..Request::default() })?;
            }
        }
        Ok(())
    }
}
