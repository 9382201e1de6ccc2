//! The next act of a list: mostly an event that the tables allow, sometimes anything at all.

use super::act::{Act, Before, Call};
use super::aims::{self, Aim};
use super::counts::{tag, MOVE, REQUESTS};
use super::random::Random;
use super::shadow::marked;
use super::{carried, given, trees};
use crate::keeper::Keeper;
use crate::questions::HIGH;
use crate::tables::{Sizes, NO_TRANSFER, WRITING};

/// From so many records on, half of the lists start from a disk that is nearly full.
pub const LARGE: usize = 64;

pub struct Chooser {
    pub random: Random,
    /// Calls that come first: format, restart, limits.
    first: Vec<Call>,
    aim: Option<Aim>,
    /// After a cut, until the restart.
    lost: bool,
    numbers: u32,
    /// The list starts from a disk that is nearly full, and not with a format.
    pub full: bool,
    /// How often an event is one of the waiting line, in a hundred, and how often such a one joins it.
    line: usize,
    joins: usize,
}

impl Chooser {
    pub fn new(seed: u64, sizes: &Sizes) -> Chooser {
        let mut random = Random::new(seed);
        let mut first = Vec::new();
        let full = sizes.records >= LARGE && random.percent(50);
        for account in 0..sizes.accounts {
            let pages = match full {
                true => 65_535,
                // account 0 pays for all that have none
                false if account == 0 => random.pick(&[0, 2, sizes.frames, sizes.all_pages(), 65_535]),
                false => random.pick(&[0, 0, 1, 2, sizes.frames, sizes.all_pages(), 65_535]),
            };
            first.push(Call::request(0x0F, [account, pages, 0, 0]));
        }
        first.push(Call::Restart);
        if !full {
            let parents = trees::tree(sizes.accounts, &mut random);
            first.push(Call::Format { wanted: trees::Wanted::of(&parents) });
        }
        let (line, joins) = (random.pick(&[0, 5, 20, 40]), random.pick(&[20, 40, 50, 90]));
        Chooser { random, first, aim: None, lost: false, numbers: 0, full, line, joins }
    }

    /// The next act; a write's value is marked with the number of the design that it is for.
    pub fn next(&mut self, keeper: &Keeper) -> Act {
        let mut act = self.unmarked(keeper);
        if let Call::Apply(request) = &mut act.call {
            let number = keeper.disk.numbers.get(request.first as usize);
            if let (0x07, Some(&number)) = (request.kind, number) {
                request.fourth = marked(request.fourth, number);
            }
        }
        act
    }

    fn unmarked(&mut self, keeper: &Keeper) -> Act {
        if let Some(call) = self.first.pop() {
            return Act { before: Before::Nothing, call };
        }
        if self.lost {
            return self.after_cut(keeper);
        }
        let seed = self.random.next();
        let (before, call) = match self.random.below(100) {
            0..=5 => (Before::Damage(seed), self.any_call(keeper)),
            6..=7 => (Before::Misfit(seed), self.any_call(keeper)),
            8..=11 => (Before::Nothing, self.any_values(keeper)),
            12..=18 => (Before::Nothing, self.in_range(keeper)),
            19..=20 => (Before::Nothing, self.look(keeper)),
            21 if self.random.percent(60) => {
                self.lost = true;
                let before = if self.random.percent(60) { Before::CutInside(seed) } else { Before::Cut(seed) };
                (before, self.in_range(keeper))
            }
            22 if self.random.percent(20) => (self.age(), Call::Restart),
            _ => (Before::Nothing, self.sensible(keeper)),
        };
        Act { before, call }
    }

    /// The restart, sometimes after calls that find the memory lost.
    fn after_cut(&mut self, keeper: &Keeper) -> Act {
        if self.random.percent(20) {
            return Act { before: Before::Nothing, call: self.in_range(keeper) };
        }
        self.lost = false;
        self.aim = None;
        Act { before: self.age(), call: Call::Restart }
    }

    /// Before every other restart.
    fn age(&mut self) -> Before {
        let seed = self.random.next();
        if self.random.percent(50) { Before::Age(seed) } else { Before::Nothing }
    }

    fn any_call(&mut self, keeper: &Keeper) -> Call {
        match self.random.below(12) {
            10 => self.import(keeper),
            11 => carried::export(keeper, &mut self.random),
            0 => Call::Format { wanted: trees::wanted(keeper.sizes.accounts, &mut self.random) },
            1..=3 => Call::Restart,
            4 => self.look(keeper),
            5..=6 => self.any_values(keeper),
            _ => self.sensible(keeper),
        }
    }

    /// Any kind, values in and out of range.
    fn any_values(&mut self, keeper: &Keeper) -> Call {
        let sizes = keeper.sizes;
        let near = [sizes.words, sizes.frames, sizes.slots, sizes.pages, sizes.accounts, sizes.chip];
        let values = [(); 4].map(|_| match self.random.below(6) {
            0..=2 => self.random.below(3),
            3 => self.random.pick(&near),
            4 => self.random.pick(&near) + 1,
            _ => self.random.pick(&[65_535, 65_536, HIGH as usize - 1, HIGH as usize, u32::MAX as usize]),
        });
        Call::request(self.random.below(22) as u32, values)
    }

    /// Any event, values in range.
    fn in_range(&mut self, keeper: &Keeper) -> Call {
        let sizes = keeper.sizes;
        let random = &mut self.random;
        let slot = random.below(sizes.slots);
        let page = random.below(sizes.pages);
        let word = random.below(sizes.words);
        let kind = match random.below(REQUESTS + 1) {
            REQUESTS => MOVE,
            kind => tag(kind),
        };
        let values = match kind {
            0x01 => [slot, random.below(sizes.accounts), random.up_to(sizes.slots + 2), 0],
            0x0B => [slot, random.below(sizes.pages + 1), 0, 0],
            0x0D => [random.below(sizes.frames), random.below(2), 0, 0],
            0x0E => [slot, random.below(2), 0, 0],
            0x0F => [random.below(sizes.accounts), random.below(sizes.all_pages() + 2), 0, 0],
            MOVE => [random.below(sizes.accounts), random.below(sizes.accounts), random.below(4), 0],
            _ => [slot, page, word, random.below(3)],
        };
        Call::request(kind, values)
    }

    fn look(&mut self, keeper: &Keeper) -> Call {
        let sizes = keeper.sizes;
        let (slot, page) = match self.shown(keeper) {
            Some((slot, page)) if self.random.percent(80) => (slot, page),
            _ => (self.random.below(sizes.slots + 1), self.random.below(sizes.pages + 1)),
        };
        Call::Look { slot: slot as u32, page: page as u32 }
    }

    /// A page in a frame with no transfer: not wired (0), wired (1), either (2).
    fn in_service(&mut self, keeper: &Keeper, wired: u8) -> Option<(usize, usize)> {
        let frames = &keeper.memory.frames;
        let fits = |number: usize| {
            let frame = &frames[number];
            frame.page != 0 && frame.transfer == NO_TRANSFER && (wired == 2 || frame.wired == wired)
        };
        let frame = self.random.find(frames.len(), fits)?;
        let page = frames[frame].page as usize - 1;
        Some((page / keeper.sizes.pages, page % keeper.sizes.pages))
    }

    /// A page for a read or a look: one that is being written, if there is one, every other time.
    fn shown(&mut self, keeper: &Keeper) -> Option<(usize, usize)> {
        let frames = &keeper.memory.frames;
        let written = self.random.find(frames.len(), |number| frames[number].transfer == WRITING);
        match written {
            Some(frame) if self.random.percent(50) => {
                let page = frames[frame].page as usize - 1;
                Some((page / keeper.sizes.pages, page % keeper.sizes.pages))
            }
            _ => self.in_service(keeper, 2),
        }
    }

    /// An event that the tables allow; any event if a few tries find none.
    fn sensible(&mut self, keeper: &Keeper) -> Call {
        if let Some(call) = self.about_line(keeper) {
            return call;
        }
        if let Some(call) = self.towards_aim(keeper) {
            return call;
        }
        for _ in 0..5 {
            let found = match self.random.below(45) {
                0..=5 => self.about_designs(keeper),
                40..=41 => self.shift(keeper),
                42..=43 => Some(self.import(keeper)),
                44 => Some(carried::export(keeper, &mut self.random)),
                6..=12 => self.fault(keeper),
                13..=23 => self.touch(keeper),
                24..=29 => self.claim(keeper),
                30..=31 => self.about_slots(keeper),
                32..=36 => self.page_done(keeper),
                _ => self.map_done(keeper),
            };
            if let Some(call) = found {
                return call;
            }
        }
        self.in_range(keeper)
    }

    /// A join or a turn, as often as this list wants them. Pages of active designs join, pages in frames, those that wait already, any.
    fn about_line(&mut self, keeper: &Keeper) -> Option<Call> {
        if !self.random.percent(self.line) {
            return None;
        }
        if !self.random.percent(self.joins) {
            return Some(Call::request(19, [0; 4]));
        }
        let memory = &keeper.memory;
        let page = match self.random.below(8) {
            0 => memory.line[0],
            1..=2 => self.random.pick(&memory.frames).page,
            3..=6 => {
                let slot = self.random.find(keeper.sizes.slots, |slot| memory.active[slot] == 1)?;
                (keeper.flat(slot, self.random.below(keeper.sizes.pages)) + 1) as u16
            }
            _ => self.random.up_to(keeper.sizes.all_pages()) as u16,
        };
        let page = usize::from(page).checked_sub(1)?;
        Some(Call::request(18, [page / keeper.sizes.pages, page % keeper.sizes.pages, 0, 0]))
    }

    fn claim(&mut self, keeper: &Keeper) -> Option<Call> {
        (keeper.memory.removal_list[0] != 0).then(|| Call::request(0x08, [0; 4]))
    }

    fn towards_aim(&mut self, keeper: &Keeper) -> Option<Call> {
        if let Some(aim) = &mut self.aim {
            aim.steps += 1;
            let step = aims::step(keeper, aim);
            if step.is_none() || aim.steps > 100 {
                self.aim = None;
            }
            return if self.random.percent(90) { step } else { None };
        }
        if self.random.percent(2) {
            let slot = self.random.find(keeper.sizes.slots, |slot| keeper.memory.active[slot] == 1)?;
            self.aim = Some(Aim { slot, delete: self.random.percent(50), steps: 0 });
        }
        None
    }

    fn about_designs(&mut self, keeper: &Keeper) -> Option<Call> {
        let sizes = keeper.sizes;
        match self.random.below(5) {
            0 => {
                let (account, most) = (self.random.below(sizes.accounts), sizes.all_pages() + 1);
                let pages = if self.random.percent(20) { 0 } else { self.random.below(most) };
                Some(Call::request(0x0F, [account, pages, 0, 0]))
            }
            1 => {
                let slot = self.random.find(sizes.slots, |slot| keeper.disk.numbers[slot] == 0)?;
                self.numbers = given::above(keeper, self.numbers);
                let number = given::drawn(&mut self.random, keeper, self.numbers);
                Some(Call::request(0x01, [slot, self.random.below(sizes.accounts), number as usize, 0]))
            }
            _ => {
                let waits = |slot| keeper.disk.numbers[slot] != 0 && keeper.memory.active[slot] == 0;
                let slot = self.random.find(sizes.slots, waits)?;
                Some(Call::request(0x03, [slot, 0, 0, 0]))
            }
        }
    }

    fn import(&mut self, keeper: &Keeper) -> Call {
        self.numbers = given::above(keeper, self.numbers);
        carried::import(keeper, &mut self.random, self.numbers)
    }

    /// Between an account and its parent, either way: one page, all that the giver has, all that it does not use, or any number.
    fn shift(&mut self, keeper: &Keeper) -> Option<Call> {
        let disk = &keeper.disk;
        let child = self.random.find(keeper.sizes.accounts, |account| account > 0)?;
        let parent = disk.parents[child] as usize;
        let (giver, taker) = if self.random.percent(50) { (child, parent) } else { (parent, child) };
        let (limit, used) = (disk.limits[giver] as usize, keeper.memory.used[giver] as usize);
        let pages = match self.random.below(5) {
            0 => 1,
            1 => limit,
            2 => limit.saturating_sub(used),
            3 => self.random.below(limit + 1),
            _ => self.random.below(limit.min(keeper.sizes.all_pages()) + 2),
        };
        Some(Call::request(MOVE, [giver, taker, pages, 0]))
    }

    /// Truncate or update.
    fn about_slots(&mut self, keeper: &Keeper) -> Option<Call> {
        let slot = self.random.find(keeper.sizes.slots, |slot| keeper.memory.active[slot] == 1)?;
        let count = self.random.below(keeper.sizes.pages + 1);
        Some(if self.random.percent(30) {
            Call::request(0x0B, [slot, count, 0, 0])
        } else {
            Call::request(0x0C, [slot, 0, 0, 0])
        })
    }

    fn fault(&mut self, keeper: &Keeper) -> Option<Call> {
        let slot = self.random.find(keeper.sizes.slots, |slot| keeper.memory.active[slot] == 1)?;
        let out = |page| keeper.frame_of(keeper.flat(slot, page)).is_none();
        let page = self.random.find(keeper.sizes.pages, out)?;
        Some(Call::request(0x05, [slot, page, 0, 0]))
    }

    /// Read, write, wire or unwire.
    fn touch(&mut self, keeper: &Keeper) -> Option<Call> {
        let kind = self.random.pick(&[0x06, 0x06, 0x07, 0x07, 0x07, 0x07, 0x09, 0x0A]);
        let (slot, page) = match kind {
            0x06 => self.shown(keeper)?,
            0x07 => self.in_service(keeper, 2)?,
            0x09 => self.in_service(keeper, 0)?,
            _ => self.in_service(keeper, 1)?,
        };
        let value = self.random.pick(&[0, 0, 1, 2, u32::MAX as usize]);
        Some(Call::request(kind, [slot, page, self.random.below(keeper.sizes.words), value]))
    }

    fn page_done(&mut self, keeper: &Keeper) -> Option<Call> {
        let frames = &keeper.memory.frames;
        let frame = self.random.find(frames.len(), |frame| frames[frame].transfer != NO_TRANSFER)?;
        Some(Call::request(0x0D, [frame, self.random.percent(80) as usize, 0, 0]))
    }

    fn map_done(&mut self, keeper: &Keeper) -> Option<Call> {
        let slot = self.random.find(keeper.sizes.slots, |slot| keeper.memory.updating[slot] == 1)?;
        Some(Call::request(0x0E, [slot, self.random.percent(80) as usize, 0, 0]))
    }
}
