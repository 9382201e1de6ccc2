//! What each page of an active design must read as, kept apart from the tables: its words when activated, and
//! then what was written or truncated. Words are marked with their design's number, so that none strays.

use super::act::{Act, Before, Call, Outcome};
use super::given::Given;
use crate::event::Event;
use crate::keeper::Keeper;

/// The words of each flat page, none while its slot is inactive; and the numbers that were given.
pub struct Shadow {
    pages: Vec<Option<Vec<u32>>>,
    given: Given,
}

/// A value that carries the design's number in its high half; 0 stays 0.
pub fn marked(value: u32, number: u32) -> u32 {
    if value == 0 {
        0
    } else {
        number << 16 | value & 0xFFFF
    }
}

fn is_marked(word: u32, number: u32) -> bool {
    word == 0 || word >> 16 == number & 0xFFFF
}

impl Shadow {
    pub fn new(keeper: &Keeper) -> Shadow {
        Shadow { pages: vec![None; keeper.sizes.all_pages()], given: Given::of(keeper) }
    }

    /// Follows one call that was made on sound tables.
    pub fn follow(&mut self, act: &Act, after: &Keeper, outcome: &Outcome) -> Result<(), String> {
        if matches!(act.before, Before::Cut(_) | Before::CutInside(_)) {
            self.pages.fill(None);
        }
        self.given.follow(act, after, outcome)?;
        if outcome.refusal() != 0 {
            return Ok(());
        }
        match (act.call, outcome) {
            (Call::Format { .. } | Call::Restart, _) => self.pages.fill(None),
            (Call::Look { slot, page }, Outcome::Part(part)) => {
                let words = &after.memory.frame_words[part.start..part.start + part.count];
                return self.same(after.flat(slot as usize, page as usize), |own| own == words);
            }
            (Call::Apply(request), Outcome::Answer(answer)) => {
                let event = Event::decode(&request).ok_or("an unknown kind was carried out")?;
                return self.event(event, after, answer.result);
            }
            _ => {}
        }
        Ok(())
    }

    fn event(&mut self, event: Event, after: &Keeper, result: u32) -> Result<(), String> {
        match event {
            Event::Activate { slot } => self.activate(after, slot)?,
            Event::Deactivate { slot } => self.pages[after.pages_of(slot)].fill(None),
            Event::Read { slot, page, word } => {
                self.same(after.flat(slot, page), |own| own[word] == result)?;
            }
            Event::Write { slot, page, word, value } => {
                if let Some(own) = &mut self.pages[after.flat(slot, page)] {
                    own[word] = value;
                }
            }
            Event::Truncate { slot, count } => {
                for own in self.pages[after.pages_of(slot)].iter_mut().skip(count).flatten() {
                    own.fill(0);
                }
            }
            _ => {}
        }
        Ok(())
    }

    /// A listed page reads as its record, every other one as zeros.
    fn activate(&mut self, after: &Keeper, slot: usize) -> Result<(), String> {
        let number = after.disk.numbers[slot];
        for page in after.pages_of(slot) {
            let words = match after.disk.maps[page] {
                0 => vec![0; after.sizes.words],
                entry => after.disk.records[after.words_of_record(entry as usize - 1)].to_vec(),
            };
            if !words.iter().all(|&word| is_marked(word, number)) {
                return Err(format!("page {page} of design {number} has another design's words"));
            }
            self.pages[page] = Some(words);
        }
        Ok(())
    }

    fn same(&self, page: usize, holds: impl Fn(&[u32]) -> bool) -> Result<(), String> {
        match &self.pages[page] {
            Some(own) if !holds(own) => Err(format!("page {page} does not read as it was written")),
            _ => Ok(()),
        }
    }
}
