//! One thing that a list does, and what came of it.

use super::trees::Wanted;
use super::{sheets, Subject};
use crate::event::{Answer, Event, Part, Request};
use crate::keeper::Keeper;

/// A public call.
#[derive(Clone, Copy, Debug)]
pub enum Call {
    Format { wanted: Wanted },
    Restart,
    Apply(Request),
    Look { slot: u32, page: u32 },
    /// The buffer is so long.
    Export { slot: usize, room: usize },
    /// The seed says which sheet.
    Import { slot: usize, account: usize, number: u32, sheet: u64 },
}

/// What is done to the lent tables before the call. Seeds say how, so that both subjects get the same.
#[derive(Clone, Copy, Debug)]
pub enum Before {
    Nothing,
    /// Power fails: what is under way lands or not, memory is lost. It stays so.
    Cut(u64),
    /// It fails inside a create or an import, before its last store, if the tables allow one. It stays so.
    CutInside(u64),
    /// Designs get higher numbers than a create or an import takes, and the highest is lost, as on a pack of an older board. It stays so.
    Age(u64),
    /// Cells are changed. Undone after the call.
    Damage(u64),
    /// A table or a size is too long or short. Undone after the call.
    Misfit(u64),
}

#[derive(Clone, Copy, Debug)]
pub struct Act {
    pub before: Before,
    pub call: Call,
}

#[derive(Clone, Debug, PartialEq, Eq)]
pub enum Outcome {
    Answer(Answer),
    Part(Part),
    /// An export, and its whole buffer.
    Sheet(Answer, Vec<u8>),
}

impl Outcome {
    pub fn refusal(&self) -> u32 {
        match self {
            Outcome::Answer(answer) | Outcome::Sheet(answer, _) => answer.refusal,
            Outcome::Part(part) => part.refusal,
        }
    }
}

/// A buffer for an export, as it is lent.
pub fn buffer(room: usize) -> Vec<u8> {
    (0..room).map(|at| 0xA5 ^ at as u8).collect()
}

impl Call {
    pub fn request(kind: u32, values: [usize; 4]) -> Call {
        let [first, second, third, fourth] = values.map(|value| value as u32);
        Call::Apply(Request { kind, first, second, third, fourth })
    }

    /// The event that it asks for, if it is one.
    pub fn event(&self) -> Option<Event> {
        match *self {
            Call::Apply(request) => Event::decode(&request),
            Call::Look { slot, page } => Some(Event::Look { slot: slot as usize, page: page as usize }),
            Call::Export { slot, .. } => Some(Event::Export { slot }),
            Call::Import { slot, account, number, .. } => Some(Event::Import { slot, account, number }),
            Call::Format { .. } | Call::Restart => None,
        }
    }

    pub fn make(&self, subject: &Subject, keeper: &mut Keeper) -> Outcome {
        match *self {
            Call::Format { wanted } => Outcome::Answer((subject.format)(keeper, wanted.parents())),
            Call::Restart => Outcome::Answer((subject.restart)(keeper)),
            Call::Apply(request) => Outcome::Answer((subject.apply)(keeper, request)),
            Call::Look { slot, page } => Outcome::Part((subject.page_look)(keeper, slot, page)),
            Call::Export { slot, room } => {
                let mut buffer = buffer(room);
                let answer = (subject.export)(keeper, slot, &mut buffer);
                Outcome::Sheet(answer, buffer)
            }
            Call::Import { slot, account, number, sheet } => {
                let sheet = sheets::sheet(sheet, &keeper.sizes, number);
                Outcome::Answer((subject.import)(keeper, slot, account, number, &sheet))
            }
        }
    }
}
