//! Requests as numbers, the events they ask for, and answers.

/// kind: the event program's tag, or from 17 on the library's own; then the event's values in order.
#[repr(C)]
#[derive(Clone, Copy, Debug, Default, PartialEq, Eq)]
pub struct Request {
    pub kind: u32,
    pub first: u32,
    pub second: u32,
    pub third: u32,
    pub fourth: u32,
}

/// refusal: 0, or the number of the first question that fails; then the result is 0.
#[repr(C)]
#[derive(Clone, Copy, Debug, Default, PartialEq, Eq)]
pub struct Answer {
    pub refusal: u32,
    pub result: u32,
}

/// What a page look hands back: a part of the frames' words, empty if refused.
#[repr(C)]
#[derive(Clone, Copy, Debug, Default, PartialEq, Eq)]
pub struct Part {
    pub refusal: u32,
    pub start: usize,
    pub count: usize,
}

impl Request {
    /// Its five numbers, as a list of requests has them.
    pub fn numbers(&self) -> [u32; 5] {
        [self.kind, self.first, self.second, self.third, self.fourth]
    }

    pub fn of(numbers: &[u32]) -> Request {
        let [kind, first, second, third, fourth] = numbers[..] else { panic!("a request is five numbers") };
        Request { kind, first, second, third, fourth }
    }
}

impl Answer {
    pub fn done(result: u32) -> Answer {
        Answer { refusal: 0, result }
    }

    pub fn refused(refusal: u32) -> Answer {
        Answer { refusal, result: 0 }
    }
}

/// `Look` is the page look, `Export` and `Import` are calls of their own too; no request decodes to them.
#[derive(Clone, Copy, Debug, PartialEq, Eq)]
pub enum Event {
    Create { slot: usize, account: usize, number: u32 },
    Delete { slot: usize },
    Activate { slot: usize },
    Deactivate { slot: usize },
    Fault { slot: usize, page: usize },
    Read { slot: usize, page: usize, word: usize },
    Write { slot: usize, page: usize, word: usize, value: u32 },
    Claim,
    Wire { slot: usize, page: usize },
    Unwire { slot: usize, page: usize },
    Truncate { slot: usize, count: usize },
    Update { slot: usize },
    PageDone { frame: usize, good: usize },
    MapDone { slot: usize, good: usize },
    Limit { account: usize, pages: usize },
    Move { giver: usize, taker: usize, pages: usize },
    Join { slot: usize, page: usize },
    Turn,
    Look { slot: usize, page: usize },
    Export { slot: usize },
    Import { slot: usize, account: usize, number: u32 },
}

impl Event {
    pub fn decode(request: &Request) -> Option<Event> {
        let first = request.first as usize;
        let second = request.second as usize;
        let third = request.third as usize;
        let (slot, page) = (first, second);
        Some(match request.kind {
            0x01 => Event::Create { slot, account: second, number: request.third },
            0x02 => Event::Delete { slot },
            0x03 => Event::Activate { slot },
            0x04 => Event::Deactivate { slot },
            0x05 => Event::Fault { slot, page },
            0x06 => Event::Read { slot, page, word: third },
            0x07 => Event::Write { slot, page, word: third, value: request.fourth },
            0x08 => Event::Claim,
            0x09 => Event::Wire { slot, page },
            0x0A => Event::Unwire { slot, page },
            0x0B => Event::Truncate { slot, count: second },
            0x0C => Event::Update { slot },
            0x0D => Event::PageDone { frame: first, good: second },
            0x0E => Event::MapDone { slot, good: second },
            0x0F => Event::Limit { account: first, pages: second },
            17 => Event::Move { giver: first, taker: second, pages: third },
            18 => Event::Join { slot, page },
            19 => Event::Turn,
            _ => return None,
        })
    }

    /// The slot of a slot event.
    pub fn slot(&self) -> Option<usize> {
        match *self {
            Event::Create { slot, .. }
            | Event::Delete { slot }
            | Event::Activate { slot }
            | Event::Deactivate { slot }
            | Event::Fault { slot, .. }
            | Event::Read { slot, .. }
            | Event::Write { slot, .. }
            | Event::Wire { slot, .. }
            | Event::Unwire { slot, .. }
            | Event::Truncate { slot, .. }
            | Event::Update { slot }
            | Event::MapDone { slot, .. }
            | Event::Join { slot, .. }
            | Event::Look { slot, .. }
            | Event::Export { slot }
            | Event::Import { slot, .. } => Some(slot),
            Event::Claim | Event::PageDone { .. } | Event::Limit { .. } | Event::Move { .. } | Event::Turn => None,
        }
    }
}
