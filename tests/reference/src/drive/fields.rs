//! A random list as the event program's input, for programs that have no other way in.

use super::act::{Before, Call};
use super::choose::Chooser;
use crate::event::Request;
use crate::keeper::Keeper;
use crate::program::{widths, CUT, SIZES};

/// So many events at the event program's sizes; one list in eight ends in a bad field.
pub fn list(seed: u64, length: usize) -> Vec<u8> {
    let mut chooser = Chooser::new(seed, &SIZES);
    let mut keeper = Keeper::lent(SIZES);
    let mut bytes = Vec::new();
    let mut count = 0;
    while count < length {
        let act = chooser.next(&keeper);
        let field = match (act.before, act.call) {
            (Before::Nothing, Call::Apply(request)) => field(&request),
            (Before::Nothing | Before::Age(_), Call::Restart) => field(&Request { kind: CUT, ..Request::default() }),
            _ => None,
        };
        make(&mut keeper, act.call, field.is_some());
        count += usize::from(field.is_some());
        bytes.extend(field.unwrap_or_default());
    }
    if chooser.random.below(8) == 0 {
        bytes.truncate(bytes.len() - 1);
        bytes.push(chooser.random.next() as u8);
        bytes.push(chooser.random.next() as u8);
    }
    bytes
}

/// Keeps the tables in step with the list: what is in it, and the format that comes before it.
fn make(keeper: &mut Keeper, call: Call, listed: bool) {
    match call {
        Call::Format { wanted } => {
            keeper.format(wanted.parents());
            keeper.restart();
        }
        Call::Restart if listed => {
            keeper.restart();
        }
        Call::Apply(request) if listed => {
            keeper.apply(request);
        }
        _ => {}
    }
}

/// A request's bytes; none if it is no event or a value is too large for its width.
fn field(request: &Request) -> Option<Vec<u8>> {
    let tag = u8::try_from(request.kind).ok()?;
    let widths = widths(tag)?;
    let mut bytes = vec![tag, 0, widths.iter().sum::<usize>() as u8];
    let values = [request.first, request.second, request.third, request.fourth];
    for (value, &width) in values.iter().zip(widths) {
        if width == 2 && *value > 0xFFFF {
            return None;
        }
        bytes.extend(&value.to_be_bytes()[4 - width..]);
    }
    Some(bytes)
}
