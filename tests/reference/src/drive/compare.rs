//! What must hold of one call: the two subjects agree, and each keeps the paper's promises.

use super::act::{buffer, Call, Outcome};
use super::chips;
use crate::event::Request;
use crate::keeper::Keeper;
use crate::questions::HIGH;
use crate::rules;
use crate::sheet::Sheet;
use crate::tables::{FILED, FREE, LEAVING, LIVE, NO_TRANSFER, NULLED, RELEASED};

/// One subject's side of a call.
pub struct Side<'a> {
    pub outcome: Outcome,
    pub after: &'a Keeper,
}

/// The answers and results are the same, and the disk part after every call; after a refusal all tables are
/// as they were before, and after any other call the same on both sides.
pub fn compare(before: &Keeper, one: &Side, other: &Side) -> Result<(), String> {
    if one.outcome != other.outcome {
        return Err(format!("outcomes differ: {:?} and {:?}", one.outcome, other.outcome));
    }
    if one.after.disk != other.after.disk {
        return Err("the disk parts differ".to_string());
    }
    if one.outcome.refusal() != 0 && (one.after != before || other.after != before) {
        return Err("a refused call changed a table".to_string());
    }
    if one.after.memory != other.after.memory {
        return Err(format!("the memory parts differ in {}", first_difference(one.after, other.after)));
    }
    Ok(())
}

/// The first memory table that differs, by name.
fn first_difference(one: &Keeper, other: &Keeper) -> &'static str {
    let (one, other) = (&one.memory, &other.memory);
    let same = [
        ("frames", one.frames == other.frames),
        ("frame words", one.frame_words == other.frame_words),
        ("free queue", one.free_queue == other.free_queue),
        ("removal list", one.removal_list == other.removal_list),
        ("addresses", one.addresses == other.addresses),
        ("states", one.states == other.states),
        ("owners", one.owners == other.owners),
        ("free map", one.free_map == other.free_map),
        ("active", one.active == other.active),
        ("updating", one.updating == other.updating),
        ("images", one.images == other.images),
        ("chip words", one.chip_words == other.chip_words),
        ("chip records", one.chip_records == other.chip_records),
        ("chip next", one.chip_next == other.chip_next),
        ("line", one.line == other.line),
        ("used", one.used == other.used),
        ("pool", one.pool == other.pool),
    ];
    same.iter().find(|(_, same)| !same).map_or("nothing", |&(name, _)| name)
}

/// What paper 01 promises of one call, whoever carries it out.
pub fn promises(call: &Call, before: &Keeper, side: &Side) -> Result<(), String> {
    match (call, &side.outcome) {
        (_, Outcome::Answer(answer)) if answer.refusal != 0 => {
            check(answer.result == 0, "a refusal has a result")?;
            check(side.after == before, "a refused call changed a table")
        }
        (_, Outcome::Part(part)) => {
            let whole = part.count == before.sizes.words && part.start % before.sizes.words.max(1) == 0;
            check(side.after == before, "a page look changed a table")?;
            check(part.refusal == 0 || (part.start, part.count) == (0, 0), "a refused look has a part")?;
            check(part.refusal != 0 || whole, "a look is not one frame's part")
        }
        (Call::Export { slot, .. }, Outcome::Sheet(answer, bytes)) => {
            check(side.after == before, "an export changed a table")?;
            check(exported(before, *slot, answer.refusal, answer.result as usize, bytes), "an export's buffer")
        }
        (Call::Import { slot, number, .. }, _) => {
            check(rules::kept(side.after), "an import broke a rule")?;
            check(imported(*slot, *number, before, side.after), "an import changed something else")
        }
        (Call::Format { wanted }, _) => {
            check(side.after.memory == before.memory, "format changed memory")?;
            check(side.after.disk.parents[1..] == wanted.parents()[1..], "format stored other parents")?;
            check(side.after.disk.parents[0] == 0, "format stored a parent of account 0")?;
            check(rules::disk::kept(&side.after.sizes, &side.after.disk), "format broke a disk rule")
        }
        (Call::Restart, _) => {
            check(restarted(before, side.after), "restart changed the disk part, but for the highest number")?;
            check(rules::kept(side.after), "restart broke a rule")?;
            check(chips::empty(side.after), "restart left something in the chip")
        }
        _ => {
            check(rules::kept(side.after), "an event broke a rule")?;
            check(highest_kept(call, before, side.after), "an event's highest number")?;
            check(limits_kept(call, before, side.after), "an event changed the sum of the limits, or a parent")?;
            check(transfers_untouched(call, before, side.after), "an event changed the words of a frame in transfer")?;
            check(along_the_lines(before, side.after), "a record moved along no line")?;
            check(chips::moved(call, before, side.after), "the chip is not as it should be")?;
            check(line_moves(call, before, side), "the waiting line is not as it should be")
        }
    }
}

fn check(holds: bool, otherwise: &str) -> Result<(), String> {
    if holds {
        Ok(())
    } else {
        Err(otherwise.to_string())
    }
}

/// The eleven lines of events, and the twelfth, which imports alone go along.
const LINES: [(u8, u8); 11] = [
    (FREE, NULLED),
    (NULLED, LIVE),
    (NULLED, RELEASED),
    (NULLED, LEAVING),
    (LIVE, NULLED),
    (LIVE, RELEASED),
    (LIVE, FILED),
    (RELEASED, LEAVING),
    (LEAVING, FREE),
    (LEAVING, RELEASED),
    (FILED, LIVE),
];
const TWELFTH: (u8, u8) = (FREE, FILED);

fn along_the_lines(before: &Keeper, after: &Keeper) -> bool {
    let moves = before.memory.states.iter().zip(&after.memory.states);
    moves.into_iter().all(|(&from, &to)| from == to || LINES.contains(&(from, to)))
}

/// A refused export leaves the buffer as it was; any other has the design's sheet in front, and leaves the bytes after it.
fn exported(before: &Keeper, slot: usize, refusal: u32, length: usize, bytes: &[u8]) -> bool {
    let untouched = buffer(bytes.len());
    match refusal {
        0 => Sheet::parse(&bytes[..length]) == Some(before.sheet_of(slot)) && bytes[length..] == untouched[length..],
        _ => length == 0 && bytes == untouched,
    }
}

/// Restart changes the highest number alone: it is no lower than any number below the bound, and itself, or one that stands in a slot.
fn restarted(before: &Keeper, after: &Keeper) -> bool {
    let (numbers, old, new) = (&before.disk.numbers, before.disk.highest[0], after.disk.highest[0]);
    let above = new >= old && numbers.iter().all(|&number| number >= HIGH || number <= new);
    let one = new == old || (new < HIGH && numbers.contains(&new));
    let mut disk = before.disk.clone();
    disk.highest[0] = new;
    above && one && after.disk == disk
}

/// A create gives the next number, above all before; no other event changes the highest.
fn highest_kept(call: &Call, before: &Keeper, after: &Keeper) -> bool {
    match *call {
        Call::Apply(Request { kind: 1, third, .. }) => after.disk.highest == [third] && third > before.disk.highest[0],
        _ => after.disk.highest == before.disk.highest,
    }
}

/// An import gives its slot free records, filed, and writes into these alone; it changes only the tables that a carried design needs.
fn imported(slot: usize, number: u32, before: &Keeper, after: &Keeper) -> bool {
    let mut wanted = before.clone();
    let (disk, memory) = (&mut wanted.disk, &mut wanted.memory);
    disk.highest[0] = number;
    disk.numbers[slot] = number;
    disk.accounts[slot] = after.disk.accounts[slot];
    disk.maps[before.pages_of(slot)].copy_from_slice(&after.disk.maps[before.pages_of(slot)]);
    for record in 0..before.sizes.records {
        if (before.memory.states[record], after.memory.states[record]) == TWELFTH {
            let words = before.words_of_record(record);
            disk.records[words.clone()].copy_from_slice(&after.disk.records[words]);
            memory.states[record] = FILED;
            memory.owners[record] = slot as u8;
            memory.free_map[record / 32] &= !(1 << (record % 32));
            memory.pool.free -= 1;
        }
    }
    memory.pool.hand = after.memory.pool.hand;
    memory.used = after.memory.used.clone();
    *after == wanted
}

/// Only the limit event alters the sum of the limits, only it and a move a limit, and no event a parent.
fn limits_kept(call: &Call, before: &Keeper, after: &Keeper) -> bool {
    let sum = |keeper: &Keeper| keeper.disk.limits.iter().map(|&limit| limit as usize).sum::<usize>();
    let kept = match call {
        Call::Apply(Request { kind: 15, .. }) => true,
        Call::Apply(Request { kind: 17, .. }) => sum(before) == sum(after),
        _ => before.disk.limits == after.disk.limits,
    };
    kept && before.disk.parents == after.disk.parents
}

/// No event but its page done changes the words of a frame in transfer.
fn transfers_untouched(call: &Call, before: &Keeper, after: &Keeper) -> bool {
    let own = |frame| matches!(*call, Call::Apply(Request { kind: 13, first, .. }) if first as usize == frame);
    let moving = |frame: usize| before.memory.frames[frame].transfer != NO_TRANSFER;
    (0..before.sizes.frames).filter(|&frame| moving(frame) && !own(frame)).all(|frame| {
        let words = before.words_of_frame(frame);
        before.memory.frame_words[words.clone()] == after.memory.frame_words[words]
    })
}

/// A join puts its page behind the others and changes nothing else. Of a turn the first request leaves exactly if the result is above 0,
/// and then nothing else changes; otherwise the line stays, or the first goes to the back and nothing else changes. No other event
/// changes the line.
fn line_moves(call: &Call, before: &Keeper, side: &Side) -> bool {
    let (Call::Apply(request), Outcome::Answer(answer)) = (call, &side.outcome) else {
        return false;
    };
    let mut wanted = before.clone();
    let line = &mut wanted.memory.line;
    let waiting = line.iter().filter(|&&entry| entry != 0).count();
    match (request.kind, answer.result) {
        (18, _) => line[waiting] = (before.flat(request.first as usize, request.second as usize) + 1) as u16,
        (19, 1 | 3..) => {
            line.remove(0);
            line.push(0);
        }
        (19, 0) if side.after.memory.line != before.memory.line => line[..waiting].rotate_left(1),
        (19, 2) => return false,
        (19, _) => return side.after.memory.line == before.memory.line && side.after.disk == before.disk,
        _ => return side.after.memory.line == before.memory.line,
    }
    *side.after == wanted
}
