//! The event program: fields from bytes, a line for each event.

use crate::event::{Answer, Request};
use crate::keeper::Keeper;
use crate::tables::{Memory, Sizes};
use std::fmt::Write;

pub const SIZES: Sizes = Sizes { words: 2, records: 4, frames: 2, slots: 2, pages: 3, accounts: 1, chip: 2 };

pub const CUT: u32 = 0x10;

/// The widths in bytes of a tag's values.
pub fn widths(tag: u8) -> Option<&'static [usize]> {
    Some(match tag {
        0x01 => &[2, 2, 4],
        0x02 | 0x03 | 0x04 | 0x0C => &[2],
        0x05 | 0x09 | 0x0A | 0x0B | 0x0D | 0x0E | 0x0F => &[2, 2],
        0x06 => &[2, 2, 2],
        0x07 => &[2, 2, 2, 4],
        0x08 | 0x10 => &[],
        _ => return None,
    })
}

/// The values' bytes of the field at an offset; none if its tag is unknown, its length wrong or the field short.
fn field(input: &[u8], at: usize) -> Option<&[u8]> {
    let widths = widths(input[at])?;
    let head = input.get(at + 1..at + 3)?;
    let length = usize::from(head[0]) << 8 | usize::from(head[1]);
    if length != widths.iter().sum::<usize>() {
        return None;
    }
    input.get(at + 3..at + 3 + length)
}

/// The request that a field's values make.
fn request(tag: u8, mut bytes: &[u8]) -> Request {
    let mut values = [0; 4];
    for (value, &width) in values.iter_mut().zip(widths(tag).unwrap_or(&[])) {
        let (own, rest) = bytes.split_at(width);
        *value = own.iter().fold(0, |sum, &byte| sum << 8 | u32::from(byte));
        bytes = rest;
    }
    let [first, second, third, fourth] = values;
    Request { kind: u32::from(tag), first, second, third, fourth }
}

/// At a cut no unreported transfer lands; memory is lost.
fn cut(keeper: &mut Keeper) -> Answer {
    keeper.memory = Memory::zeros(&keeper.sizes);
    keeper.memory.frame_words.fill(0xDEAD_BEEF);
    keeper.memory.addresses.fill(0xFFFF);
    keeper.memory.states.fill(0xFF);
    keeper.memory.chip_words.fill(0xDEAD_BEEF);
    keeper.memory.chip_records.fill(0xFFFF);
    keeper.memory.chip_next.fill(0xFFFF);
    keeper.memory.line.fill(0xFFFF);
    keeper.restart()
}

/// The whole output for an input.
pub fn run(input: &[u8]) -> String {
    let mut output = String::from("n tag answer result\n");
    let mut keeper = Keeper::lent(SIZES);
    keeper.format(&[0; SIZES.accounts]);
    keeper.restart();
    let (mut at, mut count) = (0, 0);
    while at < input.len() {
        let tag = input[at];
        let Some(bytes) = field(input, at) else {
            writeln!(output, "bad field at {at}").unwrap();
            break;
        };
        let request = request(tag, bytes);
        let answer = if request.kind == CUT { cut(&mut keeper) } else { keeper.apply(request) };
        count += 1;
        writeln!(output, "{count} {tag:02X} {} {}", answer.refusal, answer.result).unwrap();
        at += 3 + bytes.len();
    }
    output
}
