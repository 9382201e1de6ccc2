//! Numbers of 2,147,483,648 or more, over every keeper: create and import refuse them, just after 3; a design that a pack has under one is
//! used like any other.

mod common;

use common::all::{apply, export, import};
use common::fresh;
use reference::drive::act::{Act, Before, Call, Outcome};
use reference::drive::boards::{board, page_sizes, sizes};
use reference::drive::choose::Chooser;
use reference::drive::high::age;
use reference::drive::random::Random;
use reference::drive::Subject;
use reference::event::{Answer, Request};
use reference::keeper::Keeper;
use reference::linked;
use reference::questions::HIGH;
use reference::sheet::Sheet;
use reference::tables::Sizes;
use std::collections::BTreeMap;

const BOARD: Sizes = Sizes { words: 2, records: 8, frames: 2, slots: 3, pages: 3, accounts: 2, chip: 2 };
const BOARDS: u64 = 2_000;

/// Slot 0 has a design with such a number, of two pages; account 0 has a limit.
fn pack(number: u32) -> Keeper {
    let mut keeper = fresh(BOARD);
    keeper.disk.numbers[0] = number;
    keeper.disk.maps[0..3].copy_from_slice(&[2, 0, 5]);
    keeper.disk.records[2..4].copy_from_slice(&[1, 2]);
    keeper.disk.records[8..10].copy_from_slice(&[0, 3]);
    keeper.disk.limits[0] = 6;
    assert_eq!(keeper.restart(), Answer::done(0));
    keeper
}

/// A sheet with this number and one page.
fn sheet(number: u32) -> Vec<u8> {
    Sheet { words: 2, pages: 3, number, woven: vec![(1, vec![7, 8])] }.print()
}

#[test]
fn the_bound() {
    assert_eq!(HIGH, 2_147_483_648);
    let before = pack(5);
    for number in [6, 2_147_483_646, 2_147_483_647] {
        assert_eq!(apply(&before, 0x01, &[1, 1, number], Answer::done(0)).disk.numbers, [5, number, 0]);
        assert_eq!(import(&before, [1, 1], number, &sheet(9), Answer::done(9)).disk.numbers, [5, number, 0]);
    }
    for number in [2_147_483_648, 2_147_483_649, 4_294_967_294, 4_294_967_295] {
        apply(&before, 0x01, &[1, 1, number], Answer::refused(32));
        import(&before, [1, 1], number, &sheet(9), Answer::refused(32));
    }
}

/// 1, 2 and 3 come before it; 5, 6 and whatever is asked of the sheet after it.
#[test]
fn its_place() {
    let before = pack(u32::MAX);
    let mut hurt = before.clone();
    hurt.memory.used[0] += 1;
    let mut misfit = hurt.clone();
    misfit.memory.used.push(0);
    let ask = |keeper: &Keeper, [slot, account]: [u32; 2], number: u32, refusal: u32| {
        apply(keeper, 0x01, &[slot, account, number], Answer::refused(refusal));
        import(keeper, [slot as usize, account as usize], number, &[], Answer::refused(refusal));
    };
    ask(&misfit, [3, 0], HIGH, 1);
    ask(&hurt, [3, 0], HIGH, 2);
    for place in [[3, 0], [u32::MAX, 0], [1, 2], [1, u32::MAX], [0, 2]] {
        ask(&before, place, HIGH, 3);
    }
    ask(&before, [1, 0], 0, 3);
    // the slot is filled; the number stands in a slot; both; neither, and there is no sheet
    for (slot, number) in [(0, HIGH), (1, u32::MAX), (0, u32::MAX), (1, HIGH)] {
        ask(&before, [slot, 1], number, 32);
    }
    let mut taken = before.clone();
    taken.disk.numbers[2] = HIGH - 1;
    ask(&taken, [0, 1], HIGH - 1, 5);
    ask(&taken, [1, 1], HIGH - 1, 6);
    // no record and no limit for its pages
    let mut full = before.clone();
    full.disk.maps[0..3].copy_from_slice(&[2, 3, 5]);
    full.disk.numbers[2] = HIGH;
    full.disk.maps[6..9].copy_from_slice(&[4, 6, 7]);
    assert_eq!(full.restart(), Answer::done(0));
    import(&full, [1, 0], HIGH, &sheet(9), Answer::refused(32));
    import(&full, [1, 0], HIGH - 1, &sheet(9), Answer::refused(18));
}

/// A sheet's own number may be one, and so may a number that stands in a slot: the caller's alone is looked at.
#[test]
fn a_sheet_of_an_older_board() {
    for own in [HIGH, 0xFFFE_FDFC, u32::MAX] {
        let old = pack(own);
        let mut bytes = old.sheet_of(0).print();
        export(&old, 0, bytes.len() + 9, Answer::done(bytes.len() as u32), &bytes);
        let after = import(&old, [1, 0], 12, &bytes, Answer::done(own));
        assert_eq!(after.disk.numbers, [own, 12, 0]);
        import(&old, [1, 0], own, &bytes, Answer::refused(32));
        // on the new board its sheet has the new number
        bytes[10..14].copy_from_slice(&[0, 0, 0, 12]);
        export(&after, 1, bytes.len(), Answer::done(bytes.len() as u32), &bytes);
    }
}

/// A design's life from a pack to its delete: each event, its values and its answer.
const LIFE: [(u32, [u32; 4], u32, u32); 33] = [
    (0x02, [0, 0, 0, 0], 7, 0), // delete: the map lists pages
    (0x01, [0, 0, 9, 0], 5, 0), // create: the slot is filled
    (0x03, [0, 0, 0, 0], 0, 0), // activate
    (0x03, [0, 0, 0, 0], 9, 0),
    (0x05, [0, 0, 0, 0], 0, 0), // fault, read in
    (0x0D, [0, 1, 0, 0], 0, 0),
    (0x06, [0, 0, 1, 0], 0, 2), // read
    (0x07, [0, 0, 1, 9], 0, 0), // write
    (0x06, [0, 0, 1, 0], 0, 9),
    (0x09, [0, 0, 0, 0], 0, 0), // wire, unwire
    (0x0A, [0, 0, 0, 0], 0, 0),
    (18, [0, 1, 0, 0], 0, 0), // join, and turns: the page comes in and is served
    (19, [0, 0, 0, 0], 0, 0),
    (19, [0, 0, 0, 0], 0, 1),
    (0x07, [0, 1, 0, 4], 0, 0),
    (0x08, [0, 0, 0, 0], 0, 3), // claims: both are written
    (0x08, [0, 0, 0, 0], 0, 1),
    (0x0D, [0, 1, 0, 0], 0, 0),
    (0x0D, [1, 1, 0, 0], 0, 0),
    (0x04, [0, 0, 0, 0], 12, 0), // deactivate: page 1 is not listed yet
    (0x0C, [0, 0, 0, 0], 0, 0),  // update, map done
    (0x0E, [0, 0, 0, 0], 0, 0),  // it failed
    (0x0C, [0, 0, 0, 0], 0, 0),
    (0x0E, [0, 1, 0, 0], 0, 0),
    (0x04, [0, 0, 0, 0], 0, 0), // deactivate, and back
    (0x02, [0, 0, 0, 0], 7, 0),
    (0x03, [0, 0, 0, 0], 0, 0),
    (0x0B, [0, 0, 0, 0], 0, 0), // truncate
    (0x0C, [0, 0, 0, 0], 0, 0),
    (0x0E, [0, 1, 0, 0], 0, 0),
    (0x04, [0, 0, 0, 0], 0, 0),
    (0x02, [0, 0, 0, 0], 0, 0), // delete
    (0x02, [0, 0, 0, 0], 4, 0),
];

#[test]
fn a_life() {
    for number in [7, HIGH - 1, HIGH, HIGH + 1, u32::MAX] {
        let mut keeper = pack(number);
        for (at, (kind, values, refusal, result)) in LIFE.into_iter().enumerate() {
            println!("{number}, step {at}");
            keeper = apply(&keeper, kind, &values, Answer { refusal, result });
        }
        // the slot is free for another; a low number is not given again, nor one below it
        let given = if number == HIGH - 1 { Answer::refused(33) } else { Answer::done(0) };
        apply(&keeper, 0x01, &[0, 0, 9], given);
    }
}

/// The same call on a board and on the same board with higher numbers, by one keeper: the same answer, and the same tables but for the
/// numbers.
fn same(subject: &Subject, call: &Call, [low, high]: &mut [Keeper; 2]) -> Outcome {
    let (outcome, mut aged) = (call.make(subject, low), call.make(subject, high));
    if let (Outcome::Sheet(answer, bytes), Call::Export { slot, .. }) = (&mut aged, call) {
        if answer.refusal == 0 {
            assert_eq!(bytes[10..14], high.disk.numbers[*slot].to_be_bytes());
            bytes[10..14].copy_from_slice(&low.disk.numbers[*slot].to_be_bytes());
        }
    }
    assert_eq!(outcome, aged, "{}: {call:?}", subject.name);
    let mut wanted = low.clone();
    wanted.disk.numbers.clone_from(&high.disk.numbers);
    assert!(wanted == *high, "{}: {call:?}", subject.name);
    let lowered: Vec<u32> = high.disk.numbers.iter().map(|number| number & !HIGH).collect();
    assert_eq!(lowered, low.disk.numbers, "{}: {call:?}", subject.name);
    outcome
}

/// A create or an import, whose number is looked at; or a format, which leaves no design.
fn numbered(call: &Call) -> bool {
    matches!(call, Call::Format { .. } | Call::Import { .. } | Call::Apply(Request { kind: 1, .. }))
}

/// A kind's number, or one of its own for the other calls.
fn kind(call: &Call) -> u32 {
    match call {
        Call::Apply(request) => request.kind,
        Call::Restart => 100,
        Call::Look { .. } => 101,
        _ => 102,
    }
}

/// A random board whose designs have their slot's number + 1, and the same with some higher numbers.
fn two_boards(random: &mut Random) -> [Keeper; 2] {
    let (words, pages) = page_sizes(random);
    let mut low = board(random.next(), sizes(random, words, pages), 120);
    for (slot, number) in low.disk.numbers.iter_mut().enumerate().filter(|(_, number)| **number != 0) {
        *number = slot as u32 + 1;
    }
    low.disk.highest[0] = low.sizes.slots as u32;
    let mut high = low.clone();
    age(&mut high, random.next());
    high.disk.highest.clone_from(&low.disk.highest);
    [low, high]
}

/// Nothing but create and import looks at how high a number is: random lists on random boards.
#[test]
fn nothing_else_looks_at_it() {
    let mut done: BTreeMap<u32, u64> = BTreeMap::new();
    for seed in 0..BOARDS {
        let mut random = Random::new(seed);
        let pair = two_boards(&mut random);
        let mut chooser = Chooser::new(random.next(), &pair[0].sizes);
        let mut boards: Vec<(Subject, [Keeper; 2])> = linked::all().into_iter().map(|own| (own, pair.clone())).collect();
        for _ in 0..60 {
            let Act { before, call } = chooser.next(&boards[0].1[0]);
            if matches!(before, Before::Nothing) && !numbered(&call) {
                let outcomes: Vec<Outcome> = boards.iter_mut().map(|(own, pair)| same(own, &call, pair)).collect();
                *done.entry(kind(&call)).or_default() += (outcomes[0].refusal() == 0) as u64;
            }
        }
    }
    println!("{done:?}");
    let kinds = (2..=15).chain(17..=19).chain(100..=102);
    assert_eq!(kinds.filter(|kind| done.get(kind).is_none_or(|&count| count < BOARDS / 20)).collect::<Vec<u32>>(), []);
}
