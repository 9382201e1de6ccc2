//! The edges of design sheets by hand, over every keeper: what is printed, each way a byte string is not of the form, the questions in
//! their order, the records taken.

mod common;

use common::all::{export, import};
use common::does;
use reference::event::Answer;
use reference::keeper::Keeper;
use reference::sheet::Sheet;
use reference::tables::Sizes;

const BOARD: Sizes = Sizes { words: 2, records: 8, frames: 2, slots: 3, pages: 3, accounts: 3, chip: 2 };

/// W 2 and N 3; number 7; page 0 with 9 and 0; page 2 with 0 and a word whose bytes are 1 to 4; the end.
const HEAD: [u8; 7] = [3, 0, 4, 0, 2, 0, 3];
const SEVEN: [u8; 7] = [1, 0, 4, 0, 0, 0, 7];
const PAGE_0: [u8; 13] = [2, 0, 10, 0, 0, 0, 0, 0, 9, 0, 0, 0, 0];
const PAGE_2: [u8; 13] = [2, 0, 10, 0, 2, 0, 0, 0, 0, 1, 2, 3, 4];
const END: [u8; 3] = [4, 0, 0];

/// Two pages.
fn two() -> Vec<u8> {
    [&HEAD[..], &SEVEN, &PAGE_0, &PAGE_2, &END].concat()
}

/// A board with limits 5, 0 and 1; account 2's parent is 1, and 1's is 0.
fn start() -> Keeper {
    let mut keeper = Keeper::lent(BOARD);
    assert_eq!(keeper.format(&[0, 0, 1]), Answer::done(0));
    keeper.disk.limits.copy_from_slice(&[5, 0, 1]);
    assert_eq!(keeper.restart(), Answer::done(0));
    keeper
}

/// Slot 1 has a design with number 7 at rest: pages 0 and 2 as above, page 1 in a record of zeros.
fn with_design() -> Keeper {
    let mut keeper = start();
    keeper.disk.numbers[1] = 7;
    keeper.disk.maps[3..6].copy_from_slice(&[4, 1, 6]);
    keeper.disk.records[6] = 9;
    keeper.disk.records[11] = 0x0102_0304;
    assert_eq!(keeper.restart(), Answer::done(0));
    keeper
}

fn refuses(before: &Keeper, bytes: &[u8], number: u32) {
    import(before, [0, 0], 9, bytes, Answer::refused(number));
}

#[test]
fn printed() {
    let keeper = with_design();
    // a page is written out by its words, not by its entry
    for room in [43, 44, 100] {
        export(&keeper, 1, room, Answer::done(43), &two());
    }
    for room in [0, 1, 17, 42] {
        export(&keeper, 1, room, Answer::refused(31), &[]);
    }
    let mut bare = start();
    bare.disk.numbers[0] = 0xFFFE_FDFC;
    bare.disk.accounts[0] = 2;
    let whole = [3, 0, 4, 0, 2, 0, 3, 1, 0, 4, 0xFF, 0xFE, 0xFD, 0xFC, 4, 0, 0];
    export(&bare, 0, 17, Answer::done(17), &whole);
    export(&bare, 0, 16, Answer::refused(31), &[]);
}

#[test]
fn questions_of_export() {
    let mut keeper = with_design();
    export(&keeper, 0, 0, Answer::refused(4), &[]);
    export(&keeper, 3, 0, Answer::refused(3), &[]);
    export(&keeper, usize::MAX, 0, Answer::refused(3), &[]);
    does(&mut keeper, 0x03, &[1]);
    export(&keeper, 1, 0, Answer::refused(9), &[]);
    export(&keeper, 1, 43, Answer::refused(9), &[]);
    let mut hurt = with_design();
    hurt.memory.used[0] += 1;
    export(&hurt, usize::MAX, 43, Answer::refused(2), &[]);
    hurt.memory.used.push(0);
    export(&hurt, usize::MAX, 43, Answer::refused(1), &[]);
}

/// The longest sheet of a board: the room that every design of it has enough of.
#[test]
fn longest() {
    let mut keeper = with_design();
    keeper.disk.records[0] = 1;
    let room = 17 + 3 * (5 + 4 * 2);
    let page_1 = [2, 0, 10, 0, 1, 0, 0, 0, 1, 0, 0, 0, 0];
    let whole = [&HEAD[..], &SEVEN, &PAGE_0, &page_1, &PAGE_2, &END].concat();
    export(&keeper, 1, room, Answer::done(room as u32), &whole);
    export(&keeper, 1, room - 1, Answer::refused(31), &[]);
}

/// Two pages, none, the last page that N allows, other numbers.
#[test]
fn of_the_form() {
    let last = [2, 0, 10, 0, 2, 0, 0, 0, 0, 0, 0, 0, 1];
    for (bytes, pages) in [
        (two(), vec![(0, vec![9, 0]), (2, vec![0, 0x0102_0304])]),
        ([&HEAD[..], &SEVEN, &END].concat(), vec![]),
        ([&HEAD[..], &SEVEN, &last, &END].concat(), vec![(2, vec![0, 1])]),
    ] {
        let after = import(&start(), [2, 0], 9, &bytes, Answer::done(7));
        assert_eq!(after.sheet_of(2), Sheet { words: 2, pages: 3, number: 9, woven: pages });
    }
    let number = [&HEAD[..], &[1, 0, 4, 0xFF, 0xFE, 0xFD, 0xFC], &END].concat();
    import(&start(), [2, 0], 9, &number, Answer::done(0xFFFE_FDFC));
}

/// A page with a word, and a sheet with these fields of pages.
fn page(page: u8, low: u8) -> [u8; 13] {
    [2, 0, 10, 0, page, 0, 0, 0, low, 0, 0, 0, 0]
}

fn with(fields: &[u8]) -> Vec<u8> {
    [&HEAD[..], &SEVEN, fields, &END].concat()
}

/// What a sheet may not say: number 0, a page of zeros, one of its N or above, pages that do not rise; nor anything after its end.
#[test]
fn not_to_be_said() {
    let ways: [(&str, Vec<u8>); 13] = [
        ("no byte", vec![]),
        ("number 0", [&HEAD[..], &[1, 0, 4, 0, 0, 0, 0], &PAGE_0, &END].concat()),
        ("a page of zeros", with(&page(1, 0))),
        ("a page of zeros after others", with(&[PAGE_0, page(1, 0), PAGE_2].concat())),
        ("a page of its N", with(&page(3, 9))),
        ("a page above its N", with(&page(4, 9))),
        ("a page far above its N", with(&[2, 0, 10, 1, 0, 0, 0, 0, 9, 0, 0, 0, 0])),
        ("a byte after the end", [&two()[..], &[0]].concat()),
        ("an end after the end", [two(), END.to_vec()].concat()),
        ("a page after the end", [two(), page(1, 9).to_vec()].concat()),
        ("a sheet after it", [two(), two()].concat()),
        ("a page twice", with(&[page(1, 9), page(1, 9)].concat())),
        ("pages falling", with(&[PAGE_2, PAGE_0].concat())),
    ];
    for (name, bytes) in ways {
        println!("{name}");
        refuses(&start(), &bytes, 29);
    }
}

/// Fields that are missing, twice, out of their order, of another tag or length; and a sheet cut short after any of its bytes.
#[test]
fn no_run_of_its_fields() {
    let ways: [(&str, Vec<u8>); 20] = [
        ("no end", [&HEAD[..], &SEVEN, &PAGE_0].concat()),
        ("no number", [&HEAD[..], &PAGE_0, &END].concat()),
        ("no sizes", [&SEVEN[..], &PAGE_0, &END].concat()),
        ("the number first", [&SEVEN[..], &HEAD, &END].concat()),
        ("a page before the number", [&HEAD[..], &PAGE_0, &SEVEN, &END].concat()),
        ("sizes twice", [&HEAD[..], &HEAD, &SEVEN, &END].concat()),
        ("the number twice", [&HEAD[..], &SEVEN, &SEVEN, &END].concat()),
        ("the number after a page", [&HEAD[..], &SEVEN, &PAGE_0, &SEVEN, &END].concat()),
        ("tag 0", [&[0, 0, 4, 0, 2, 0, 3][..], &SEVEN, &END].concat()),
        ("tag 5 for a page", with(&[5, 0, 10, 0, 0, 0, 0, 0, 9, 0, 0, 0, 0])),
        ("tag 3 at the end", [&HEAD[..], &SEVEN, &[3, 0, 0]].concat()),
        ("sizes of 3 bytes", [&[3, 0, 3, 0, 2, 3][..], &SEVEN, &END].concat()),
        ("sizes of 5 bytes", [&[3, 0, 5, 0, 2, 0, 3, 0][..], &SEVEN, &END].concat()),
        ("a number of 5 bytes", [&HEAD[..], &[1, 0, 5, 0, 0, 0, 7, 0], &END].concat()),
        ("an end of one byte", [&HEAD[..], &SEVEN, &[4, 0, 1, 0]].concat()),
        ("a page of one word", with(&[2, 0, 6, 0, 0, 0, 0, 0, 9])),
        ("a page of three words", with(&[2, 0, 14, 0, 0, 0, 0, 0, 9, 0, 0, 0, 0, 0, 0, 0, 0])),
        ("low byte first", with(&[2, 10, 0, 0, 0, 0, 0, 0, 9, 0, 0, 0, 0])),
        ("a page without words", [&[3, 0, 4, 0, 0, 0, 3][..], &SEVEN, &[2, 0, 2, 0, 0], &END].concat()),
        ("the length of a page longer than the sheet", [&HEAD[..], &SEVEN, &[2, 255, 255, 0, 0]].concat()),
    ];
    for (name, bytes) in ways {
        println!("{name}");
        refuses(&start(), &bytes, 29);
    }
    for length in 0..two().len() {
        refuses(&start(), &two()[..length], 29);
    }
}

/// A page whose length two bytes cannot say: W is 16,384 or more.
#[test]
fn too_wide_for_a_page() {
    let page = [&[2, 0, 2, 0, 0][..], &vec![1; 4 * 16_384]].concat();
    refuses(&start(), &[&[3, 0, 4, 64, 0, 0, 3][..], &SEVEN, &page, &END].concat(), 29);
    // .. where 16,383 words can stand in a page
    let page = [&[2, 255, 254, 0, 0][..], &vec![1; 4 * 16_383]].concat();
    refuses(&start(), &[&[3, 0, 4, 63, 255, 0, 3][..], &SEVEN, &page, &END].concat(), 30);
}

/// Of the form by its own W and N, whatever these are.
#[test]
fn another_w_or_n() {
    let keeper = start();
    for [high_w, low_w, high_n, low_n] in
        [[0, 1, 0, 3], [0, 3, 0, 3], [0, 2, 0, 2], [0, 2, 0, 4], [0, 0, 0, 3], [0, 2, 0, 0], [64, 0, 0, 3], [255; 4], [0; 4], [2, 0, 3, 0]]
    {
        let sizes = [3, 0, 4, high_w, low_w, high_n, low_n];
        refuses(&keeper, &[&sizes[..], &SEVEN, &END].concat(), 30);
        // 29 comes first, by the whole sheet
        refuses(&keeper, &[&sizes[..], &SEVEN, &END, &[0]].concat(), 29);
    }
    // page 3 is one that its own N allows
    let page_3 = [2, 0, 10, 0, 3, 0, 0, 0, 9, 0, 0, 0, 0];
    refuses(&keeper, &[&[3, 0, 4, 0, 2, 0, 4][..], &SEVEN, &page_3, &END].concat(), 30);
}
