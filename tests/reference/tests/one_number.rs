//! One number, one design, over every keeper: 33 and its place, the stores of a create and a cut between them, what restart stores.

mod common;

use common::all::{apply, import};
use common::fresh;
use reference::drive::boards::{board, page_sizes, sizes};
use reference::drive::cut;
use reference::drive::random::Random;
use reference::drive::Subject;
use reference::event::{Answer, Request};
use reference::keeper::Keeper;
use reference::linked;
use reference::mend::{mend, places, Change};
use reference::questions::HIGH;
use reference::sheet::Sheet;
use reference::stores;
use reference::tables::{Memory, Sizes};

const BOARD: Sizes = Sizes { words: 2, records: 8, frames: 2, slots: 4, pages: 3, accounts: 2, chip: 2 };
const BOARDS: u64 = 4_000;

/// These numbers in the slots, and this highest; memory is not restarted.
fn pack(numbers: [u32; 4], highest: u32) -> Keeper {
    let mut keeper = fresh(BOARD);
    keeper.disk.numbers.copy_from_slice(&numbers);
    keeper.disk.highest[0] = highest;
    keeper.disk.limits[0] = 8;
    keeper
}

/// Every keeper restarts it, and leaves this highest and the rest of the disk part as it was.
fn restarts(before: &Keeper, highest: u32) -> Keeper {
    let made = |subject: &Subject| {
        let (mut after, mut disk) = (before.clone(), before.disk.clone());
        assert_eq!((subject.restart)(&mut after), Answer::done(0), "{}", subject.name);
        disk.highest[0] = highest;
        assert!(after.disk == disk, "{}: {:?}, not {highest}", subject.name, after.disk.highest);
        after
    };
    let all: Vec<Keeper> = linked::all().iter().map(made).collect();
    assert!(all.iter().all(|after| *after == all[0]), "the keepers differ");
    all[0].clone()
}

fn sheet() -> Vec<u8> {
    Sheet { words: 2, pages: 3, number: 77, woven: vec![(1, vec![7, 8])] }.print()
}

/// The number just above is given, no other below it; then that one is the highest.
#[test]
fn just_above() {
    let before = restarts(&pack([0, 40, 0, 0], 50), 50);
    for number in [1, 39, 41, 49, 50] {
        apply(&before, 0x01, &[0, 1, number], Answer::refused(33));
        import(&before, [0, 1], number, &sheet(), Answer::refused(33));
    }
    for number in [51, 52, 1_000, HIGH - 1] {
        assert_eq!(apply(&before, 0x01, &[0, 1, number], Answer::done(0)).disk.highest, [number]);
        let after = import(&before, [0, 1], number, &sheet(), Answer::done(77));
        assert_eq!((after.disk.highest[0], after.disk.numbers[0]), (number, number));
    }
}

/// After 6, before anything of the sheet.
#[test]
fn its_place() {
    let before = restarts(&pack([0, 40, HIGH, 0], 50), 50);
    let ask = |[slot, account]: [u32; 2], number: u32, refusal: u32| {
        apply(&before, 0x01, &[slot, account, number], Answer::refused(refusal));
        import(&before, [slot as usize, account as usize], number, &[], Answer::refused(refusal));
    };
    ask([4, 0], 50, 3);
    ask([0, 2], 50, 3);
    ask([0, 0], 0, 3);
    ask([0, 0], HIGH, 32);
    ask([1, 0], 50, 5);
    ask([1, 0], 40, 5);
    ask([0, 0], 40, 6);
    ask([0, 0], 50, 33);
    import(&before, [0, 0], 51, &[], Answer::refused(29));
    let other = Sheet { words: 3, pages: 3, number: 7, woven: Vec::new() }.print();
    import(&before, [0, 0], 50, &other, Answer::refused(33));
    import(&before, [0, 0], 51, &other, Answer::refused(30));
    // a limit that is too low for its page
    let mut poor = before.clone();
    poor.disk.limits[0] = 0;
    import(&poor, [0, 0], 50, &sheet(), Answer::refused(33));
    import(&poor, [0, 0], 51, &sheet(), Answer::refused(18));
}

/// A number is not given again after a delete, not even after a restart.
#[test]
fn not_again() {
    let mut keeper = restarts(&pack([0; 4], 0), 0);
    for number in [5, 6, 9] {
        keeper = apply(&keeper, 0x01, &[0, 0, number], Answer::done(0));
        keeper = apply(&keeper, 0x02, &[0], Answer::done(0));
        keeper = restarts(&keeper, number);
        apply(&keeper, 0x01, &[0, 0, number], Answer::refused(33));
    }
    apply(&keeper, 0x01, &[0, 0, 7], Answer::refused(33));
}

/// An older pack has 0: restart stores the highest number below 2,147,483,648 of its slots. Any value is one for restart, and none falls.
#[test]
fn older_packs() {
    for (numbers, highest, after) in [
        ([0; 4], 0, 0),
        ([3, 12, 0, 7], 0, 12),
        ([3, 12, 0, 7], 11, 12),
        ([3, 12, 0, 7], 12, 12),
        ([3, 12, 0, 7], 13, 13),
        ([HIGH, 12, u32::MAX, 0], 0, 12),
        ([HIGH, 0, u32::MAX, 0], 0, 0),
        ([HIGH, HIGH - 1, 1, 0], 5, HIGH - 1),
        ([3, 0, 0, 0], HIGH - 1, HIGH - 1),
        ([3, HIGH + 5, 0, 0], HIGH, HIGH),
        ([3, 0, 0, 0], u32::MAX, u32::MAX),
    ] {
        let before = pack(numbers, highest);
        let keeper = restarts(&restarts(&before, after), after);
        let empty = numbers.iter().position(|&number| number == 0).expect("an empty slot") as u32;
        if after < HIGH - 1 {
            apply(&keeper, 0x01, &[empty, 0, after + 1], Answer::done(0));
        } else {
            apply(&keeper, 0x01, &[empty, 0, HIGH - 1], Answer::refused(if numbers.contains(&(HIGH - 1)) { 6 } else { 33 }));
        }
    }
}

/// A refused restart stores nothing, nor does mending; format stores 0.
#[test]
fn stored_by_nobody_else() {
    let mut twice = pack([9, 12, 12, 0], 4);
    for subject in linked::all() {
        let mut keeper = twice.clone();
        assert_eq!((subject.restart)(&mut keeper), Answer::refused(2), "{}", subject.name);
        assert!(keeper == twice, "{}: a refused restart changed a table", subject.name);
        keeper.disk.highest.push(0);
        assert_eq!((subject.restart)(&mut keeper), Answer::refused(1), "{}", subject.name);
        assert_eq!(keeper.disk.highest, [4, 0], "{}", subject.name);
        let mut keeper = twice.clone();
        assert_eq!((subject.format)(&mut keeper, &[0, 0]), Answer::done(0), "{}", subject.name);
        assert_eq!(keeper.disk.highest, [0], "{}", subject.name);
    }
    let mut list = vec![Change::default(); places(&BOARD)];
    assert_eq!(mend(&BOARD, &mut twice.disk, &mut list), Answer::done(1));
    assert_eq!((twice.disk.numbers[2], twice.disk.highest[0]), (0, 4));
    restarts(&twice, 12);
}

/// After the first of a create's two stores, memory lost: the slot is empty, the number is skipped, and all else is as without it.
fn cut_between(subject: &Subject, start: &Keeper, slot: usize, seed: u64) {
    let (number, mut whole) = (start.disk.highest[0] + 1, start.clone());
    let account = Random::new(seed).below(start.sizes.accounts);
    let create = |number: u32| Request { kind: 1, first: slot as u32, second: account as u32, third: number, fourth: 0 };
    assert_eq!((subject.apply)(&mut whole, create(number)), Answer::done(0), "{}", subject.name);
    let (stores, mut disk) = (stores::create(slot, account, number), start.disk.clone());
    stores.iter().for_each(|store| store.make(&mut disk));
    assert!(whole.disk == disk, "{}: a create stored something else", subject.name);
    let [mut after, mut plain] = [1, 0].map(|made| {
        let mut keeper = start.clone();
        stores[..made].iter().for_each(|store| store.make(&mut keeper.disk));
        cut::cut(&mut keeper, seed);
        assert_eq!((subject.restart)(&mut keeper), Answer::done(0), "{}", subject.name);
        keeper
    });
    assert_eq!((subject.apply)(&mut after, create(number)), Answer::refused(33), "{}", subject.name);
    plain.disk.highest[0] = number;
    assert!(after == plain, "{}: a cut inside a create left more than a number skipped", subject.name);
    assert_eq!((subject.apply)(&mut after, create(number + 1)), Answer::done(0), "{}", subject.name);
}

#[test]
fn cuts_inside_a_create() {
    let mut creates = 0;
    for seed in 0..BOARDS {
        let mut random = Random::new(seed);
        let (words, pages) = page_sizes(&mut random);
        let start = board(random.next(), sizes(&mut random, words, pages), 120);
        let empty = random.find(start.sizes.slots, |slot| start.disk.numbers[slot] == 0);
        let Some(slot) = empty.filter(|_| start.disk.highest[0] < HIGH - 2) else { continue };
        let seed = random.next();
        linked::all().iter().for_each(|own| cut_between(own, &start, slot, seed));
        creates += 1;
    }
    println!("{creates} creates");
    assert!(creates > BOARDS / 2);
}

/// A table of another length than one is answered 1 by every call.
#[test]
fn its_length() {
    for highest in [vec![], vec![7, 7]] {
        let mut before = restarts(&pack([0, 40, 0, 0], 50), 50);
        before.disk.highest = highest;
        apply(&before, 0x01, &[0, 0, 60], Answer::refused(1));
        import(&before, [0, 0], 60, &sheet(), Answer::refused(1));
        for subject in linked::all() {
            let mut keeper = Keeper { memory: Memory::zeros(&BOARD), ..before.clone() };
            assert_eq!((subject.restart)(&mut keeper), Answer::refused(1), "{}", subject.name);
            assert_eq!((subject.format)(&mut keeper, &[0, 0]), Answer::refused(1), "{}", subject.name);
            assert_eq!((subject.page_look)(&before, 0, 0).refusal, 1, "{}", subject.name);
            assert_eq!((subject.export)(&before, 1, &mut [0; 99]), Answer::refused(1), "{}", subject.name);
            assert_eq!(keeper.disk, before.disk, "{}", subject.name);
        }
    }
}
