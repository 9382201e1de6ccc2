//! Mending: the reference, the C port and the proved keeper over random packs, compared by answer, list and disk part; and what the paper
//! promises of a mended pack.

use reference::drive::packs::pack;
use reference::event::Answer;
use reference::keeper::Keeper;
use reference::linked;
use reference::linked::c_port::Lent;
use reference::mend::{mend, places, Change};
use reference::questions::HIGH;
use reference::rules;
use reference::tables::{Disk, Memory, Sizes};

const PACKS: u64 = 100_000;
/// What the list has before: a place that nobody touched keeps it.
const UNTOUCHED: Change = Change { slot: 9, page: 9, old: 9, reason: 9 };

type Mended = (Answer, Disk, Vec<Change>);

fn by_reference(sizes: &Sizes, disk: &Disk, room: usize) -> Mended {
    let (mut disk, mut list) = (disk.clone(), vec![UNTOUCHED; room]);
    let answer = mend(sizes, &mut disk, &mut list);
    (answer, disk, list)
}

fn lent(sizes: &Sizes, disk: &Disk) -> Keeper {
    Keeper { sizes: *sizes, disk: disk.clone(), memory: Memory::zeros(&Sizes::default()) }
}

fn by_c_port(sizes: &Sizes, disk: &Disk, room: usize) -> Mended {
    let (mut keeper, mut list) = (lent(sizes, disk), vec![UNTOUCHED; room]);
    let answer = Lent::of(&mut keeper).mend(&mut list);
    (answer, keeper.disk, list)
}

#[cfg(keeper)]
fn by_proved(sizes: &Sizes, disk: &Disk, room: usize) -> Mended {
    let (mut keeper, mut list) = (lent(sizes, disk), vec![UNTOUCHED; room]);
    let answer = reference::linked::proved::mend(&mut keeper, &mut list);
    (answer, keeper.disk, list)
}

/// What all of them leave.
fn mended(sizes: &Sizes, disk: &Disk, room: usize, seed: u64) -> Mended {
    let wanted = by_reference(sizes, disk, room);
    assert_eq!(by_c_port(sizes, disk, room), wanted, "the C port, pack {seed}");
    #[cfg(keeper)]
    assert_eq!(by_proved(sizes, disk, room), wanted, "the proved keeper, pack {seed}");
    wanted
}

fn count(answer: Answer) -> usize {
    assert_eq!(answer.refusal, 0);
    answer.result as usize
}

#[test]
fn mended_alike() {
    let (mut reasons, mut sound, mut beyond) = ([0u64; 6], 0, 0);
    for seed in 0..PACKS {
        let (sizes, disk) = pack(seed);
        let room = places(&sizes) + (seed % 3) as usize;
        let (answer, after, list) = mended(&sizes, &disk, room, seed);
        let changes = count(answer);
        // a sound pack is unchanged; a mended one passes, but for parents that are not lower; mending it again changes nothing
        let kept = rules::disk::kept(&sizes, &disk);
        assert!(!kept || changes == 0, "pack {seed}");
        assert_eq!(changes == 0, after == disk, "pack {seed}");
        assert_eq!((&after.parents, &after.limits, &after.highest), (&disk.parents, &disk.limits, &disk.highest), "pack {seed}");
        let lower = rules::disk::lower(&disk.parents);
        let broken: &[&str] = if lower { &[] } else { &["a parent is a lower account"] };
        assert_eq!(rules::disk::broken(&sizes, &after), broken, "pack {seed}");
        beyond += !lower as u64;
        let (answer, again, _) = mended(&sizes, &after, room, seed);
        assert_eq!((count(answer), again), (0, after), "pack {seed}");
        assert!(list[changes..].iter().all(|&place| place == UNTOUCHED), "pack {seed}");
        list[..changes].iter().for_each(|change| reasons[change.reason as usize] += 1);
        sound += kept as u64;
    }
    println!("{PACKS} packs, {sound} of them sound, {beyond} with a wrong parent; changes by reason {:?}", &reasons[1..]);
    assert!(sound > PACKS / 10 && beyond > PACKS / 50 && reasons[1..].iter().all(|&changes| changes > PACKS / 10));
}

/// A number of 2,147,483,648 or more is left, unless it stands in a lower slot too; a pack with one is restarted, and the highest of the
/// others stored.
#[test]
fn high_numbers_stay() {
    let sizes = Sizes { words: 1, records: 4, frames: 1, slots: 4, pages: 2, accounts: 1, chip: 1 };
    let mut disk = Disk { numbers: vec![HIGH, 7, u32::MAX, HIGH - 1], ..Disk::zeros(&sizes) };
    disk.maps.copy_from_slice(&[1, 0, 0, 2, 4, 3, 0, 0]);
    let room = places(&sizes);
    assert_eq!(mended(&sizes, &disk, room, 0), (Answer::done(0), disk.clone(), vec![UNTOUCHED; room]));
    for subject in linked::all() {
        let mut keeper = Keeper { sizes, disk: disk.clone(), memory: Memory::zeros(&sizes) };
        assert_eq!((subject.restart)(&mut keeper), Answer::done(0), "{}", subject.name);
        let wanted = Disk { highest: vec![HIGH - 1], ..disk.clone() };
        assert!(keeper.disk == wanted && rules::kept(&keeper), "{}", subject.name);
    }
    let mut twice = disk.clone();
    twice.numbers[2] = HIGH;
    let (answer, after, _) = mended(&sizes, &twice, room, 1);
    assert_eq!((answer.refusal, after.numbers), (0, vec![HIGH, 7, 0, HIGH - 1]));
}

#[test]
fn refusals() {
    for seed in 0..2_000 {
        let (sizes, disk) = pack(seed);
        let short = places(&sizes) - 1;
        assert_eq!(mended(&sizes, &disk, short, seed), (Answer::refused(24), disk.clone(), vec![UNTOUCHED; short]));
        // 1 is asked before 24
        let mut other = disk.clone();
        match seed % 8 {
            0 => other.records.push(0),
            1 => other.numbers.push(0),
            2 => other.accounts.push(0),
            3 => other.maps.push(0),
            4 => other.limits.push(0),
            5 => other.parents.push(0),
            6 => other.highest.push(0),
            _ => other.highest.clear(),
        }
        assert_eq!(mended(&sizes, &other, short, seed), (Answer::refused(1), other.clone(), vec![UNTOUCHED; short]));
        let none = Sizes { records: 0, ..sizes };
        assert_eq!(mended(&none, &disk, short, seed).0, Answer::refused(1));
    }
}
