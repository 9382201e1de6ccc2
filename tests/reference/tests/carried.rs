//! A design carried to another board: exported there, imported here and read, it shows equal words on every page, after a cut too. And a
//! cut inside an import: before its last store the slot is empty and all else is as it was.

use reference::drive::boards::{board, page_sizes, sizes};
use reference::drive::random::Random;
use reference::drive::{cut, sheets, Subject};
use reference::event::{Answer, Request};
use reference::keeper::Keeper;
use reference::linked;
use reference::questions::HIGH;
use reference::rules;
use reference::sheet::Sheet;
use reference::stores::Store;
use reference::tables::{Disk, Sizes, FREE, READING};

const BOARDS: u64 = 6_000;

fn apply(subject: &Subject, keeper: &mut Keeper, kind: u32, values: [usize; 3]) -> Answer {
    let [first, second, third] = values.map(|value| value as u32);
    (subject.apply)(keeper, Request { kind, first, second, third, fourth: 0 })
}

fn does(subject: &Subject, keeper: &mut Keeper, kind: u32, values: [usize; 3]) -> u32 {
    let answer = apply(subject, keeper, kind, values);
    assert_eq!(answer.refusal, 0, "{}: {kind} {values:?}", subject.name);
    answer.result
}

/// A page is brought in and read, word by word; none if it is a page of zeros and no record is free for it.
fn page_words(subject: &Subject, keeper: &mut Keeper, slot: usize, page: usize) -> Option<Vec<u32>> {
    let mut answer = apply(subject, keeper, 0x05, [slot, page, 0]);
    if answer.refusal == 20 {
        does(subject, keeper, 0x08, [0; 3]);
        answer = apply(subject, keeper, 0x05, [slot, page, 0]);
    }
    if answer.refusal == 19 {
        assert_eq!((keeper.disk.maps[keeper.flat(slot, page)], keeper.memory.pool.free), (0, 0));
        return None;
    }
    assert_eq!(answer.refusal, 0, "{}: a fault", subject.name);
    let frame = answer.result as usize;
    if keeper.memory.frames[frame].transfer == READING {
        does(subject, keeper, 0x0D, [frame, 1, 0]);
    }
    Some((0..keeper.sizes.words).map(|word| does(subject, keeper, 0x06, [slot, page, word])).collect())
}

/// After a restart the design is activated, and every page of it read.
fn read_back(subject: &Subject, keeper: &mut Keeper, slot: usize) -> Vec<Option<Vec<u32>>> {
    assert_eq!((subject.restart)(keeper), Answer::done(0), "{}: restart", subject.name);
    does(subject, keeper, 0x03, [slot, 0, 0]);
    (0..keeper.sizes.pages).map(|page| page_words(subject, keeper, slot, page)).collect()
}

/// The words of every page of a slot's design at rest.
fn texts(keeper: &Keeper, slot: usize) -> Vec<Vec<u32>> {
    let sheet = keeper.sheet_of(slot);
    (0..keeper.sizes.pages).map(|page| sheet.text(page)).collect()
}

/// The number that a board can give next.
fn next(keeper: &Keeper) -> u32 {
    keeper.disk.highest[0] + 1
}

/// Another board of the same W and N with an empty slot and numbers left to give, whose accounts may have any number of pages.
fn other_board(random: &mut Random, words: usize, pages: usize) -> Option<(Keeper, usize)> {
    let sizes = Sizes { records: random.up_to(60), ..sizes(random, words, pages) };
    let mut keeper = board(random.next(), sizes, 80);
    for account in 0..keeper.sizes.accounts {
        keeper.apply(Request { kind: 0x0F, first: account as u32, second: 65_535, third: 0, fourth: 0 });
    }
    let slot = random.find(keeper.sizes.slots, |slot| keeper.disk.numbers[slot] == 0)?;
    (keeper.disk.highest[0] < HIGH - 2).then_some((keeper, slot))
}

/// A board and a design at rest on it: one that a list of events made, the one with most pages, or one that came by a sheet.
fn design(random: &mut Random, words: usize, pages: usize) -> Option<(Keeper, usize)> {
    if random.percent(50) {
        let (mut keeper, slot) = other_board(random, words, pages)?;
        let number = next(&keeper);
        let sheet = sheets::of_form(random, words, pages, number).print();
        let answer = keeper.import(slot, 0, number, &sheet);
        return (answer.refusal == 0).then_some((keeper, slot));
    }
    let keeper = board(random.next(), sizes(random, words, pages), 200);
    let rests = |&slot: &usize| keeper.disk.numbers[slot] != 0 && keeper.memory.active[slot] == 0;
    let slot = (0..keeper.sizes.slots).filter(rests).max_by_key(|&slot| keeper.sheet_of(slot).woven.len())?;
    Some((keeper, slot))
}

/// Pages that were read and equal, and pages of zeros that no record was free for.
#[derive(Debug, Default)]
struct Read {
    designs: u64,
    woven: usize,
    equal: usize,
    no_record: usize,
    full: u64,
}

/// One design from one board to the other, by one keeper.
fn carry(subject: &Subject, from: (&Keeper, usize), to: (&Keeper, usize), seed: u64, read: &mut Read) {
    let mut random = Random::new(seed);
    let (mut keeper, slot) = (to.0.clone(), to.1);
    let mut bytes = vec![0; 17 + from.0.sizes.pages * (5 + 4 * from.0.sizes.words)];
    let answer = (subject.export)(from.0, from.1, &mut bytes);
    assert_eq!(answer.refusal, 0, "{}: export", subject.name);
    bytes.truncate(answer.result as usize);
    let account = random.below(keeper.sizes.accounts);
    let answer = (subject.import)(&mut keeper, slot, account, next(to.0), &bytes);
    if answer == Answer::refused(19) {
        read.full += 1;
        return;
    }
    assert_eq!(answer, Answer::done(from.0.disk.numbers[from.1]), "{}: import", subject.name);
    let wanted = texts(from.0, from.1);
    for _ in 0..2 {
        let words = read_back(subject, &mut keeper, slot);
        for (own, wanted) in words.iter().zip(&wanted) {
            assert!(own.as_ref().is_none_or(|own| own == wanted), "{}: {own:?}, not {wanted:?}", subject.name);
        }
        read.equal += words.iter().flatten().count();
        read.no_record += words.iter().filter(|words| words.is_none()).count();
        cut::cut(&mut keeper, random.next());
    }
    read.woven += wanted.iter().filter(|words| words.iter().any(|&word| word != 0)).count();
    read.designs += 1;
}

#[test]
fn carried_over() {
    let mut read = Read::default();
    for seed in 0..BOARDS {
        let mut random = Random::new(seed);
        let (words, pages) = page_sizes(&mut random);
        let Some((from, slot)) = design(&mut random, words, pages) else { continue };
        let Some((to, empty)) = other_board(&mut random, words, pages) else { continue };
        let seed = random.next();
        linked::all().iter().for_each(|own| carry(own, (&from, slot), (&to, empty), seed, &mut read));
    }
    println!("{read:?}");
    assert!(read.designs > BOARDS / 2 && read.woven as u64 > BOARDS / 2 && read.full > BOARDS / 100);
    assert!(read.equal > 10 * read.no_record);
}

/// The disk after the first stores, some transfers under way landed, memory lost; then a restart.
fn cut_after(subject: &Subject, start: &Keeper, stores: &[Store], seed: u64) -> Keeper {
    let mut keeper = start.clone();
    stores.iter().for_each(|store| store.make(&mut keeper.disk));
    cut::cut(&mut keeper, seed);
    assert_eq!((subject.restart)(&mut keeper), Answer::done(0), "{}: restart", subject.name);
    assert!(rules::kept(&keeper), "{}: a rule", subject.name);
    keeper
}

/// The records that stores write into.
fn written(stores: &[Store]) -> Vec<usize> {
    let record = |store: &Store| match store {
        Store::Record { record, .. } => Some(*record),
        _ => None,
    };
    stores.iter().filter_map(record).collect()
}

/// All is equal but the words of these records, which are free, and the highest number.
fn but_for(after: &Keeper, plain: &Keeper, highest: u32, records: &[usize]) {
    let mut wanted = plain.clone();
    wanted.disk.highest[0] = highest;
    for &record in records {
        assert_eq!(after.memory.states[record], FREE);
        let words = plain.words_of_record(record);
        wanted.disk.records[words.clone()].copy_from_slice(&after.disk.records[words]);
    }
    assert!(*after == wanted, "a cut inside an import left more than words of free records");
}

/// The slot has the design; the other slots and the words that they list are as without the import.
fn taken_in(after: &Keeper, plain: &Keeper, slot: usize, sheet: &Sheet) {
    assert_eq!(after.sheet_of(slot).woven, sheet.woven);
    for other in (0..plain.sizes.slots).filter(|&other| other != slot) {
        let listed = |keeper: &Keeper| keeper.disk.maps[keeper.pages_of(other)].to_vec();
        assert_eq!((after.sheet_of(other), listed(after)), (plain.sheet_of(other), listed(plain)));
    }
    let Disk { limits, parents, .. } = &after.disk;
    assert_eq!((limits, parents), (&plain.disk.limits, &plain.disk.parents));
}

/// A cut after each of the import's stores, by one keeper; the cuts.
fn cut_inside(subject: &Subject, start: &Keeper, slot: usize, sheet: &Sheet, seed: u64) -> u64 {
    let (account, bytes) = (Random::new(seed).below(start.sizes.accounts), sheet.print());
    let number = next(start);
    let stores = start.clone().take_in(slot, account, number, sheet);
    let mut whole = start.clone();
    assert_eq!((subject.import)(&mut whole, slot, account, number, &bytes), Answer::done(sheet.number));
    let mut disk = start.disk.clone();
    stores.iter().for_each(|store| store.make(&mut disk));
    assert!(whole.disk == disk, "{}: an import stored something else", subject.name);
    let plain = cut_after(subject, start, &[], seed);
    for made in 0..stores.len() {
        let mut after = cut_after(subject, start, &stores[..made], seed);
        assert_eq!((after.disk.numbers[slot], after.disk.accounts[slot]), (0, 0));
        assert!(after.disk.maps[after.pages_of(slot)].iter().all(|&entry| entry == 0));
        but_for(&after, &plain, if made > 0 { number } else { number - 1 }, &written(&stores[..made]));
        // the number is skipped; under the next one, what was refused or not before is so now
        let mut again = plain.clone();
        if made > 0 {
            assert_eq!((subject.import)(&mut after, slot, account, number, &bytes), Answer::refused(33));
        }
        let answers = [&mut after, &mut again].map(|keeper| (subject.import)(keeper, slot, account, number + 1, &bytes));
        assert_eq!(answers[0], answers[1]);
    }
    taken_in(&cut_after(subject, start, &stores, seed), &plain, slot, sheet);
    stores.len() as u64 + 1
}

#[test]
fn cuts_inside_an_import() {
    let (mut cuts, mut imports) = (0, 0);
    for seed in 0..BOARDS {
        let mut random = Random::new(!seed);
        let (words, pages) = page_sizes(&mut random);
        let Some((start, slot)) = other_board(&mut random, words, pages) else { continue };
        let sheet = sheets::of_form(&mut random, words, pages, next(&start));
        if sheet.woven.len() <= start.memory.pool.free as usize {
            let seed = random.next();
            cuts += linked::all().iter().map(|own| cut_inside(own, &start, slot, &sheet, seed)).sum::<u64>();
            imports += linked::all().len() as u64;
        }
    }
    println!("{imports} imports, {cuts} cuts");
    assert!(imports > BOARDS && cuts > 3 * imports);
}
