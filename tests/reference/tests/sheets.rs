//! Import and export: the reference, the C port and the proved keeper over random sheets and boards, compared by answer, result, tables
//! and every byte of the buffer.

use reference::drive::act::{buffer, Call, Outcome};
use reference::drive::boards::{board, page_sizes, sizes};
use reference::drive::compare::{compare, promises, Side};
use reference::drive::random::Random;
use reference::drive::{damage, misfit, sheets, Subject};
use reference::keeper::Keeper;
use reference::linked;
use reference::questions::HIGH;
use reference::sheet::Sheet;
use std::collections::BTreeMap;

const BOARDS: u64 = 20_000;

/// How often each answer was given; 0 is carried out.
type Answers = BTreeMap<u32, u64>;

/// What was seen: the answers, and the imports that took in more than one page.
#[derive(Default)]
struct Seen {
    imports: Answers,
    exports: Answers,
    of_pages: u64,
}

/// Carries a call out on every keeper, from equal tables, and compares; what they answer, and the tables after it.
fn alike(call: &Call, before: &Keeper, make: impl Fn(&Subject, &mut Keeper) -> Outcome) -> (Outcome, Keeper) {
    let mut sides = linked::all().into_iter().map(|subject| {
        let mut after = before.clone();
        (subject.name, make(&subject, &mut after), after)
    });
    let (_, outcome, wanted) = sides.next().expect("the reference");
    let reference = Side { outcome: outcome.clone(), after: &wanted };
    promises(call, before, &reference).unwrap_or_else(|what| panic!("{what}: {call:?}"));
    for (name, own, after) in sides {
        let side = Side { outcome: own, after: &after };
        compare(before, &reference, &side).unwrap_or_else(|what| panic!("{name}: {what}: {call:?}"));
    }
    (outcome, wanted)
}

/// A sheet for these tables; one in five is hurt in any of its bytes.
fn random_sheet(keeper: &Keeper, number: u32, random: &mut Random) -> Vec<u8> {
    let mut bytes = sheets::sheet(random.next(), &keeper.sizes, number);
    if random.percent(20) && !bytes.is_empty() {
        let at = random.below(bytes.len());
        bytes[at] = random.next() as u8;
    }
    bytes
}

/// An import that sound tables allow, mostly, into these or into hurt ones; what they are after it.
fn import(keeper: &Keeper, lent: &Keeper, random: &mut Random, seen: &mut Seen) -> Keeper {
    let empty = random.find(keeper.sizes.slots, |slot| keeper.disk.numbers[slot] == 0);
    let far = [keeper.sizes.slots, usize::MAX];
    let slot = match random.below(20) {
        0 => random.pick(&far),
        1..=2 => random.below(keeper.sizes.slots),
        _ => empty.unwrap_or(0),
    };
    let far = [keeper.sizes.accounts, usize::MAX];
    let account = if random.percent(5) { random.pick(&far) } else { random.below(keeper.sizes.accounts) };
    let number = match random.below(10) {
        0 => random.pick(&[0, HIGH - 1]),
        3 => random.pick(&[HIGH - 1, HIGH, HIGH + 1, u32::MAX]),
        1..=2 => keeper.disk.numbers[random.find(keeper.sizes.slots, |slot| keeper.disk.numbers[slot] != 0).unwrap_or(0)],
        _ => 1000 + random.below(1000) as u32,
    };
    let bytes = random_sheet(keeper, number, random);
    let call = Call::Import { slot, account, number, sheet: 0 };
    let (outcome, after) = alike(&call, lent, |subject, keeper| {
        Outcome::Answer((subject.import)(keeper, slot, account, number, &bytes))
    });
    *seen.imports.entry(outcome.refusal()).or_default() += 1;
    if outcome.refusal() == 0 {
        let own = Sheet::parse(&bytes).expect("question 29");
        seen.of_pages += (own.woven.len() > 1) as u64;
        let carried = Sheet { number, ..own };
        assert_eq!((after.sheet_of(slot), after.disk.accounts[slot]), (carried, account as u16));
    }
    after
}

fn export(keeper: &Keeper, lent: &Keeper, random: &mut Random, seen: &mut Seen) {
    let slots = keeper.sizes.slots;
    let far = [slots, usize::MAX];
    let slot = if random.percent(5) { random.pick(&far) } else { random.below(slots) };
    let own = if slot < slots { keeper.sheet_of(slot).print().len() } else { 17 };
    let rooms = [own, own + random.below(50), own - 1, random.below(own), 0];
    let room = random.pick(&rooms);
    let call = Call::Export { slot, room };
    let (outcome, _) = alike(&call, lent, |subject, keeper| {
        let mut buffer = buffer(room);
        let answer = (subject.export)(keeper, slot, &mut buffer);
        Outcome::Sheet(answer, buffer)
    });
    *seen.exports.entry(outcome.refusal()).or_default() += 1;
}

/// The tables as they are, or hurt so that question 1 or 2 may refuse them.
fn sometimes_hurt(keeper: &Keeper, random: &mut Random) -> Keeper {
    let mut keeper = keeper.clone();
    match random.below(12) {
        0 => drop(damage::damage(&mut keeper, random.next())),
        1 => misfit::misfit(&mut keeper, random.next()),
        _ => {}
    }
    keeper
}

/// Each of these answers was given so often.
fn often(answers: &Answers, wanted: &[u32], least: u64) {
    println!("{answers:?}");
    for number in wanted {
        assert!(answers.get(number).is_some_and(|&count| count >= least), "{number}: seldom, {answers:?}");
    }
}

#[test]
fn carried_alike() {
    let mut seen = Seen::default();
    for seed in 0..BOARDS {
        let mut random = Random::new(seed);
        let (words, pages) = page_sizes(&mut random);
        let mut keeper = board(random.next(), sizes(&mut random, words, pages), 120);
        for _ in 0..4 {
            let hurt = sometimes_hurt(&keeper, &mut random);
            if hurt != keeper {
                import(&keeper, &hurt, &mut random, &mut seen);
                export(&keeper, &hurt, &mut random, &mut seen);
            }
            let after = import(&keeper, &keeper, &mut random, &mut seen);
            export(&after, &after, &mut random, &mut seen);
            keeper = if random.percent(30) { after } else { keeper };
        }
    }
    often(&seen.imports, &[0, 1, 2, 3, 32, 5, 6, 33, 29, 30, 18, 19], BOARDS / 20);
    often(&seen.exports, &[0, 1, 2, 3, 4, 9, 31], BOARDS / 20);
    assert!(seen.of_pages > BOARDS / 20, "{} imports of pages", seen.of_pages);
}

/// The largest sizes: the longest sheet there is, and one that fills the whole disk.
#[test]
fn largest_alike() {
    let mut answers = Answers::new();
    for (words, records) in [(1024, 256), (1024, 255), (1, 4096)] {
        let sizes = reference::tables::Sizes { words, records, ..reference::tables::Sizes::MOST };
        let mut keeper = Keeper::lent(sizes);
        keeper.disk.limits.fill(u16::MAX);
        keeper.restart();
        let woven = (0..256).map(|page| (page, vec![page as u32 + 1; words])).collect();
        let bytes = Sheet { words, pages: 256, number: 7, woven }.print();
        assert_eq!(bytes.len(), 17 + 256 * (5 + 4 * words));
        let call = Call::Import { slot: 63, account: 15, number: 9, sheet: 0 };
        let (outcome, after) = alike(&call, &keeper, |subject, keeper| {
            Outcome::Answer((subject.import)(keeper, 63, 15, 9, &bytes))
        });
        *answers.entry(outcome.refusal()).or_default() += 1;
        for room in [bytes.len(), bytes.len() + 1, bytes.len() - 1] {
            let call = Call::Export { slot: 63, room };
            alike(&call, &after, |subject, keeper| {
                let mut buffer = buffer(room);
                let answer = (subject.export)(keeper, 63, &mut buffer);
                Outcome::Sheet(answer, buffer)
            });
        }
    }
    assert_eq!(answers, BTreeMap::from([(0, 2), (19, 1)]));
}

/// The parser is total, and what it takes is what printing gives: over random bytes, and over every byte of a sheet with every value.
#[test]
fn parsed_is_printed() {
    let sizes = reference::program::SIZES;
    let (mut random, mut of_form) = (Random::new(1), 0);
    let mut takes = |bytes: &[u8]| {
        let sheet = Sheet::parse(bytes);
        assert!(sheet.as_ref().is_none_or(|sheet| sheet.print() == bytes), "{bytes:?}");
        of_form += sheet.is_some() as u64;
    };
    for _ in 0..100_000 {
        takes(&sheets::sheet(random.next(), &sizes, 3));
    }
    let whole = sheets::of_form(&mut random, 2, 3, 3).print();
    for at in 0..whole.len() {
        for value in 0..=255 {
            let mut bytes = whole.clone();
            bytes[at] = value;
            takes(&bytes);
        }
        takes(&whole[..at]);
    }
    assert!(of_form > 50_000, "{of_form}");
}
