//! A run: many lists of events at mixed sizes, two subjects side by side.

use super::act::{Act, Before, Call};
use super::batch::{self, Batch};
use super::bound;
use super::choose::{Chooser, LARGE};
use super::compare::{compare, promises, Side};
use super::counts::Counts;
use super::random::Random;
use super::shadow::Shadow;
use super::{cut, damage, high, misfit, trees, Subject};
use crate::bench::disk;
use crate::keeper::Keeper;
use crate::rules;
use crate::tables::Sizes;

/// Drives both subjects by lists until so many calls are made. Panics at the first disagreement, saying where.
pub fn run(subjects: [Subject; 2], seed: u64, calls: u64) -> Counts {
    let mut counts = Counts::default();
    let mut random = Random::new(seed);
    while counts.calls < calls {
        let (list_seed, sizes, length) = (random.next(), mixed(&mut random), random.up_to(800));
        let length = if sizes.records * sizes.words > 100_000 { length.min(200) } else { length };
        list(&subjects, sizes, list_seed, length, &mut counts);
    }
    counts
}

/// A run with the seed and the number of calls that SEED and CALLS set from outside, for another run or a longer one.
pub fn run_as_set(subjects: [Subject; 2]) -> Counts {
    let setting = |name: &str, otherwise: u64| {
        std::env::var(name).map_or(otherwise, |value| value.parse().expect("a number"))
    };
    run(subjects, setting("SEED", 1), setting("CALLS", 200_000))
}

/// Mostly small sizes, where everything runs short; sometimes larger ones, now and then the largest.
fn mixed(random: &mut Random) -> Sizes {
    let most = match random.below(200) {
        0 => return Sizes::MOST,
        1 => [1024, 4096, 64, 64, 256, 16, 256],
        2 => [1, 4096, 64, 64, 256, 16, 256],
        3..=9 => [64, 300, 64, 16, 32, 16, 100],
        10..=39 => [8, 60, 12, 6, 12, 8, 12],
        40..=49 => return crate::program::SIZES,
        50..=64 => return roomy(random),
        _ => [3, 12, 5, 4, 5, 5, 4],
    };
    let [words, records, frames, slots, pages, accounts, chip] = most.map(|most| random.up_to(most));
    Sizes { words, records, frames, slots, pages, accounts, chip }
}

/// More records than a few words of the free map tell, and more pages than records.
fn roomy(random: &mut Random) -> Sizes {
    Sizes {
        words: 1,
        records: LARGE + random.below(400),
        frames: random.up_to(8),
        slots: 8,
        pages: 70,
        accounts: 2,
        chip: random.up_to(70),
    }
}

/// A disk on which at most three records are free, if the designs have pages enough; one slot is empty, if there are two.
fn nearly_full(sizes: Sizes, random: &mut Random) -> Keeper {
    let mut keeper = Keeper::lent(sizes);
    keeper.disk.parents = trees::tree(sizes.accounts, random);
    let filled = (sizes.slots - 1).max(1);
    for slot in 0..filled {
        keeper.disk.numbers[slot] = slot as u32 + 1;
        keeper.disk.accounts[slot] = random.below(sizes.accounts) as u16;
    }
    let free = random.up_to(3);
    let listed = sizes.records.saturating_sub(free).min(filled * sizes.pages);
    if random.percent(50) {
        high::age(&mut keeper, random.next());
    }
    disk::list(&mut keeper, filled, listed, random);
    keeper
}

/// Sizes at which a call takes little time.
fn small(sizes: &Sizes) -> bool {
    sizes.records * sizes.words <= 1000 && sizes.all_pages() <= 1000
}

/// One list, from format on; or from a disk that is nearly full.
fn list(subjects: &[Subject; 2], sizes: Sizes, seed: u64, length: usize, counts: &mut Counts) {
    let mut chooser = Chooser::new(seed, &sizes);
    let start = match chooser.full {
        true => nearly_full(sizes, &mut chooser.random),
        false => Keeper::lent(sizes),
    };
    let mut keepers = [start.clone(), start];
    let mut shadow = Shadow::new(&keepers[0]);
    let mut cuts = Random::new(!seed);
    let mut number = 0;
    while number < length {
        let act = chooser.next(&keepers[0]);
        let (batch, next) = stretch(&act, &keepers[0], &mut chooser, &mut cuts);
        let went = batch.iter().try_for_each(|batch| {
            number += batch.requests.len();
            batch::carry_out(subjects, &mut keepers, &mut shadow, batch, &mut cuts, counts)
        });
        let went = went.and_then(|()| match next {
            Some(act) => step(subjects, &mut keepers, &mut shadow, &act, counts),
            None => Ok(()),
        });
        let went = went.and_then(|()| match cuts.below(if small(&sizes) { 100 } else { 1000 }) {
            0 if rules::kept(&keepers[0]) => {
                bound::run(subjects, &keepers[0], cuts.next(), &mut counts.bound)
            }
            _ => Ok(()),
        });
        number += 1;
        if let Err(what) = went {
            let names = [subjects[0].name, subjects[1].name];
            panic!("{what}\n{names:?}, list seed {seed}, {sizes:?}, act {number}: {next:?}, or a batch before it");
        }
    }
}

/// One time in six the act begins a stretch that is made in one call: the events from it on, chosen one after the other by what they
/// leave, and the act that ends the stretch; or the same event some times, of tables damaged. Otherwise the act alone.
fn stretch(
    act: &Act,
    keeper: &Keeper,
    chooser: &mut Chooser,
    cuts: &mut Random,
) -> (Option<Batch>, Option<Act>) {
    if !cuts.percent(16) {
        return (None, Some(*act));
    }
    let most = cuts.up_to(40);
    match (act.before, act.call) {
        (Before::Damage(_) | Before::Misfit(_), Call::Apply(request)) => {
            (Some(Batch { before: act.before, requests: vec![request; most / 8] }), None)
        }
        (Before::Nothing, Call::Apply(_)) => {
            let (mut ahead, mut requests, mut next) = (keeper.clone(), Vec::new(), *act);
            while let Some(request) = batch::plain(&next).filter(|_| requests.len() < most) {
                ahead.apply(request);
                requests.push(request);
                next = chooser.next(&ahead);
            }
            (Some(Batch { before: Before::Nothing, requests }), Some(next))
        }
        _ => (None, Some(*act)),
    }
}

/// One act on both sides, compared; damage is undone after it.
fn step(
    subjects: &[Subject; 2],
    keepers: &mut [Keeper; 2],
    shadow: &mut Shadow,
    act: &Act,
    counts: &mut Counts,
) -> Result<(), String> {
    let undo = matches!(act.before, Before::Damage(_) | Before::Misfit(_)).then(|| keepers.clone());
    let [prepared, _] = keepers.each_mut().map(|keeper| prepare(keeper, act.before));
    let before = keepers[0].clone();
    note(act.before, prepared, &before, counts)?;
    let outcomes = [0, 1].map(|side| act.call.make(&subjects[side], &mut keepers[side]));
    let sides = [0, 1].map(|side| Side { outcome: outcomes[side].clone(), after: &keepers[side] });
    counts.count_call(&act.call, &outcomes[0], &before, &keepers[0]);
    compare(&before, &sides[0], &sides[1])?;
    promises(&act.call, &before, &sides[0])?;
    match undo {
        Some(sound) => *keepers = sound,
        None => shadow.follow(act, &keepers[0], &outcomes[0])?,
    }
    Ok(())
}

/// What was done before a call: the rule that a damage is aimed at, if it is, and the stores of a create or an import that a cut falls in.
#[derive(Default)]
pub struct Prepared {
    aimed: Option<&'static str>,
    inside: cut::Inside,
}

pub fn prepare(keeper: &mut Keeper, before: Before) -> Prepared {
    let mut prepared = Prepared::default();
    match before {
        Before::Nothing => {}
        Before::Cut(seed) => cut::cut(keeper, seed),
        Before::CutInside(seed) => {
            prepared.inside = cut::inside(keeper, seed);
            cut::cut(keeper, seed);
        }
        Before::Age(seed) => high::age(keeper, seed),
        Before::Damage(seed) => prepared.aimed = damage::damage(keeper, seed),
        Before::Misfit(seed) => misfit::misfit(keeper, seed),
    }
    prepared
}

/// Counts cuts, and the rules that alone refuse a damaged table; an aimed damage must have hit.
fn note(act: Before, prepared: Prepared, keeper: &Keeper, counts: &mut Counts) -> Result<(), String> {
    let aimed = prepared.aimed;
    match act {
        Before::Cut(_) => counts.cuts += 1,
        Before::CutInside(_) => {
            counts.cuts += 1;
            counts.inside += (prepared.inside.made > 0) as u64;
            counts.numbers.between += (prepared.inside.create && prepared.inside.made > 0) as u64;
        }
        Before::Damage(_) => {
            let broken = rules::broken(keeper);
            if aimed.is_some_and(|rule| broken != [rule]) {
                return Err(format!("a damage aimed at {aimed:?} breaks {broken:?}"));
            }
            if let [alone] = broken[..] {
                *counts.alone.entry(alone).or_default() += 1;
            }
        }
        _ => {}
    }
    Ok(())
}
