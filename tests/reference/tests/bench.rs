//! The lists that speed is measured over: every kind is there often, and the tables stay in use.

use reference::bench::list::{list, List};
use reference::bench::stretch::{stretch, LENGTH, STRETCHES};
use reference::bench::{kinds, FORMAT, REFUSED, RESTART, SIZES};
use reference::drive::counts::tag;
use reference::keeper::Keeper;
use reference::queue;

fn calls(list: &List, kind: usize) -> usize {
    list.steps.iter().filter(|step| step.kind == kind).count()
}

/// At least half of the frames taken, of the records taken, of the designs active.
fn in_use(keeper: &Keeper) -> [bool; 3] {
    let (sizes, memory) = (&keeper.sizes, &keeper.memory);
    let active = memory.active.iter().filter(|&&switch| switch == 1).count();
    [
        2 * queue::length(&memory.free_queue) <= sizes.frames,
        2 * memory.pool.free as usize <= sizes.records,
        2 * active >= sizes.slots,
    ]
}

#[test]
fn every_kind_is_there_and_the_tables_are_in_use() {
    for (name, sizes) in SIZES {
        let list = list(sizes, 1000, 10);
        for (kind, kind_name) in kinds() {
            let least = if [FORMAT, RESTART, REFUSED].contains(&kind) { 10 } else { 40 };
            assert!(calls(&list, kind) >= least, "{name}: {kind_name}");
        }
        for keeper in [&list.start, &list.after_mixed] {
            assert_eq!(in_use(keeper), [true; 3], "{name}: frames, records, designs");
        }
    }
}

/// Four of five events of a stretch are of its kinds, and it has all of them.
#[test]
fn stretches_have_their_kinds() {
    for (name, sizes) in SIZES {
        for kinds in STRETCHES {
            let stretch = stretch(sizes, kinds);
            let count =
                |kind: usize| stretch.requests.chunks(5).filter(|request| request[0] == tag(kind)).count();
            let own: usize = kinds.iter().map(|&kind| count(kind)).sum();
            assert!(own * 5 >= LENGTH * 4, "{name}: {}: {own}", stretch.name);
            assert!(
                kinds.iter().all(|&kind| count(kind) * kinds.len() * 5 >= LENGTH),
                "{name}: {}",
                stretch.name
            );
        }
    }
}
