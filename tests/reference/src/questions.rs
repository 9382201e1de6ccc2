//! Questions 3 to 27, asked in number order, 32 just after 3 and 33 just after 6; each says yes to the events that it does not concern. Of
//! import it has 3, 32, 5, 6 and 33, of export 3, 4 and 9: carry.rs asks what they ask of a sheet.

use crate::accounts;
use crate::event::Event;
use crate::events::line::{treatment, Treatment};
use crate::keeper::Keeper;
use crate::queue;
use crate::rules::View;
use crate::tables::{LINE, LIVE, NO_TRANSFER, NULLED, READING, RELEASED};
use std::ops::Range;

/// No design is created or imported under this number or a higher one; older packs have such designs.
pub const HIGH: u32 = 2_147_483_648;

type Question = fn(&Keeper, Event) -> bool;

const ASKED: [(u32, Question); 25] = [
    (3, in_range),
    (32, number_low),
    (4, slot_filled),
    (5, slot_empty),
    (6, number_new),
    (33, number_above),
    (7, map_zero),
    (8, active),
    (9, inactive),
    (10, no_update),
    (11, no_page_in_frame),
    (12, stored_as_held),
    (13, in_a_frame),
    (14, not_in_transfer),
    (15, in_no_frame),
    (16, not_wired),
    (17, wired),
    (18, below_limit),
    (19, record_free),
    (20, frame_free),
    (21, list_not_empty),
    (22, under_way),
    (25, can_move),
    (26, within_limits),
    (27, room_in_line),
];

/// The number of the first question that says no, else 0.
pub fn refusal(keeper: &Keeper, event: Event) -> u32 {
    let no = ASKED.iter().find(|(_, question)| !question(keeper, event));
    no.map_or(0, |&(number, _)| number)
}

fn in_range(keeper: &Keeper, event: Event) -> bool {
    let sizes = &keeper.sizes;
    let slot_ok = event.slot().is_none_or(|slot| slot < sizes.slots);
    slot_ok
        && match event {
            Event::Create { account, number, .. } | Event::Import { account, number, .. } => {
                account < sizes.accounts && number > 0
            }
            Event::Limit { account, pages } => account < sizes.accounts && pages <= 65_535,
            Event::Move { giver, taker, .. } => giver < sizes.accounts && taker < sizes.accounts,
            Event::Read { page, word, .. } | Event::Write { page, word, .. } => {
                page < sizes.pages && word < sizes.words
            }
            Event::Fault { page, .. }
            | Event::Wire { page, .. }
            | Event::Unwire { page, .. }
            | Event::Join { page, .. }
            | Event::Look { page, .. } => page < sizes.pages,
            Event::Truncate { count, .. } => count <= sizes.pages,
            Event::PageDone { frame, good } => frame < sizes.frames && good <= 1,
            Event::MapDone { good, .. } => good <= 1,
            _ => true,
        }
}

/// The caller's number. Those that stand in slots, and a sheet's own, may be higher.
fn number_low(_: &Keeper, event: Event) -> bool {
    match event {
        Event::Create { number, .. } | Event::Import { number, .. } => number < HIGH,
        _ => true,
    }
}

fn slot_filled(keeper: &Keeper, event: Event) -> bool {
    match event {
        Event::Create { .. } | Event::Join { .. } | Event::Import { .. } => true,
        _ => event.slot().is_none_or(|slot| keeper.disk.numbers[slot] != 0),
    }
}

fn slot_empty(keeper: &Keeper, event: Event) -> bool {
    match event {
        Event::Create { slot, .. } | Event::Import { slot, .. } => keeper.disk.numbers[slot] == 0,
        _ => true,
    }
}

fn number_new(keeper: &Keeper, event: Event) -> bool {
    match event {
        Event::Create { number, .. } | Event::Import { number, .. } => !keeper.disk.numbers.contains(&number),
        _ => true,
    }
}

/// A number is never given twice: each is above all that were.
fn number_above(keeper: &Keeper, event: Event) -> bool {
    match event {
        Event::Create { number, .. } | Event::Import { number, .. } => number > keeper.disk.highest[0],
        _ => true,
    }
}

fn map_zero(keeper: &Keeper, event: Event) -> bool {
    match event {
        Event::Delete { slot } => keeper.pages_of(slot).all(|page| keeper.disk.maps[page] == 0),
        _ => true,
    }
}

fn active(keeper: &Keeper, event: Event) -> bool {
    match event {
        Event::Create { .. } | Event::Delete { .. } | Event::Activate { .. } | Event::Join { .. } => true,
        Event::Export { .. } | Event::Import { .. } => true,
        _ => event.slot().is_none_or(|slot| keeper.memory.active[slot] == 1),
    }
}

fn inactive(keeper: &Keeper, event: Event) -> bool {
    match event {
        Event::Activate { slot } | Event::Delete { slot } | Event::Export { slot } => keeper.memory.active[slot] == 0,
        _ => true,
    }
}

fn no_update(keeper: &Keeper, event: Event) -> bool {
    match event {
        Event::Update { slot } | Event::Deactivate { slot } => keeper.memory.updating[slot] == 0,
        _ => true,
    }
}

fn no_page_in_frame(keeper: &Keeper, event: Event) -> bool {
    match event {
        Event::Deactivate { slot } => keeper.pages_of(slot).all(|page| keeper.frame_of(page).is_none()),
        _ => true,
    }
}

/// The map is what an update now would store, and no record of the slot is nulled or released.
fn stored_as_held(keeper: &Keeper, event: Event) -> bool {
    let Event::Deactivate { slot } = event else {
        return true;
    };
    let memory = &keeper.memory;
    let stored = |page| if keeper.holds(page, LIVE) { memory.addresses[page] } else { 0 };
    let same = keeper.pages_of(slot).all(|page| keeper.disk.maps[page] == stored(page));
    let own = |record: usize| memory.owners[record] as usize == slot;
    let pending = |record: usize| matches!(memory.states[record], NULLED | RELEASED);
    same && !(0..keeper.sizes.records).any(|record| own(record) && pending(record))
}

/// The flat numbers of the pages that an event concerns.
fn concerned(keeper: &Keeper, event: Event) -> Range<usize> {
    match event {
        Event::Read { slot, page, .. }
        | Event::Write { slot, page, .. }
        | Event::Look { slot, page }
        | Event::Wire { slot, page }
        | Event::Unwire { slot, page }
        | Event::Fault { slot, page } => keeper.flat(slot, page)..keeper.flat(slot, page) + 1,
        Event::Truncate { slot, count } => keeper.flat(slot, count)..keeper.pages_of(slot).end,
        _ => 0..0,
    }
}

/// The frames of the pages that an event concerns.
fn frames_concerned(keeper: &Keeper, event: Event) -> impl Iterator<Item = usize> + '_ {
    concerned(keeper, event).filter_map(|page| keeper.frame_of(page))
}

fn in_a_frame(keeper: &Keeper, event: Event) -> bool {
    match event {
        Event::Fault { .. } | Event::Truncate { .. } => true,
        _ => concerned(keeper, event).all(|page| keeper.frame_of(page).is_some()),
    }
}

/// A read or a look waits for a read of the page only, every other event for its write too.
fn not_in_transfer(keeper: &Keeper, event: Event) -> bool {
    let waits = |transfer: u8| match event {
        Event::Read { .. } | Event::Look { .. } => transfer == READING,
        _ => transfer != NO_TRANSFER,
    };
    frames_concerned(keeper, event).all(|frame| !waits(keeper.memory.frames[frame].transfer))
}

fn in_no_frame(keeper: &Keeper, event: Event) -> bool {
    match event {
        Event::Fault { .. } => frames_concerned(keeper, event).next().is_none(),
        _ => true,
    }
}

fn not_wired(keeper: &Keeper, event: Event) -> bool {
    match event {
        Event::Wire { .. } | Event::Truncate { .. } => {
            frames_concerned(keeper, event).all(|frame| keeper.memory.frames[frame].wired == 0)
        }
        _ => true,
    }
}

fn wired(keeper: &Keeper, event: Event) -> bool {
    match event {
        Event::Unwire { .. } => {
            frames_concerned(keeper, event).all(|frame| keeper.memory.frames[frame].wired == 1)
        }
        _ => true,
    }
}

fn below_limit(keeper: &Keeper, event: Event) -> bool {
    match event {
        Event::Write { slot, page, .. } if !keeper.charged(keeper.flat(slot, page)) => {
            let payer = keeper.payer(slot);
            keeper.memory.used[payer] < keeper.disk.limits[payer]
        }
        _ => true,
    }
}

fn record_free(keeper: &Keeper, event: Event) -> bool {
    match event {
        Event::Fault { slot, page } if keeper.record_of(keeper.flat(slot, page)).is_none() => {
            keeper.memory.pool.free > 0
        }
        _ => true,
    }
}

fn frame_free(keeper: &Keeper, event: Event) -> bool {
    match event {
        Event::Fault { .. } => queue::first(&keeper.memory.free_queue).is_some(),
        _ => true,
    }
}

/// A claim, and a turn that claims.
fn list_not_empty(keeper: &Keeper, event: Event) -> bool {
    let claims = match event {
        Event::Claim => true,
        Event::Turn => matches!(treatment(keeper), Treatment::Claim),
        _ => false,
    };
    !claims || queue::first(&keeper.memory.removal_list).is_some()
}

fn under_way(keeper: &Keeper, event: Event) -> bool {
    match event {
        Event::PageDone { frame, .. } => keeper.memory.frames[frame].transfer != NO_TRANSFER,
        Event::MapDone { slot, .. } => keeper.memory.updating[slot] == 1,
        _ => true,
    }
}

/// The two are parent and child, m is above 0, the giver has m, and the taker stays at 65,535 or below.
fn can_move(keeper: &Keeper, event: Event) -> bool {
    let Event::Move { giver, taker, pages } = event else {
        return true;
    };
    let limit = |account: usize| keeper.disk.limits[account] as usize;
    let kin = accounts::kin(&keeper.disk.parents, giver, taker);
    kin && pages > 0 && limit(giver) >= pages && limit(taker) + pages <= 65_535
}

/// Each account whose limit or used count the move changes has used at most its limit afterwards.
fn within_limits(keeper: &Keeper, event: Event) -> bool {
    let Event::Move { giver, taker, pages } = event else {
        return true;
    };
    let (limits, used) = (&keeper.disk.limits, &keeper.memory.used);
    let after = accounts::moved(limits, giver, taker, pages);
    let counts = accounts::counts(&View::of(keeper), &after);
    (0..keeper.sizes.accounts).all(|account| {
        let same = after[account] == limits[account] && counts[account] == used[account];
        same || counts[account] <= after[account]
    })
}

fn room_in_line(keeper: &Keeper, event: Event) -> bool {
    match event {
        Event::Join { .. } => queue::length(&keeper.memory.line) < LINE,
        _ => true,
    }
}
