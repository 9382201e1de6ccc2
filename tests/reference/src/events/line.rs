//! The waiting line: join, and a turn, which treats the request that waits longest.

use super::{claim, pages};
use crate::event::Event;
use crate::keeper::Keeper;
use crate::tables::NO_TRANSFER;
use crate::{questions, queue};

/// What a turn does for the first request.
pub enum Treatment {
    Nobody,
    Serve,
    ToTheBack,
    Fault { slot: usize, page: usize },
    Claim,
    SendAway(u32),
}

pub fn treatment(keeper: &Keeper) -> Treatment {
    let Some(flat) = queue::first(&keeper.memory.line) else {
        return Treatment::Nobody;
    };
    if let Some(frame) = keeper.frame_of(flat) {
        let moving = keeper.memory.frames[frame].transfer != NO_TRANSFER;
        return if moving { Treatment::ToTheBack } else { Treatment::Serve };
    }
    let (slot, page) = (flat / keeper.sizes.pages, flat % keeper.sizes.pages);
    match questions::refusal(keeper, Event::Fault { slot, page }) {
        0 => Treatment::Fault { slot, page },
        20 => Treatment::Claim,
        number => Treatment::SendAway(number),
    }
}

pub fn join(keeper: &mut Keeper, slot: usize, page: usize) -> u32 {
    let flat = keeper.flat(slot, page);
    queue::push_end(&mut keeper.memory.line, flat);
    0
}

/// 1 for a request served, the number that sent it away, else 0: neither the frame of a fault nor the looks of a claim.
pub fn turn(keeper: &mut Keeper) -> u32 {
    match treatment(keeper) {
        Treatment::Nobody => 0,
        Treatment::Serve => {
            queue::pop(&mut keeper.memory.line);
            1
        }
        Treatment::ToTheBack => {
            let flat = queue::first(&keeper.memory.line).expect("somebody waits");
            queue::pop(&mut keeper.memory.line);
            queue::push_end(&mut keeper.memory.line, flat);
            0
        }
        Treatment::Fault { slot, page } => {
            pages::fault(keeper, slot, page);
            0
        }
        Treatment::Claim => {
            claim::claim(keeper);
            0
        }
        Treatment::SendAway(number) => {
            queue::pop(&mut keeper.memory.line);
            number
        }
    }
}
