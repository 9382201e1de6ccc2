//! Claim: frees the first page of the removal list that was not used lately, or begins its write.

use super::{free_frame, set_state};
use crate::keeper::Keeper;
use crate::queue;
use crate::tables::{NULLED, WRITING};

/// The result is the number of looks; the look that takes the entry counts.
pub fn claim(keeper: &mut Keeper) -> u32 {
    let mut looks = 1;
    let mut frame = take_first(keeper);
    while passes(keeper, frame) {
        queue::push_end(&mut keeper.memory.removal_list, frame);
        frame = take_first(keeper);
        looks += 1;
    }
    take(keeper, frame);
    looks
}

fn take_first(keeper: &mut Keeper) -> usize {
    let frame = queue::first(&keeper.memory.removal_list).expect("question 21");
    queue::remove(&mut keeper.memory.removal_list, frame);
    frame
}

/// Whether the entry goes to the end once more; turns off what spared it.
fn passes(keeper: &mut Keeper, frame: usize) -> bool {
    let entry = &mut keeper.memory.frames[frame];
    let spared = entry.initial == 1 || entry.used == 1;
    entry.initial = 0;
    entry.used = 0;
    spared
}

/// An unmodified page or one of zeros leaves its frame; any other begins to be written.
fn take(keeper: &mut Keeper, frame: usize) {
    let entry = keeper.memory.frames[frame];
    let page = entry.page as usize - 1;
    let record = keeper.record_of(page).expect("a page in a frame has an address");
    let words = keeper.words_of_frame(frame);
    let zeros = keeper.memory.frame_words[words].iter().all(|&word| word == 0);
    if entry.modified == 1 && !zeros {
        keeper.memory.frames[frame].transfer = WRITING;
        return;
    }
    if entry.modified == 1 {
        set_state(keeper, record, NULLED);
        let payer = keeper.payer(page / keeper.sizes.pages);
        keeper.memory.used[payer] -= 1;
    }
    free_frame(keeper, frame);
}
