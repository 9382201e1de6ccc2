//! Values that name something name something that exists; switches are 0 or 1.

use crate::tables::{Frame, Memory, Sizes, LEAVING, WRITING};

pub const NAME: &str = "what names something names something that exists";

pub fn in_range(sizes: &Sizes, memory: &Memory) -> bool {
    let most = |table: &[u16], most: usize| table.iter().all(|&entry| entry as usize <= most);
    most(&memory.addresses, sizes.records)
        && most(&memory.images, sizes.records)
        && most(&memory.free_queue, sizes.frames)
        && most(&memory.removal_list, sizes.frames)
        && memory.states.iter().all(|&state| state <= LEAVING)
        && memory.owners.iter().all(|&owner| (owner as usize) < sizes.slots)
        && memory.active.iter().all(|&switch| switch <= 1)
        && memory.updating.iter().all(|&switch| switch <= 1)
        && memory.frames.iter().all(|frame| frame_in_range(sizes, frame))
}

fn frame_in_range(sizes: &Sizes, frame: &Frame) -> bool {
    let switches = [frame.used, frame.modified, frame.wired, frame.initial];
    frame.page as usize <= sizes.all_pages()
        && frame.transfer <= WRITING
        && switches.iter().all(|&switch| switch <= 1)
}
