//! The memory rules about the waiting line.

use super::View;

/// The requests stand at the front, zeros after them.
pub fn packed(view: &View) -> bool {
    let waiting = view.memory.line.iter().take_while(|&&entry| entry != 0).count();
    view.memory.line[waiting..].iter().all(|&entry| entry == 0)
}

/// The same page may wait twice.
pub fn pages_exist(view: &View) -> bool {
    view.memory.line.iter().all(|&entry| entry as usize <= view.sizes.all_pages())
}
