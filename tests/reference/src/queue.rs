//! The free queue, the removal list and the waiting line: entries are frame + 1, or page + 1, packed at the front, then zeros.

pub fn length(queue: &[u16]) -> usize {
    queue.iter().position(|&entry| entry == 0).unwrap_or(queue.len())
}

/// The first one: where claim looks first, where fault takes from, what a turn treats.
pub fn first(queue: &[u16]) -> Option<usize> {
    match queue.first() {
        None | Some(0) => None,
        Some(&entry) => Some(entry as usize - 1),
    }
}

pub fn push_end(queue: &mut [u16], frame: usize) {
    let end = length(queue);
    queue[end] = frame as u16 + 1;
}

pub fn push_front(queue: &mut [u16], frame: usize) {
    let end = length(queue);
    queue.copy_within(0..end, 1);
    queue[0] = frame as u16 + 1;
}

/// Takes a frame out and closes the gap; nothing if it is not there.
pub fn remove(queue: &mut [u16], frame: usize) {
    if let Some(at) = queue.iter().position(|&entry| entry as usize == frame + 1) {
        queue.copy_within(at + 1.., at);
        *queue.last_mut().unwrap() = 0;
    }
}

/// Takes the first one out; the others move up.
pub fn pop(queue: &mut [u16]) {
    queue.copy_within(1.., 0);
    *queue.last_mut().unwrap() = 0;
}
