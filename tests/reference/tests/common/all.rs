//! A call over every keeper: the reference and those that are linked in.

use reference::drive::Subject;
use reference::event::{Answer, Request};
use reference::keeper::Keeper;
use reference::linked;

/// Every keeper answers so, and a refusal changes nothing; the tables after it.
pub fn import(before: &Keeper, [slot, account]: [usize; 2], number: u32, bytes: &[u8], wanted: Answer) -> Keeper {
    let made = |subject: &Subject| {
        let mut after = before.clone();
        let answer = (subject.import)(&mut after, slot, account, number, bytes);
        assert_eq!(answer, wanted, "{}: {slot} {account} {number} {bytes:?}", subject.name);
        assert!(wanted.refusal == 0 || after == *before, "{}: a refused import changed a table", subject.name);
        after
    };
    let all: Vec<Keeper> = linked::all().iter().map(made).collect();
    assert!(all.iter().all(|after| *after == all[0]), "the keepers differ");
    all[0].clone()
}

/// Every keeper answers an event so, the values left out being 0, and a refusal changes nothing; the tables after it.
pub fn apply(before: &Keeper, kind: u32, values: &[u32], wanted: Answer) -> Keeper {
    let value = |at: usize| values.get(at).copied().unwrap_or(0);
    let request = Request { kind, first: value(0), second: value(1), third: value(2), fourth: value(3) };
    let made = |subject: &Subject| {
        let mut after = before.clone();
        assert_eq!((subject.apply)(&mut after, request), wanted, "{}: {request:?}", subject.name);
        assert!(wanted.refusal == 0 || after == *before, "{}: a refused event changed a table", subject.name);
        after
    };
    let all: Vec<Keeper> = linked::all().iter().map(made).collect();
    assert!(all.iter().all(|after| *after == all[0]), "the keepers differ");
    all[0].clone()
}

/// Every keeper answers so and leaves this in front of a buffer of so many bytes 0xEE, and the others untouched.
pub fn export(keeper: &Keeper, slot: usize, room: usize, wanted: Answer, front: &[u8]) {
    for subject in linked::all() {
        let mut buffer = vec![0xEE; room];
        assert_eq!((subject.export)(keeper, slot, &mut buffer), wanted, "{}: {slot} {room}", subject.name);
        assert_eq!(buffer[..front.len()], *front, "{}", subject.name);
        assert!(buffer[front.len()..].iter().all(|&byte| byte == 0xEE), "{}", subject.name);
    }
}
