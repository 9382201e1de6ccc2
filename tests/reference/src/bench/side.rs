//! The three keepers side by side over one list: timed, or for callgrind to count.

use super::calls;
use super::kinds;
use super::list::List;
use super::replay::{replay, Clock};
use crate::linked::c_port::Lent;
use crate::tables::Sizes;
use std::arch::asm;
use std::time::{Duration, Instant};

/// The keepers take turns after so many calls, so that other work on the machine slows all of them.
const TURN: usize = 50;

/// Replays for so long; prints for each kind how many calls it has and their mean times in nanoseconds: proved keeper,
/// C port, reference. A call's time is its least of all rounds.
pub fn time(list: &List, seconds: u64) {
    let clock = Clock::new();
    let mut least = [(); 3].map(|_| vec![u64::MAX; list.steps.len()]);
    let end = Instant::now() + Duration::from_secs(seconds);
    let mut rounds = 0;
    while rounds < 3 || Instant::now() < end {
        round(list, &mut least, 3);
        rounds += 1;
    }
    let Sizes { words, records, frames, slots, pages, accounts, chip } = list.start.sizes;
    println!("sizes\tW {words} R {records} F {frames} S {slots} N {pages} Q {accounts} B {chip}\nrounds\t{rounds}");
    for (kind, name) in kinds() {
        let own = || (0..list.steps.len()).filter(|&at| list.steps[at].kind == kind);
        let calls = own().count();
        let total = |times: &[u64]| own().map(|at| clock.nanoseconds(times[at])).sum::<f64>();
        let [keeper, c_port, reference] = [0, 1, 2].map(|side| total(&least[side]) / calls as f64);
        println!("{name}\t{calls}\t{keeper:.1}\t{c_port:.1}\t{reference:.1}");
    }
}

/// One replay by each of the first so many keepers, over fresh copies of the tables; after the mixed steps these must be as the
/// list says.
fn round(list: &List, least: &mut [Vec<u64>; 3], keepers: usize) {
    assert_eq!(list.mixed % TURN, 0, "the mixed steps end with a turn");
    let mut tables = [(); 3].map(|_| list.start.clone());
    for from in (0..list.steps.len()).step_by(TURN) {
        let own = from..list.steps.len().min(from + TURN);
        for (side, (tables, least)) in tables.iter_mut().zip(least.iter_mut()).take(keepers).enumerate() {
            match side {
                0 => replay(list, own.clone(), &calls::KEEPER, tables, least),
                1 => replay(list, own.clone(), &calls::c_port(), &mut Lent::of(tables), least),
                _ => replay(list, own.clone(), &calls::REFERENCE, tables, least),
            }
            assert!(own.end != list.mixed || *tables == list.after_mixed, "the tables differ");
        }
    }
}

/// One round of the proved keeper and the C port, with callgrind's counting on; prints each kind's number of calls.
pub fn count(list: &List) {
    let mut least = [(); 3].map(|_| vec![u64::MAX; list.steps.len()]);
    callgrind(START);
    round(list, &mut least, 2);
    callgrind(STOP);
    for (kind, name) in kinds() {
        println!("{name}\t{}", list.steps.iter().filter(|step| step.kind == kind).count());
    }
}

/// The requests CALLGRIND_START_INSTRUMENTATION and _STOP_ of valgrind/callgrind.h.
const START: u64 = 0x4354_0004;
const STOP: u64 = 0x4354_0005;

/// A request to valgrind, by the instructions that it knows it by; elsewhere they do nothing.
fn callgrind(request: u64) {
    let values = [request, 0, 0, 0, 0, 0];
    unsafe {
        asm!(
            "rol rdi, 3", "rol rdi, 13", "rol rdi, 61", "rol rdi, 51", "xchg rbx, rbx",
            in("rax") values.as_ptr(), inout("rdx") 0_u64 => _, inout("rdi") 0_u64 => _,
        );
    }
}
