//! The proved keeper and the C port over stretches of events: one by one, and in lists of 1, 10, 100 and 1,000.

use super::replay::{ticks, Clock};
use super::stretch::{stretch, Stretch, LENGTH, STRETCHES};
use crate::drive::Subject;
use crate::event::{Answer, Request};
use crate::keeper::Keeper;
use crate::linked::c_port::C_PORT;
use crate::linked::proved::PROVED;
use crate::tables::Sizes;
use std::time::{Duration, Instant};

/// 0 stands for single calls.
const LISTS: [usize; 5] = [0, 1, 10, 100, LENGTH];

/// For each stretch a line: its kinds, then the nanoseconds of an event, the keeper's and the C port's, by the length of the lists.
/// Each is the sum of its calls' least times of all rounds, by the number of events.
pub fn time(sizes: Sizes, seconds: u64) {
    let clock = Clock::new();
    for kinds in STRETCHES {
        let stretch = stretch(sizes, kinds);
        let mut least = LISTS.map(|length| [(); 2].map(|_| vec![u64::MAX; LENGTH / length.max(1)]));
        let end = Instant::now() + Duration::from_millis(seconds * 1000 / STRETCHES.len() as u64);
        let mut rounds = 0;
        while rounds < 3 || Instant::now() < end {
            for (length, least) in LISTS.into_iter().zip(&mut least) {
                for (subject, least) in [PROVED, C_PORT].iter().zip(least) {
                    replay(&stretch, subject, length, least);
                }
            }
            rounds += 1;
        }
        let of = |least: &Vec<u64>| least.iter().map(|&took| clock.nanoseconds(took)).sum::<f64>() / LENGTH as f64;
        let times = least.iter().flatten().map(|least| format!("{:.1}", of(least)));
        println!("{}\t{}", stretch.name, times.collect::<Vec<String>>().join("\t"));
    }
}

/// The stretch once, over fresh tables; notes each call's least time so far.
fn replay(stretch: &Stretch, subject: &Subject, length: usize, least: &mut [u64]) {
    let mut keeper = stretch.start.clone();
    let own = length.max(1);
    let mut answers = vec![u32::MAX; 2 * own];
    for (at, requests) in stretch.requests.chunks(5 * own).enumerate() {
        let took = call(subject, &mut keeper, length, requests, &mut answers);
        let told = answers.chunks(2).map(|answer| Answer { refusal: answer[0], result: answer[1] });
        assert!(told.eq(stretch.answers[at * own..][..own].iter().copied()), "{}: other answers", stretch.name);
        least[at] = least[at].min(took);
    }
    assert!(keeper == stretch.end, "{}: other tables", stretch.name);
}

/// The ticks of one call.
fn call(subject: &Subject, keeper: &mut Keeper, length: usize, requests: &[u32], answers: &mut [u32]) -> u64 {
    if length == 0 {
        let request = Request::of(requests);
        let before = ticks();
        let answer = (subject.apply)(keeper, request);
        let took = ticks() - before;
        answers.copy_from_slice(&[answer.refusal, answer.result]);
        return took;
    }
    let before = ticks();
    (subject.apply_all)(keeper, requests, answers);
    ticks() - before
}
