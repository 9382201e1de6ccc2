//! A list replayed by one keeper, with a clock around each call.

use super::calls::Made;
use super::list::List;
use std::arch::x86_64::{_mm_lfence, _rdtsc};
use std::hint::black_box;
use std::ops::Range;
use std::time::Instant;

/// The processor's time stamp; what is before it is done, what is after it not yet begun.
pub fn ticks() -> u64 {
    unsafe {
        _mm_lfence();
        let now = _rdtsc();
        _mm_lfence();
        now
    }
}

/// The ticks of a nanosecond, and those that the clock itself takes.
pub struct Clock {
    per_nanosecond: f64,
    own: u64,
}

impl Clock {
    pub fn new() -> Clock {
        let (start, from) = (Instant::now(), ticks());
        let mut own = u64::MAX;
        while start.elapsed().as_millis() < 100 {
            let before = black_box(ticks());
            own = own.min(ticks() - before);
        }
        let per_nanosecond = (ticks() - from) as f64 / start.elapsed().as_nanos() as f64;
        Clock { per_nanosecond, own }
    }

    pub fn nanoseconds(&self, ticks: u64) -> f64 {
        ticks.saturating_sub(self.own) as f64 / self.per_nanosecond
    }
}

/// Makes these calls of the list; notes each one's least time so far.
pub fn replay<T>(list: &List, own: Range<usize>, calls: &[Made<T>], tables: &mut T, least: &mut [u64]) {
    for at in own {
        let step = &list.steps[at];
        let before = ticks();
        let answer = calls[step.kind](tables, &step.values);
        let took = ticks() - before;
        assert_eq!(answer, list.answers[at], "call {at}: {step:?}");
        least[at] = least[at].min(took);
    }
}
