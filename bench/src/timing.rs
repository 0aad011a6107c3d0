//! Both sides on one input, in turn, round after round.

use crate::sides::SIDES;
use oracle::cases::Case;
use std::fmt;

/// The median of many figures, and the quartiles.
#[derive(Clone, Copy)]
pub struct Spread {
    low: f64,
    median: f64,
    high: f64,
}

impl Spread {
    fn of(figures: impl Iterator<Item = f64>) -> Self {
        let mut all: Vec<f64> = figures.collect();
        all.sort_by(|a, b| a.partial_cmp(b).expect("no NaN"));
        let at = |share: usize| all[(all.len() - 1) * share / 4];
        Self {
            low: at(1),
            median: at(2),
            high: at(3),
        }
    }
}

impl fmt::Display for Spread {
    fn fmt(&self, f: &mut fmt::Formatter) -> fmt::Result {
        write!(f, "{:.2} ({:.2} to {:.2})", self.median, self.low, self.high)
    }
}

/// How many times as long the published code takes, and the median nanoseconds of a run by each side.
pub struct Timed {
    pub kept: Spread,
    pub fresh: Spread,
    pub tables: Spread,
    pub ns: [f64; 5],
}

/// Nanoseconds that this thread has had of a processor: while others have it the clock stands.
fn clock() -> f64 {
    let mut now = libc::timespec { tv_sec: 0, tv_nsec: 0 };
    let answer = unsafe { libc::clock_gettime(libc::CLOCK_THREAD_CPUTIME_ID, &mut now) };
    assert_eq!(answer, 0, "a clock of this thread");
    now.tv_sec as f64 * 1e9 + now.tv_nsec as f64
}

/// Nanoseconds of one run, of so many in a row.
fn batch(times: u32, run: &mut dyn FnMut()) -> f64 {
    let start = clock();
    for _ in 0..times {
        run();
    }
    (clock() - start) / times as f64
}

pub fn of(case: &Case, rounds: usize) -> Timed {
    let mut runs: Vec<_> = SIDES.iter().map(|side| side.of(case)).collect();
    // a batch takes some tenths of a millisecond or more, so that reading the clock costs nothing
    let times: Vec<u32> = runs
        .iter_mut()
        .map(|run| 1 + (300_000.0 / batch(3, run)) as u32)
        .collect();
    let mut figures = vec![[0.0; 5]; rounds];
    for (round, figure) in figures.iter_mut().enumerate() {
        // who begins changes from round to round
        for k in 0..5 {
            let side = (k + round) % 5;
            figure[side] = batch(times[side], &mut runs[side]);
        }
    }
    let ratio = |theirs: usize, ours: usize| Spread::of(figures.iter().map(|f| f[theirs] / f[ours]));
    let mut ns = [0.0; 5];
    for (side, median) in ns.iter_mut().enumerate() {
        *median = Spread::of(figures.iter().map(|f| f[side])).median;
    }
    Timed {
        kept: ratio(0, 1),
        fresh: ratio(2, 3),
        tables: ratio(4, 3),
        ns,
    }
}
