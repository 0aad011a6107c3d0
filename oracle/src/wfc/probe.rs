//! The probe: runs a case on the private parts of the published wfc.rs, step by step. It sits below wfc.rs so that it may read private fields; it sets none.
//! It calls the functions that `collapse` and the forbid interface call, in the same order, but stops at the first contradiction, where those reset.

use super::*;
use crate::cases::{self, Case, Ended, CONTRADICTION, DECIDED, PAUSED, UNDECIDED};
use crate::wrap::{WrapNone, WrapX, WrapY};
use rand::RngCore;
use std::panic::{catch_unwind, AssertUnwindSafe};

#[derive(Clone, Debug, Default)]
pub struct Answer {
    pub ended: Ended,
    /// How many words were used when a cell was first empty after a propagation that reported nothing.
    pub silent: Option<usize>,
    /// The published code ended in a panic.
    pub panicked: bool,
    /// What docs/RULES.md says of the published code and this run does not show.
    pub broken: Vec<&'static str>,
}

/// The lent random numbers: the noise words, one for each cell, then the words.
struct Feed<'a> {
    noise: &'a [u32],
    words: &'a [u32],
    taken: usize,
    starved: bool,
}

impl<'a> Feed<'a> {
    fn new(case: &'a Case) -> Self {
        Self {
            noise: &case.noise,
            words: &case.words,
            taken: 0,
            starved: false,
        }
    }
    fn used(&self) -> usize {
        self.taken.saturating_sub(self.noise.len())
    }
}

impl<'a> RngCore for Feed<'a> {
    fn next_u32(&mut self) -> u32 {
        let n = self.noise.len();
        let word = if self.taken < n {
            self.noise[self.taken]
        } else if self.taken - n < self.words.len() {
            self.words[self.taken - n]
        } else {
            self.starved = true;
            return 0;
        };
        self.taken += 1;
        word
    }
    fn next_u64(&mut self) -> u64 {
        unimplemented!("words of 32 bits only")
    }
    fn fill_bytes(&mut self, _: &mut [u8]) {
        unimplemented!("words of 32 bits only")
    }
    fn try_fill_bytes(&mut self, _: &mut [u8]) -> Result<(), rand::Error> {
        unimplemented!("words of 32 bits only")
    }
}

fn global_stats(case: &Case) -> GlobalStats {
    let list = |p: usize, d: usize| -> Vec<PatternId> { case.list(p, d).iter().map(|&q| q as PatternId).collect() };
    GlobalStats::new(
        (0..case.count)
            .map(|p| {
                PatternDescription::new(
                    NonZeroU32::new(case.weights[p]),
                    CardinalDirectionTable::new_array([list(p, 0), list(p, 1), list(p, 2), list(p, 3)]),
                )
            })
            .collect(),
    )
}

fn size_of(case: &Case) -> Size {
    Size::new(case.width as u32, case.height as u32)
}

fn coord_of(case: &Case, cell: u32) -> Coord {
    let width = case.width as u32;
    Coord::new((cell % width) as i32, (cell / width) as i32)
}

fn domain(cell: &WaveCell) -> u64 {
    let mut word = 0;
    for (p, ways) in cell.num_ways_to_become_each_pattern.enumerate() {
        if !ways.is_zero() {
            word |= 1u64 << p;
        }
    }
    word
}

fn domains(wave: &Wave) -> Vec<u64> {
    wave.grid.iter().map(domain).collect()
}

/// Runs a case that docs/RULES.md accepts.
pub fn run(case: &Case) -> Answer {
    let mut answer = Answer::default();
    let caught = catch_unwind(AssertUnwindSafe(|| match case.mode {
        0 => go(WrapNone, case, &mut answer),
        1 => go(WrapX, case, &mut answer),
        2 => go(WrapY, case, &mut answer),
        _ => go(WrapXY, case, &mut answer),
    }));
    answer.panicked = caught.is_err();
    // with equal noise words the hash map decides, anew in each run
    if !answer.panicked && answer.ended.end <= UNDECIDED && case.distinct_noise() {
        let (domains, used) = match case.mode {
            0 => published(WrapNone, case),
            1 => published(WrapX, case),
            2 => published(WrapY, case),
            _ => published(WrapXY, case),
        };
        if domains != answer.ended.domains || used != answer.ended.used {
            answer.broken.push("the published calls come to something else");
        }
    }
    answer
}

/// The best entry of the heap that counts.
fn best_entry<W: Wrap>(core: &RunBorrowCore<W>, answer: &mut Answer) -> Option<CoordEntropy> {
    let mut best: Option<CoordEntropy> = None;
    let mut found = vec![false; core.wave.grid.size().count()];
    for entry in core.context.observer.entropy_priority_queue.iter() {
        let index = core.wave.grid.index_of_coord(entry.coord).unwrap();
        let cell = core.wave.grid.get_index_checked(index);
        let note = entry.entropy_with_noise;
        if cell.stats.num_weighted_compatible_patterns != note.num_weighted_compatible_patterns
            || cell.num_compatible_patterns < 2
        {
            continue;
        }
        if found[index] {
            answer.broken.push("one note for each cell decides");
        }
        found[index] = true;
        if cell.stats.entropy().to_bits() != note.entropy.to_bits() {
            answer.broken.push("a note that counts has the entropy of now");
        }
        if best.as_ref().map_or(true, |b| entry > b) {
            best = Some(entry.clone());
        }
    }
    best
}

/// A forbid is laid and propagated.
fn lay<W: Wrap>(core: &mut RunBorrowCore<W>, case: &Case, record: &[u32]) -> Result<(), PropagateError> {
    let coord = coord_of(case, record[0]);
    if record[2] == 0 {
        core.forbid_pattern(coord, record[1])
    } else {
        core.forbid_all_patterns_except(coord, record[1])
    }
}

fn go<W: Wrap>(wrap: W, case: &Case, answer: &mut Answer) {
    let stats = global_stats(case);
    let cells = case.cells();
    let mut rng = Feed::new(case);
    let mut context = Context::new();
    let mut wave = Wave::new(size_of(case));
    let mut core = RunBorrowCore::new(&mut context, &mut wave, &stats, wrap, &mut rng);

    for record in case.forbids.chunks(3) {
        if lay(&mut core, case, record).is_err() {
            answer.ended.end = CONTRADICTION;
            answer.ended.domains = vec![0; cells];
            return;
        }
        after_propagation(&core, &rng, answer);
    }

    loop {
        let best = best_entry(&core, answer);
        let before = domains(core.wave);
        answer.ended.used = rng.used();
        match core.observe(&mut rng) {
            Observe::Complete => {
                if best.is_some() {
                    answer.broken.push("nothing that counts is left when a run is complete");
                }
                let decided = before.iter().all(|word| word.count_ones() == 1);
                answer.ended.end = if decided { DECIDED } else { UNDECIDED };
                answer.ended.domains = before;
                return;
            }
            Observe::Incomplete if rng.starved => {
                answer.ended.end = PAUSED;
                answer.ended.domains = before;
                return;
            }
            Observe::Incomplete => {
                answer.ended.used = rng.used();
                let best = best.expect("a choice where no entry counts");
                let cell = core.wave.grid.index_of_coord(best.coord).unwrap();
                let after = domains(core.wave);
                if (0..cells).any(|c| before[c] != after[c] && c != cell) {
                    answer.broken.push("the least entry is chosen");
                }
                answer.ended.choices.push(cases::Choice {
                    cell,
                    entropy: best.entropy_with_noise.entropy.to_bits(),
                    pattern: after[cell].trailing_zeros() as usize,
                });
                if core.propagate().is_err() {
                    answer.ended.end = CONTRADICTION;
                    answer.ended.domains = vec![0; cells];
                    return;
                }
                after_propagation(&core, &rng, answer);
            }
        }
    }
}

fn after_propagation<W: Wrap>(core: &RunBorrowCore<W>, rng: &Feed, answer: &mut Answer) {
    let empty = |cell: &WaveCell| cell.num_compatible_patterns == 0;
    if answer.silent.is_none() && core.wave.grid.iter().any(empty) {
        answer.silent = Some(rng.used());
    }
}

/// The forbids of a case, for the published calls.
#[derive(Clone)]
struct Walk<'a>(&'a Case);

impl<'a> ForbidPattern for Walk<'a> {
    fn forbid<W: Wrap, R: Rng>(&mut self, fi: &mut ForbidInterface<W>, rng: &mut R) {
        for record in self.0.forbids.chunks(3) {
            let coord = coord_of(self.0, record[0]);
            let result = if record[2] == 0 {
                fi.forbid_pattern(coord, record[1], rng)
            } else {
                fi.forbid_all_patterns_except(coord, record[1], rng)
            };
            result.expect("no contradiction here");
        }
    }
}

/// The same run by the published calls alone, `RunOwn` and `collapse`: for a case that ends without contradiction and has words enough.
fn published<W: Wrap>(wrap: W, case: &Case) -> (Vec<u64>, usize) {
    let stats = global_stats(case);
    let mut rng = Feed::new(case);
    let mut run = RunOwn::new_wrap_forbid(size_of(case), &stats, wrap, Walk(case), &mut rng);
    run.collapse(&mut rng).expect("no contradiction here");
    let used = rng.used();
    (domains(&run.into_wave()), used)
}

// ---- plain runs, to be timed: nothing is read on the way

/// What the published code keeps between runs: its tables of the patterns, and the memory that `RunBorrow` is lent.
pub struct Kept {
    stats: GlobalStats,
    context: Context,
    wave: Wave,
}

impl Kept {
    pub fn new(case: &Case) -> Self {
        Self {
            stats: global_stats(case),
            context: Context::new(),
            wave: Wave::new(size_of(case)),
        }
    }

    /// A run on the memory of the run before. The end is told as Decided where the published code says only that it is complete.
    pub fn run(&mut self, case: &Case) -> (u32, usize) {
        plain_in(case, &self.stats, &mut self.context, &mut self.wave)
    }

    /// A run on memory made for it.
    pub fn run_fresh(&self, case: &Case) -> (u32, usize) {
        plain_in(case, &self.stats, &mut Context::new(), &mut Wave::new(size_of(case)))
    }
}

fn plain_in(case: &Case, stats: &GlobalStats, context: &mut Context, wave: &mut Wave) -> (u32, usize) {
    match case.mode {
        0 => plain(WrapNone, case, stats, context, wave),
        1 => plain(WrapX, case, stats, context, wave),
        2 => plain(WrapY, case, stats, context, wave),
        _ => plain(WrapXY, case, stats, context, wave),
    }
}

fn plain<W: Wrap>(wrap: W, case: &Case, stats: &GlobalStats, context: &mut Context, wave: &mut Wave) -> (u32, usize) {
    let mut rng = Feed::new(case);
    let mut core = RunBorrowCore::new(context, wave, stats, wrap, &mut rng);
    for record in case.forbids.chunks(3) {
        if lay(&mut core, case, record).is_err() {
            return (CONTRADICTION, rng.used());
        }
    }
    // the published loop, whole
    match core.collapse(&mut rng) {
        Ok(()) => (DECIDED, rng.used()),
        Err(_) => (CONTRADICTION, rng.used()),
    }
}
