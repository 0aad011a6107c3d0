//! Who runs a case, and on which memory.

use oracle::cases::Case;
use oracle::{ours, probe};
use std::hint::black_box;

/// The memory that a caller lends Murghidossu, of the published lengths.
pub struct Memory {
    domains: Vec<u64>,
    counts: Vec<u8>,
    pending: Vec<u32>,
    floats: Vec<f32>,
    marks: Vec<u8>,
}

impl Memory {
    pub fn new(case: &Case) -> Self {
        Self {
            domains: vec![0; case.room.domains],
            counts: vec![0; case.room.counts],
            pending: vec![0; case.room.pending],
            floats: vec![0.0; case.room.floats],
            marks: vec![0; case.room.marks],
        }
    }

    /// The refusal's number, the end, and how many words were used.
    pub fn run(&mut self, case: &Case) -> (u32, u32, usize) {
        ours::run(
            case,
            ours::Slices {
                domains: &mut self.domains,
                counts: &mut self.counts,
                pending: &mut self.pending,
                floats: &mut self.floats,
                marks: &mut self.marks,
            },
        )
    }

    pub fn domains(&self) -> &[u64] {
        &self.domains
    }
}

/// Five ways to run a case. Kept: on the memory of the run before. Fresh: on memory that is made for the run.
/// With tables: the published code makes its tables of the patterns anew as well; Murghidossu is lent lists and weights and checks them in every call.
#[derive(Clone, Copy)]
pub enum Side {
    TheirsKept,
    OursKept,
    TheirsFresh,
    OursFresh,
    TheirsTables,
}

pub const SIDES: [Side; 5] = [
    Side::TheirsKept,
    Side::OursKept,
    Side::TheirsFresh,
    Side::OursFresh,
    Side::TheirsTables,
];

impl Side {
    /// What runs the case once each time it is called.
    pub fn of(self, case: &Case) -> Box<dyn FnMut() + '_> {
        let mut kept = probe::Kept::new(case);
        let mut memory = Memory::new(case);
        match self {
            Side::TheirsKept => Box::new(move || {
                black_box(kept.run(black_box(case)));
            }),
            Side::OursKept => Box::new(move || {
                black_box(memory.run(black_box(case)));
            }),
            Side::TheirsFresh => Box::new(move || {
                black_box(kept.run_fresh(black_box(case)));
            }),
            Side::OursFresh => Box::new(move || {
                black_box(Memory::new(black_box(case)).run(case));
            }),
            Side::TheirsTables => Box::new(move || {
                black_box(probe::Kept::new(black_box(case)).run(case));
            }),
        }
    }
}
