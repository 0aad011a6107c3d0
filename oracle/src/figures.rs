//! What a comparison met: how many cases of each kind, and which kinds it had to meet and did not.

use crate::cases::{Case, Ended};
use std::fmt;
use std::ops::RangeInclusive;

/// How many cases there were, by end, mode, shorter side and number of patterns.
#[derive(Default)]
pub struct Met {
    pub cases: u64,
    pub ends: [u64; 4],
    pub modes: [u64; 4],
    /// 1, 2, 3, and longer
    pub sides: [u64; 4],
    /// bit P - 1 where there was a case of P patterns
    pub patterns: u64,
    pub choices: u64,
}

impl Met {
    pub fn meet(&mut self, case: &Case, ended: &Ended) {
        self.cases += 1;
        self.ends[ended.end as usize] += 1;
        self.modes[case.mode] += 1;
        self.sides[case.width.min(case.height).min(4) - 1] += 1;
        self.patterns |= 1 << (case.count - 1);
        self.choices += ended.choices.len() as u64;
    }
}

/// All that was met, and what was seen of the published code.
#[derive(Default)]
pub struct Figures {
    pub cases: u64,
    pub accepted: Met,
    pub by_rust: Met,
    pub refused: [u64; 12],
    pub silent: u64,
    pub silent_by_choice: u64,
    pub equal_noise: u64,
    pub equal_noise_apart: u64,
    pub panicked: u64,
}

/// What a comparison must meet, since a kind without a case was not compared. But for the last three it counts only among the cases that are
/// compared with the Rust.
pub struct Ground {
    pub ends: &'static [usize],
    pub sides: &'static [usize],
    pub patterns: RangeInclusive<usize>,
    pub refusals: bool,
    /// a cell emptied unnoticed by the Rust
    pub silent: bool,
    pub equal_noise: bool,
}

pub const RANDOM: Ground = Ground {
    ends: &[0, 1, 2, 3],
    sides: &[1, 2, 3],
    patterns: 1..=64,
    refusals: false,
    silent: true,
    equal_noise: true,
};

pub const DAMAGED: Ground = Ground {
    refusals: true,
    ..RANDOM
};

// there are words for all cells, so no run is paused, and the noise words are distinct
pub const TWO: Ground = Ground {
    ends: &[0, 1, 3],
    sides: &[1, 2, 3],
    patterns: 2..=2,
    refusals: false,
    silent: true,
    equal_noise: false,
};

// at most one pattern has no weight, so no cell stays undecided; and without a forbid the Rust empties no cell unnoticed
pub const THREE: Ground = Ground {
    ends: &[0, 3],
    sides: &[2],
    patterns: 3..=3,
    refusals: false,
    silent: false,
    equal_noise: false,
};

impl Figures {
    /// What of the ground was not met.
    pub fn lacking(&self, ground: &Ground) -> Vec<String> {
        let met = &self.by_rust;
        let mut lacks = Vec::new();
        let mut need = |count: u64, what: String| {
            if count == 0 {
                lacks.push(what);
            }
        };
        need(met.cases, "a case to compare with the Rust".to_string());
        need(met.choices, "a choice".to_string());
        for &end in ground.ends {
            need(met.ends[end], format!("end {}", end));
        }
        for mode in 0..4 {
            need(met.modes[mode], format!("mode {}", mode));
        }
        for &side in ground.sides {
            need(met.sides[side - 1], format!("a shorter side of {}", side));
        }
        for p in ground.patterns.clone() {
            need(met.patterns >> (p - 1) & 1, format!("P = {}", p));
        }
        for number in 1..if ground.refusals { 10 } else { 1 } {
            need(self.refused[number], format!("refusal {}", number));
        }
        if ground.silent {
            need(self.silent, "a cell that the Rust empties unnoticed".to_string());
        }
        if ground.equal_noise {
            need(self.equal_noise, "equal noise words".to_string());
        }
        lacks
    }
}

impl fmt::Display for Figures {
    fn fmt(&self, f: &mut fmt::Formatter) -> fmt::Result {
        let met = &self.accepted;
        let [decided, undecided, paused, contradiction] = met.ends;
        writeln!(
            f,
            "  ends: {} Decided, {} Undecided, {} Paused, {} Contradiction; {} choices",
            decided, undecided, paused, contradiction, met.choices
        )?;
        writeln!(
            f,
            "  accepted: {} of mode 0, {} of 1, {} of 2, {} of 3; shorter side 1 in {}, 2 in {}, 3 in {}; {} different numbers of patterns",
            met.modes[0], met.modes[1], met.modes[2], met.modes[3], met.sides[0], met.sides[1], met.sides[2], met.patterns.count_ones()
        )?;
        writeln!(
            f,
            "  compared with the Rust: {}; outside its grounds: {} where it empties a cell unnoticed ({} of them by a choice; {} end in a panic), {} with equal noise words ({} of them end otherwise)",
            self.by_rust.cases, self.silent, self.silent_by_choice, self.panicked, self.equal_noise, self.equal_noise_apart
        )?;
        let refused: Vec<String> = (1..12)
            .filter(|&n| self.refused[n] > 0)
            .map(|n| format!("{} of number {}", self.refused[n], n))
            .collect();
        if !refused.is_empty() {
            writeln!(f, "  refused: {}", refused.join(", "))?;
        }
        Ok(())
    }
}
