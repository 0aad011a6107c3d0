//! docs/RULES.md once more, in plain Rust and apart from both sides: which refusal is given, and what a run comes to.
//! It answers where the published code gives no ground: for refused calls, equal noise words, and cells that the Rust empties unnoticed.

use crate::cases::{Case, Choice, Ended, Room, Told, CONTRADICTION, DECIDED, PAUSED, UNDECIDED};

const OPPOSITE: [usize; 4] = [2, 3, 0, 1];

// ---- refusals

fn bad_length(case: &Case) -> bool {
    let (p, n) = (case.count, case.cells());
    case.weights.len() != p
        || case.offsets.len() != 4 * p + 1
        || case.noise.len() != n
        || case.room != Room::of(p, n)
        || case.forbids.len() % 3 != 0
        || case.forbids.len() / 3 > 4096
}

fn bad_list(case: &Case) -> bool {
    let offsets = &case.offsets;
    offsets[0] != 0
        || offsets.windows(2).any(|w| w[0] > w[1])
        || offsets[4 * case.count] as usize != case.ids.len()
        || (0..4 * case.count).any(|k| {
            let list = case.list(k / 4, k % 4);
            list.is_empty() || list.windows(2).any(|w| w[0] >= w[1]) || list.iter().any(|&q| q as usize >= case.count)
        })
}

fn disagree(case: &Case) -> bool {
    (0..4 * case.count).any(|k| {
        let (p, d) = (k / 4, k % 4);
        case.list(p, d)
            .iter()
            .any(|&q| !case.list(q as usize, OPPOSITE[d]).contains(&(p as u8)))
    })
}

/// The number of the refusal that is given, or 0.
pub fn refusal(case: &Case) -> u32 {
    if case.count == 0 || case.count > 64 {
        return 3;
    }
    let side = |s: usize| s >= 1 && s <= 64;
    if !side(case.width) || !side(case.height) || case.cells() > 1024 {
        return 1;
    }
    if case.mode > 3 {
        return 2;
    }
    if bad_length(case) {
        return 5;
    }
    if case.weights.iter().map(|&w| w as u64).sum::<u64>() > 1024 {
        return 4;
    }
    if bad_list(case) {
        return 6;
    }
    if disagree(case) {
        return 7;
    }
    for record in case.forbids.chunks(3) {
        if record[0] as usize >= case.cells() {
            return 8;
        }
        if record[1] as usize >= case.count {
            return 9;
        }
    }
    0
}

// ---- the run

#[derive(Clone, Copy)]
struct Note {
    entropy: f32,
    weighted: u32,
}

struct Run<'a> {
    case: &'a Case,
    /// the patterns that have a weight, as a word
    weighted: u64,
    domains: Vec<u64>,
    /// for each cell, pattern and direction
    supports: Vec<[usize; 4]>,
    running: Vec<f32>,
    notes: Vec<Option<Note>>,
    pile: Vec<(usize, usize)>,
    /// a cell is empty
    emptied: bool,
    /// how many supports were lowered before that
    lowered: u64,
}

impl<'a> Run<'a> {
    fn begin(case: &'a Case) -> Self {
        let (p, n) = (case.count, case.cells());
        let weighted = (0..p).filter(|&q| case.weights[q] > 0).fold(0, |w, q| w | 1u64 << q);
        let supports: Vec<[usize; 4]> = (0..n * p)
            .map(|k| {
                let length = |d| case.list(k % p, OPPOSITE[d]).len();
                [length(0), length(1), length(2), length(3)]
            })
            .collect();
        let running = (0..p)
            .filter(|&q| case.weights[q] > 0)
            .fold(0.0, |sum, q| sum + w_log_w(case, q));
        let mut run = Self {
            case,
            weighted,
            domains: vec![u64::MAX >> (64 - p); n],
            supports,
            running: vec![running; n],
            notes: vec![None; n],
            pile: Vec::new(),
            lowered: 0,
            emptied: false,
        };
        if weighted.count_ones() >= 2 {
            for c in 0..n {
                run.notes[c] = Some(run.note(c));
            }
        }
        run
    }

    fn note(&self, c: usize) -> Note {
        let sum = self.weight_sum(c) as f32;
        Note {
            entropy: sum.log2() - self.running[c] / sum,
            weighted: (self.domains[c] & self.weighted).count_ones(),
        }
    }

    fn weight_sum(&self, c: usize) -> u32 {
        (0..self.case.count)
            .filter(|q| self.domains[c] >> q & 1 == 1)
            .map(|q| self.case.weights[q])
            .sum()
    }

    fn neighbour(&self, c: usize, d: usize) -> Option<usize> {
        let (w, h) = (self.case.width, self.case.height);
        let (x, y) = (c % w, c / w);
        let wraps_x = self.case.mode & 1 == 1;
        let wraps_y = self.case.mode & 2 == 2;
        // one place on, in a line of so many
        fn on(at: usize, many: usize, wraps: bool) -> Option<usize> {
            if at + 1 < many {
                Some(at + 1)
            } else if wraps {
                Some(0)
            } else {
                None
            }
        }
        fn back(at: usize, many: usize, wraps: bool) -> Option<usize> {
            if at > 0 {
                Some(at - 1)
            } else if wraps {
                Some(many - 1)
            } else {
                None
            }
        }
        match d {
            0 => back(y, h, wraps_y).map(|y| y * w + x),
            1 => on(x, w, wraps_x).map(|x| y * w + x),
            2 => on(y, h, wraps_y).map(|y| y * w + x),
            _ => back(x, w, wraps_x).map(|x| y * w + x),
        }
    }

    fn remove(&mut self, c: usize, q: usize) {
        self.domains[c] &= !(1 << q);
        self.emptied |= self.domains[c] == 0;
        self.supports[c * self.case.count + q] = [0; 4];
        self.pile.push((c, q));
        if self.case.weights[q] > 0 {
            self.running[c] -= w_log_w(self.case, q);
        }
    }

    /// Whether no cell is empty.
    fn propagate(&mut self) -> bool {
        let mut noted = vec![false; self.domains.len()];
        while let Some((c, p)) = self.pile.pop() {
            for d in 0..4 {
                let n = match self.neighbour(c, d) {
                    Some(n) => n,
                    None => continue,
                };
                let case = self.case;
                for &q in case.list(p, d) {
                    self.take_support(n, q as usize, d, &mut noted);
                }
            }
        }
        self.domains.iter().all(|&word| word != 0)
    }

    fn take_support(&mut self, n: usize, q: usize, d: usize, noted: &mut [bool]) {
        let left = &mut self.supports[n * self.case.count + q][d];
        if *left == 0 {
            return;
        }
        *left -= 1;
        self.lowered += !self.emptied as u64;
        if *left > 0 {
            return;
        }
        self.remove(n, q);
        let word = self.domains[n];
        if self.case.weights[q] == 0 || word & self.weighted == 0 || word.count_ones() < 2 {
            return;
        }
        let proposed = self.note(n);
        match self.notes[n] {
            Some(note) if noted[n] && !(proposed.entropy < note.entropy) => {}
            _ => self.notes[n] = Some(proposed),
        }
        noted[n] = true;
    }

    fn keep_only(&mut self, c: usize, p: usize) -> bool {
        for q in 0..self.case.count {
            if q != p && self.domains[c] >> q & 1 == 1 {
                self.remove(c, q);
            }
        }
        self.propagate()
    }

    fn lay(&mut self, record: &[u32]) -> bool {
        let (c, p) = (record[0] as usize, record[1] as usize);
        if record[2] != 0 {
            return self.keep_only(c, p);
        }
        if self.domains[c] >> p & 1 == 1 {
            self.remove(c, p);
        }
        self.propagate()
    }

    fn observe(&self) -> Option<(usize, f32)> {
        let mut best: Option<(usize, f32)> = None;
        for c in 0..self.domains.len() {
            let note = match self.notes[c] {
                Some(note) => note,
                None => continue,
            };
            let counts =
                note.weighted == (self.domains[c] & self.weighted).count_ones() && self.domains[c].count_ones() >= 2;
            let before = match best {
                None => true,
                Some((b, entropy)) => {
                    note.entropy < entropy || note.entropy == entropy && self.case.noise[c] < self.case.noise[b]
                }
            };
            if counts && before {
                best = Some((c, note.entropy));
            }
        }
        best
    }

    fn choose(&self, c: usize, word: u32) -> usize {
        let mut r = word % self.weight_sum(c);
        for q in 0..self.case.count {
            if self.domains[c] >> q & 1 == 1 {
                if r < self.case.weights[q] {
                    return q;
                }
                r -= self.case.weights[q];
            }
        }
        unreachable!("r is below the weight sum")
    }
}

fn w_log_w(case: &Case, q: usize) -> f32 {
    let w = case.weights[q] as f32;
    w * w.log2()
}

/// The run to its end.
fn ended(run: &mut Run) -> Ended {
    let case = run.case;
    let mut choices = Vec::new();
    let zero = vec![0; case.cells()];
    for record in case.forbids.chunks(3) {
        if !run.lay(record) {
            return Ended {
                end: CONTRADICTION,
                used: 0,
                domains: zero,
                choices,
            };
        }
    }
    loop {
        let used = choices.len();
        let (cell, entropy) = match run.observe() {
            Some(observed) => observed,
            None => {
                let decided = run.domains.iter().all(|word| word.count_ones() == 1);
                let end = if decided { DECIDED } else { UNDECIDED };
                return Ended {
                    end,
                    used,
                    domains: run.domains.clone(),
                    choices,
                };
            }
        };
        if used == case.words.len() {
            return Ended {
                end: PAUSED,
                used,
                domains: run.domains.clone(),
                choices,
            };
        }
        let pattern = run.choose(cell, case.words[used]);
        choices.push(Choice {
            cell,
            entropy: entropy.to_bits(),
            pattern,
        });
        if !run.keep_only(cell, pattern) {
            return Ended {
                end: CONTRADICTION,
                used: used + 1,
                domains: zero,
                choices,
            };
        }
    }
}

/// What a call with these inputs comes to.
pub fn told(case: &Case) -> Told {
    match refusal(case) {
        0 => Told::Ended(ended(&mut Run::begin(case))),
        number => Told::Refused(number),
    }
}

/// How many supports a run of an accepted case lowers, those of a contradiction up to the first empty cell.
pub fn lowered(case: &Case) -> u64 {
    let mut run = Run::begin(case);
    ended(&mut run);
    run.lowered
}
