//! A case: what a call of `run` is lent. And what it comes to, as each side tells it.

use std::fmt;

/// How long the five slices are that a run writes.
#[derive(Clone, Copy, Debug, Default, PartialEq, Eq)]
pub struct Room {
    pub domains: usize,
    pub counts: usize,
    pub pending: usize,
    pub floats: usize,
    pub marks: usize,
}

impl Room {
    /// The published lengths, of P patterns at n cells. Where these are huge, since a case is damaged, so are the lengths.
    pub fn of(p: usize, n: usize) -> Self {
        let pending = p.saturating_mul(n);
        let floats = n.saturating_mul(2);
        Self {
            domains: n,
            counts: pending.saturating_mul(4),
            pending,
            floats,
            marks: floats.saturating_add(n.saturating_add(31) / 32),
        }
    }
}

#[derive(Clone, Debug, Default)]
pub struct Case {
    pub name: String,
    /// cell, pattern, and 0 to forbid it or any other to keep only it
    pub forbids: Vec<u32>,
    pub count: usize,
    pub width: usize,
    pub height: usize,
    pub mode: usize,
    pub weights: Vec<u32>,
    pub offsets: Vec<u32>,
    pub ids: Vec<u8>,
    pub noise: Vec<u32>,
    pub words: Vec<u32>,
    pub room: Room,
}

impl Case {
    pub fn cells(&self) -> usize {
        self.width * self.height
    }
    pub fn list(&self, p: usize, d: usize) -> &[u8] {
        let k = 4 * p + d;
        &self.ids[self.offsets[k] as usize..self.offsets[k + 1] as usize]
    }
    /// No two cells have the same noise word.
    pub fn distinct_noise(&self) -> bool {
        let mut noise = self.noise.clone();
        noise.sort_unstable();
        noise.windows(2).all(|w| w[0] != w[1])
    }
}

fn numbers<T: fmt::Display>(f: &mut fmt::Formatter, key: &str, items: &[T]) -> fmt::Result {
    write!(f, "{}", key)?;
    for item in items {
        write!(f, " {}", item)?;
    }
    writeln!(f)
}

/// A line for each part, as `read` takes it.
impl fmt::Display for Case {
    fn fmt(&self, f: &mut fmt::Formatter) -> fmt::Result {
        writeln!(f, "case {}", self.name)?;
        writeln!(f, "patterns {}", self.count)?;
        numbers(f, "weights", &self.weights)?;
        numbers(f, "offsets", &self.offsets)?;
        numbers(f, "ids", &self.ids)?;
        writeln!(f, "grid {} {} {}", self.width, self.height, self.mode)?;
        numbers(f, "forbids", &self.forbids)?;
        numbers(f, "noise", &self.noise)?;
        numbers(f, "words", &self.words)?;
        let r = &self.room;
        if *r != Room::of(self.count, self.width.wrapping_mul(self.height)) {
            numbers(f, "room", &[r.domains, r.counts, r.pending, r.floats, r.marks])?;
        }
        writeln!(f, "run")
    }
}

/// The cases of a text, each ended by a line `run`. Lines that begin with another word are passed over.
pub fn read(text: &str) -> Result<Vec<Case>, String> {
    fn all<T: std::str::FromStr>(rest: &str) -> Result<Vec<T>, String> {
        rest.split_ascii_whitespace()
            .map(|word| word.parse().map_err(|_| format!("no number: {}", word)))
            .collect()
    }
    let mut cases = Vec::new();
    let mut case = Case::default();
    let mut room = None;
    for line in text.lines() {
        let (key, rest) = line.split_at(line.find(' ').unwrap_or(line.len()));
        match key {
            "case" => {
                case = Case::default();
                room = None;
                case.name = rest.trim().to_string();
            }
            "patterns" => case.count = all(rest)?.first().copied().ok_or("patterns")?,
            "weights" => case.weights = all(rest)?,
            "offsets" => case.offsets = all(rest)?,
            "ids" => case.ids = all(rest)?,
            "grid" => match all(rest)?.as_slice() {
                [width, height, mode] => {
                    case.width = *width;
                    case.height = *height;
                    case.mode = *mode;
                }
                _ => return Err(format!("grid: {}", rest)),
            },
            "forbids" => case.forbids = all(rest)?,
            "noise" => case.noise = all(rest)?,
            "words" => case.words = all(rest)?,
            "room" => match all(rest)?.as_slice() {
                [domains, counts, pending, floats, marks] => {
                    room = Some(Room {
                        domains: *domains,
                        counts: *counts,
                        pending: *pending,
                        floats: *floats,
                        marks: *marks,
                    })
                }
                _ => return Err(format!("room: {}", rest)),
            },
            "run" => {
                let usual = Room::of(case.count, case.width.wrapping_mul(case.height));
                case.room = room.unwrap_or(usual);
                cases.push(case.clone());
            }
            _ => {}
        }
    }
    Ok(cases)
}

pub const DECIDED: u32 = 0;
pub const UNDECIDED: u32 = 1;
pub const PAUSED: u32 = 2;
pub const CONTRADICTION: u32 = 3;

/// Where a choice was made, of which entropy (its bits), and what was chosen.
#[derive(Clone, Copy, Debug, PartialEq, Eq)]
pub struct Choice {
    pub cell: usize,
    pub entropy: u32,
    pub pattern: usize,
}

#[derive(Clone, Debug, Default, PartialEq, Eq)]
pub struct Ended {
    pub end: u32,
    pub used: usize,
    pub domains: Vec<u64>,
    pub choices: Vec<Choice>,
}

#[derive(Clone, Debug, PartialEq, Eq)]
pub enum Told {
    Refused(u32),
    Ended(Ended),
}

impl fmt::Display for Ended {
    fn fmt(&self, f: &mut fmt::Formatter) -> fmt::Result {
        writeln!(f, "end {} {}", self.end, self.used)?;
        numbers(f, "domains", &self.domains)?;
        for c in &self.choices {
            writeln!(f, "choice {} {:08x} {}", c.cell, c.entropy, c.pattern)?;
        }
        Ok(())
    }
}

impl fmt::Display for Told {
    fn fmt(&self, f: &mut fmt::Formatter) -> fmt::Result {
        match self {
            Told::Refused(number) => writeln!(f, "refused {}", number),
            Told::Ended(ended) => write!(f, "{}", ended),
        }
    }
}
