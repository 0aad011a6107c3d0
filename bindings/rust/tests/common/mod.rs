//! The recorded cases of vectors/ (vectors/README.md says their form), and owned memory to lend.
#![allow(dead_code)]

use murghidossu::{lengths, Forbid, Grid, Memory, Table};
use std::collections::HashMap;
use std::{env, fs};

/// One case: its lines by their first word.
pub struct Case {
    pub name: String,
    lines: HashMap<String, String>,
}

/// Every case of a file.
pub fn cases(file: &str) -> Vec<Case> {
    let folder =
        env::var("MURGHIDOSSU_VECTORS").unwrap_or(concat!(env!("CARGO_MANIFEST_DIR"), "/../../vectors").into());
    let text = fs::read_to_string(format!("{folder}/{file}")).expect("the recorded cases");
    let mut all = Vec::new();
    for block in text.split("\n\n") {
        let mut lines = HashMap::new();
        for line in block.lines().filter(|l| !l.starts_with('#') && !l.is_empty()) {
            let (word, rest) = line.split_once(' ').unwrap_or((line, ""));
            lines.insert(word.to_string(), rest.to_string());
        }
        if let Some(name) = lines.get("case").cloned() {
            all.push(Case { name, lines });
        }
    }
    all
}

fn hex(text: &str) -> Vec<u8> {
    (0..text.len() / 2)
        .map(|k| u8::from_str_radix(&text[2 * k..2 * k + 2], 16).expect("two digits"))
        .collect()
}

impl Case {
    pub fn has(&self, word: &str) -> bool {
        self.lines.contains_key(word)
    }
    pub fn text(&self, word: &str) -> &str {
        self.lines.get(word).map_or("", |s| s)
    }
    /// The numbers of a line; `* N RECORD LAST` is N times a record and then another once.
    pub fn numbers(&self, word: &str) -> Vec<u64> {
        let text = self.text(word);
        let (times, text) = match text.strip_prefix("* ") {
            Some(rest) => rest
                .split_once(' ')
                .map(|(n, rest)| (n.parse().expect("a number"), rest))
                .expect("a record"),
            None => (0, text),
        };
        let mut numbers: Vec<u64> = text.split_whitespace().map(|n| n.parse().expect("a number")).collect();
        if times > 0 {
            let last = numbers.split_off(3);
            numbers = numbers.repeat(times);
            numbers.extend(last);
        }
        numbers
    }
    pub fn number(&self, word: &str) -> usize {
        self.numbers(word)[0] as usize
    }
    /// The bytes of a line; `BYTES * N TAIL` is the bytes and then N times the tail.
    pub fn bytes(&self, word: &str) -> Vec<u8> {
        match self.text(word).split_once(" * ") {
            None => hex(self.text(word)),
            Some((start, more)) => {
                let (times, tail) = more.split_once(' ').expect("a tail");
                let mut bytes = hex(start);
                bytes.extend(hex(tail).repeat(times.parse().expect("a number")));
                bytes
            }
        }
    }
    pub fn lent(&self) -> Lent {
        let words = |word| self.numbers(word).into_iter().map(|n| n as u32).collect::<Vec<u32>>();
        let grid = if self.has("grid") {
            self.numbers("grid")
        } else {
            vec![0, 0, 0]
        };
        let forbids = words("forbids");
        Lent {
            count: if self.has("patterns") {
                self.number("patterns")
            } else {
                0
            },
            offsets: words("offsets"),
            ids: self.numbers("ids").into_iter().map(|n| n as u8).collect(),
            weights: words("weights"),
            grid: Grid {
                width: grid[0] as usize,
                height: grid[1] as usize,
                mode: grid[2] as usize,
            },
            forbids: forbids
                .chunks(3)
                .map(|f| Forbid {
                    cell: f[0],
                    pattern: f[1],
                    keep: f[2],
                })
                .collect(),
            noise: words("noise"),
            words: words("words"),
        }
    }
}

/// What a case lends to be read.
#[derive(Clone)]
pub struct Lent {
    pub count: usize,
    pub offsets: Vec<u32>,
    pub ids: Vec<u8>,
    pub weights: Vec<u32>,
    pub grid: Grid,
    pub forbids: Vec<Forbid>,
    pub noise: Vec<u32>,
    pub words: Vec<u32>,
}

impl Lent {
    pub fn table(&self) -> Table<'_> {
        Table {
            count: self.count,
            offsets: &self.offsets,
            ids: &self.ids,
            weights: &self.weights,
        }
    }
    pub fn cells(&self) -> usize {
        self.grid.width.wrapping_mul(self.grid.height)
    }
    /// Room for a run, full of sevens: old content is ignored.
    pub fn room(&self) -> Room {
        Room::new(self.count, self.cells(), 0)
    }
}

/// Memory for a run.
#[derive(Clone, Debug, PartialEq)]
pub struct Room {
    pub domains: Vec<u64>,
    pub counts: Vec<u8>,
    pub pending: Vec<u32>,
    pub floats: Vec<f32>,
    pub marks: Vec<u8>,
}

impl Room {
    pub fn new(count: usize, cells: usize, more: usize) -> Room {
        // what is far too large is refused before its memory is looked at
        let (count, cells) = (count.min(100), cells.min(2000));
        Room {
            domains: vec![7; lengths::domains(cells)],
            counts: vec![7; lengths::counts(count, cells) + more],
            pending: vec![7; lengths::pending(count, cells) + more],
            floats: vec![7.0; lengths::floats(cells) + more],
            marks: vec![7; lengths::marks(cells) + more],
        }
    }
    pub fn lend(&mut self) -> Memory<'_> {
        Memory {
            domains: &mut self.domains,
            counts: &mut self.counts,
            pending: &mut self.pending,
            floats: &mut self.floats,
            marks: &mut self.marks,
        }
    }
    pub fn worked_off(&self) -> bool {
        self.counts.iter().all(|&x| x == 0)
            && self.pending.iter().all(|&x| x == 0)
            && self.floats.iter().all(|&x| x.to_bits() == 0)
            && self.marks.iter().all(|&x| x == 0)
    }
}

/// Two patterns, each of which may stand only beside the other, on 2 by 1.
pub fn checker() -> Lent {
    Lent {
        count: 2,
        offsets: (0..9).collect(),
        ids: vec![1, 1, 1, 1, 0, 0, 0, 0],
        weights: vec![2, 3],
        grid: Grid {
            width: 2,
            height: 1,
            mode: 0,
        },
        forbids: vec![],
        noise: vec![5, 4],
        words: vec![1, 2],
    }
}
