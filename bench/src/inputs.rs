//! The inputs: tables that are rings or random pairs, on grids of several sizes, all from fixed seeds.

use oracle::cases::{Case, Room, CONTRADICTION, UNDECIDED};
use oracle::probe;

/// A small generator of fixed numbers (xorshift32).
struct Numbers(u32);

impl Numbers {
    fn next(&mut self) -> u32 {
        self.0 ^= self.0 << 13;
        self.0 ^= self.0 >> 17;
        self.0 ^= self.0 << 5;
        self.0
    }
    fn below(&mut self, n: u32) -> u32 {
        self.next() % n
    }
}

/// An agreeing table from what may stand east and south of each pattern.
fn table(p: usize, east: &[Vec<bool>], south: &[Vec<bool>]) -> (Vec<u32>, Vec<u8>) {
    let mut offsets = vec![0];
    let mut ids = Vec::new();
    for a in 0..p {
        for d in 0..4 {
            for b in 0..p {
                let stands = match d {
                    0 => south[b][a],
                    1 => east[a][b],
                    2 => south[a][b],
                    _ => east[b][a],
                };
                if stands {
                    ids.push(b as u8);
                }
            }
            offsets.push(ids.len() as u32);
        }
    }
    (offsets, ids)
}

/// Patterns within `reach` on a ring: every prefix of choices can go on.
fn ring(p: usize, reach: usize) -> Vec<Vec<bool>> {
    let near = |a: usize, b: usize| {
        let away = (a + p - b) % p;
        away.min(p - away) <= reach
    };
    (0..p).map(|a| (0..p).map(|b| near(a, b)).collect()).collect()
}

/// Random pairs of the given share, in percent, and each pattern beside itself.
fn random(p: usize, percent: u32, numbers: &mut Numbers) -> Vec<Vec<bool>> {
    let mut pairs: Vec<Vec<bool>> = (0..p)
        .map(|_| (0..p).map(|_| numbers.below(100) < percent).collect())
        .collect();
    for (a, row) in pairs.iter_mut().enumerate() {
        row[a] = true;
    }
    pairs
}

#[derive(Clone, Copy)]
enum Pairs {
    Ring,
    Percent(u32),
}

#[derive(Clone, Copy)]
struct Shape {
    name: &'static str,
    p: usize,
    width: usize,
    height: usize,
    mode: usize,
    forbids: usize,
    pairs: Pairs,
}

fn shape(
    name: &'static str,
    p: usize,
    width: usize,
    height: usize,
    mode: usize,
    forbids: usize,
    pairs: Pairs,
) -> Shape {
    Shape {
        name,
        p,
        width,
        height,
        mode,
        forbids,
        pairs,
    }
}

fn make(shape: &Shape, seed: u32) -> Case {
    let mut numbers = Numbers(seed);
    let p = shape.p;
    let (east, south) = match shape.pairs {
        Pairs::Ring => {
            let reach = if p <= 8 {
                1
            } else if p <= 16 {
                2
            } else {
                3
            };
            (ring(p, reach), ring(p, reach))
        }
        Pairs::Percent(share) => {
            let east = random(p, share, &mut numbers);
            (east, random(p, share, &mut numbers))
        }
    };
    let (offsets, ids) = table(p, &east, &south);
    let cells = shape.width * shape.height;
    let weights = (0..p).map(|_| 1 + numbers.below(9)).collect();
    let noise = (0..cells).map(|_| numbers.next()).collect();
    let words = (0..cells).map(|_| numbers.next()).collect();
    let mut forbids = Vec::new();
    for _ in 0..shape.forbids {
        let cell = numbers.below(cells as u32);
        forbids.extend_from_slice(&[cell, numbers.below(p as u32), 0]);
    }
    Case {
        name: shape.name.to_string(),
        forbids,
        count: p,
        width: shape.width,
        height: shape.height,
        mode: shape.mode,
        weights,
        offsets,
        ids,
        noise,
        words,
        room: Room::of(p, cells),
    }
}

/// The case of the first seed whose run is as wanted.
fn first(shape: &Shape, wanted: impl Fn(&probe::Answer) -> bool) -> Case {
    (12345..15345)
        .map(|seed| make(shape, seed))
        .find(|case| wanted(&probe::run(case)))
        .expect("a seed whose run is as wanted")
}

fn ends(answer: &probe::Answer) -> bool {
    answer.ended.end <= UNDECIDED && answer.silent.is_none()
}

/// The nine inputs.
pub fn nine() -> Vec<Case> {
    use Pairs::*;
    let mut cases: Vec<Case> = [
        shape("32x32 P=8 mode 0, ring", 8, 32, 32, 0, 0, Ring),
        shape("32x32 P=8 mode 3, 70 percent", 8, 32, 32, 3, 0, Percent(70)),
        shape("32x32 P=64 mode 0, sparse ring", 64, 32, 32, 0, 0, Ring),
        shape("32x32 P=64 mode 3, 30 percent", 64, 32, 32, 3, 0, Percent(30)),
        shape("64x16 P=16 mode 1, ring, 50 forbids", 16, 64, 16, 1, 50, Ring),
        shape("8x8 P=16 mode 0, ring, 5 forbids", 16, 8, 8, 0, 5, Ring),
        shape("16x16 P=16 mode 3, 50 percent", 16, 16, 16, 3, 0, Percent(50)),
        shape("1x1 P=1 mode 0", 1, 1, 1, 0, 0, Ring),
    ]
    .iter()
    .map(|shape| first(shape, ends))
    .collect();
    let last = shape(
        "32x32 P=16 mode 0, 20 percent, contradicts",
        16,
        32,
        32,
        0,
        0,
        Percent(20),
    );
    cases.push(first(&last, |a| a.ended.end == CONTRADICTION && a.ended.used > 5));
    cases
}

/// Rings without wrap: more cells at 16 patterns, then more patterns at 32 by 32. Each is there once, so 32 by 32 with 16 belongs to both.
pub fn growing() -> Vec<Case> {
    [(16, 8), (16, 16), (8, 32), (16, 32), (32, 32), (64, 32)]
        .iter()
        .map(|&(p, side)| {
            let mut case = first(&shape("", p, side, side, 0, 0, Pairs::Ring), ends);
            case.name = format!("{}x{} P={} mode 0, ring", side, side, p);
            case
        })
        .collect()
}
