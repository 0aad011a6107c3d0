//! Cases that docs/RULES.md accepts: random ones from a seed, and every table of two or three patterns on small grids.

use crate::cases::{Case, Room};
use crate::numbers::Numbers;

/// What may stand east (or south) of each pattern: bit b of row a.
type Pairs = Vec<u64>;

/// The offsets and ids of the table with these pairs. It agrees, since each pair is read in both directions.
pub fn table(east: &[u64], south: &[u64]) -> (Vec<u32>, Vec<u8>) {
    let p = east.len();
    let mut offsets = vec![0];
    let mut ids = Vec::new();
    for a in 0..p {
        for d in 0..4 {
            for b in 0..p {
                let stands = match d {
                    0 => south[b] >> a,
                    1 => east[a] >> b,
                    2 => south[a] >> b,
                    _ => east[b] >> a,
                };
                if stands & 1 == 1 {
                    ids.push(b as u8);
                }
            }
            offsets.push(ids.len() as u32);
        }
    }
    (offsets, ids)
}

/// Each pattern has something on both sides.
fn filled(pairs: &[u64]) -> bool {
    let p = pairs.len();
    let all = pairs.iter().fold(0, |all, row| all | row);
    pairs.iter().all(|&row| row != 0) && all == u64::MAX >> (64 - p)
}

fn fill(pairs: &mut Pairs, numbers: &mut Numbers) {
    let p = pairs.len();
    for a in 0..p {
        if pairs[a] == 0 {
            pairs[a] |= 1 << numbers.below(p);
        }
        if (0..p).all(|b| pairs[b] >> a & 1 == 0) {
            pairs[numbers.below(p)] |= 1 << a;
        }
    }
}

/// Pairs of one of several kinds, from one that leaves no freedom to one that leaves all of it.
fn pairs(p: usize, numbers: &mut Numbers) -> Pairs {
    let mut rows = vec![0u64; p];
    let kind = numbers.below(6);
    let share = numbers.one_of(&[5, 15, 30, 50, 70, 85, 95]);
    let reach = numbers.from_to(0, 3);
    let step = numbers.below(p);
    for a in 0..p {
        for b in 0..p {
            let away = (a + p - b) % p;
            let stands = match kind {
                // every pair
                0 => true,
                // all but equal ones
                1 => a != b,
                // near on a ring
                2 => away.min(p - away) <= reach,
                // one follower for each
                3 => away == step,
                // a share of the pairs, of which the last kind takes both or neither
                4 => numbers.percent(share),
                _ => {
                    if a <= b {
                        numbers.percent(share)
                    } else {
                        rows[b] >> a & 1 == 1
                    }
                }
            };
            if stands {
                rows[a] |= 1 << b;
            }
        }
    }
    fill(&mut rows, numbers);
    rows
}

fn weights(p: usize, numbers: &mut Numbers) -> Vec<u32> {
    let kind = numbers.below(8);
    let top = 1024 / p;
    let one = numbers.below(p);
    let mut ws: Vec<u32> = (0..p)
        .map(|q| match kind {
            0 => 1,
            1 | 2 => numbers.from_to(1, 9.min(top)) as u32,
            3 => numbers.from_to(0, top) as u32,
            4 => {
                if numbers.percent(50) {
                    0
                } else {
                    numbers.from_to(1, 3) as u32
                }
            }
            5 => {
                if numbers.percent(85) {
                    0
                } else {
                    numbers.from_to(1, 5) as u32
                }
            }
            6 => (q == one) as u32,
            // one heavy, so that losing it raises the entropy
            _ => 1,
        })
        .collect();
    if kind == 7 {
        let rest: u32 = p as u32 - 1;
        ws[one] = numbers.from_to(1, 1024 - rest as usize) as u32;
    }
    if numbers.percent(2) {
        ws = vec![0; p];
    }
    ws
}

/// Sides of 1, 2 and 3 often, some as large as can be.
fn sides(numbers: &mut Numbers) -> (usize, usize) {
    match numbers.below(10) {
        0..=4 => (numbers.from_to(1, 3), numbers.from_to(1, 3)),
        5 | 6 => (numbers.from_to(1, 3), numbers.from_to(1, 12)),
        7 => (numbers.from_to(1, 12), numbers.from_to(1, 3)),
        8 => (numbers.from_to(1, 10), numbers.from_to(1, 10)),
        _ => {
            let width = numbers.from_to(1, 64);
            let height = numbers.from_to(1, 64.min(1024 / width));
            if numbers.percent(50) {
                (width, height)
            } else {
                (height, width)
            }
        }
    }
}

fn patterns(numbers: &mut Numbers) -> usize {
    match numbers.below(10) {
        0..=3 => numbers.from_to(1, 4),
        4..=6 => numbers.from_to(5, 12),
        7 | 8 => numbers.from_to(13, 32),
        _ => numbers.from_to(33, 64),
    }
}

/// Some forbids, of which some repeat earlier ones; a pattern may be gone when its turn comes.
fn forbids(cells: usize, p: usize, numbers: &mut Numbers) -> Vec<u32> {
    let many = match numbers.below(10) {
        0..=3 => 0,
        4..=6 => numbers.from_to(1, 3),
        7 | 8 => numbers.from_to(1, 10),
        _ => numbers.from_to(1, 3 * cells.min(40)),
    };
    let keeping = numbers.one_of(&[0, 10, 50]);
    let mut records = Vec::new();
    for k in 0..many {
        if k > 0 && numbers.percent(15) {
            let again = 3 * numbers.below(k);
            records.extend_from_within(again..again + 3);
            continue;
        }
        records.push(numbers.below(cells) as u32);
        records.push(numbers.below(p) as u32);
        // any other number than 0 keeps only the pattern
        records.push(if numbers.percent(keeping) {
            numbers.one_of(&[1, 1, 2, u32::MAX])
        } else {
            0
        });
    }
    records
}

fn noise(cells: usize, numbers: &mut Numbers) -> Vec<u32> {
    // one in twenty has equal words
    let equal = numbers.percent(5);
    let near = numbers.percent(20);
    let mut words: Vec<u32> = Vec::new();
    while words.len() < cells {
        let word = if equal {
            numbers.below(3) as u32
        } else if near {
            numbers.below(2 * cells) as u32
        } else {
            numbers.word()
        };
        if equal || !words.contains(&word) {
            words.push(word);
        }
    }
    words
}

fn words(cells: usize, numbers: &mut Numbers) -> Vec<u32> {
    let many = match numbers.below(10) {
        0 => 0,
        1 | 2 => numbers.from_to(0, cells),
        _ => cells + numbers.below(2),
    };
    (0..many).map(|_| numbers.word()).collect()
}

/// The random case of this seed and number.
pub fn random(seed: u64, number: u64) -> Case {
    let mut start = Numbers::new(seed);
    let mut numbers = Numbers::new(start.next() ^ number);
    // cells times patterns stay below 4,096, but for one in a hundred
    let most = if numbers.percent(1) { 65_536 } else { 4_096 };
    let (p, width, height) = loop {
        let (p, (width, height)) = (patterns(&mut numbers), sides(&mut numbers));
        if p * width * height <= most {
            break (p, width, height);
        }
    };
    let cells = width * height;
    let east = pairs(p, &mut numbers);
    let south = if numbers.percent(40) {
        east.clone()
    } else {
        pairs(p, &mut numbers)
    };
    let (offsets, ids) = table(&east, &south);
    Case {
        name: format!("random {} {}", seed, number),
        mode: numbers.below(4),
        weights: weights(p, &mut numbers),
        forbids: forbids(cells, p, &mut numbers),
        noise: noise(cells, &mut numbers),
        words: words(cells, &mut numbers),
        count: p,
        width,
        height,
        offsets,
        ids,
        room: Room::of(p, cells),
    }
}

// ---- every small table

/// Every set of pairs of so many patterns in which each has something on both sides.
pub fn every_pairs(p: usize) -> Vec<Pairs> {
    (0..1u64 << (p * p))
        .map(|bits| (0..p).map(|a| bits >> (a * p) & ((1 << p) - 1)).collect())
        .filter(|rows: &Pairs| filled(rows))
        .collect()
}

/// A share of all cases: those of one table and grid.
pub struct Small {
    pub count: usize,
    pub width: usize,
    pub height: usize,
    pub mode: usize,
    pub weights: Vec<u32>,
    /// Every sequence of choices, or this many.
    pub sequences: usize,
    /// Every single forbid, or none.
    pub forbids: bool,
}

/// The words that let a cell of two or more weighted patterns take the lowest or the highest of them.
fn drawn(bits: usize, many: usize, weights: &[u32]) -> Vec<u32> {
    let sum: u32 = weights.iter().sum();
    (0..many)
        .map(|k| if bits >> k & 1 == 1 { sum.max(1) - 1 } else { 0 })
        .collect()
}

/// Calls `each` with every case of this share.
pub fn each_small(small: &Small, east: &[u64], south: &[u64], each: &mut dyn FnMut(&Case)) {
    let cells = small.width * small.height;
    let (offsets, ids) = table(east, south);
    let mut case = Case {
        count: small.count,
        width: small.width,
        height: small.height,
        mode: small.mode,
        weights: small.weights.clone(),
        offsets,
        ids,
        noise: (0..cells as u32).map(|c| c * 5 % 11).collect(),
        room: Room::of(small.count, cells),
        ..Case::default()
    };
    case.name = format!(
        "table {:?} {:?} on {} by {}, mode {}",
        east, south, small.width, small.height, small.mode
    );
    let records = if small.forbids { 1 + 2 * cells * small.count } else { 1 };
    for record in 0..records {
        case.forbids.clear();
        if record > 0 {
            let k = record - 1;
            let (cell, pattern, keep) = (k / 2 / small.count, k / 2 % small.count, k % 2);
            case.forbids
                .extend_from_slice(&[cell as u32, pattern as u32, keep as u32]);
        }
        for bits in 0..small.sequences.min(1 << cells) {
            // spread over the sequences where there are more
            let bits = if small.sequences < 1 << cells {
                bits * 37 % (1 << cells)
            } else {
                bits
            };
            case.words = drawn(bits, cells, &case.weights);
            each(&case);
        }
    }
}
