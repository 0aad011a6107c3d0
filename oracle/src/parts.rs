//! The parts of a case that may be damaged: its lengths, and its lists as far as offsets and ids go. Nothing here takes them to be well formed.

use crate::cases::{Case, Room};
use std::ops::Range;

const OPPOSITE: [usize; 4] = [2, 3, 0, 1];

/// A change to a case.
pub type Step = Box<dyn Fn(&mut Case)>;

/// Stretches of so many entries, long ones first; the shortest are of one, where there are not very many.
pub fn stretches(many: usize) -> Vec<Range<usize>> {
    let mut out = Vec::new();
    let mut long = many;
    while long > many / 256 {
        out.extend((0..many).step_by(long).map(|k| k..many.min(k + long)));
        long /= 2;
    }
    out
}

pub fn cells(case: &Case) -> usize {
    case.width.saturating_mul(case.height)
}

// ---- lengths: of weights, offsets and noise, and of the five slices that are written

pub fn lengths(case: &Case) -> [usize; 8] {
    let r = &case.room;
    let read = [case.weights.len(), case.offsets.len(), case.noise.len()];
    [
        read[0], read[1], read[2], r.domains, r.counts, r.pending, r.floats, r.marks,
    ]
}

/// What they must be.
pub fn called_for(case: &Case) -> [usize; 8] {
    let (p, n) = (case.count, cells(case));
    let r = Room::of(p, n);
    let offsets = p.saturating_mul(4).saturating_add(1);
    [p, offsets, n, r.domains, r.counts, r.pending, r.floats, r.marks]
}

pub fn set_length(case: &mut Case, k: usize, length: usize) {
    let end = case.offsets.last().copied().unwrap_or(0);
    match k {
        0 => case.weights.resize(length, 0),
        1 => case.offsets.resize(length, end),
        2 => case.noise.resize(length, 0),
        3 => case.room.domains = length,
        4 => case.room.counts = length,
        5 => case.room.pending = length,
        6 => case.room.floats = length,
        _ => case.room.marks = length,
    }
}

/// A change of the sizes, after which these lengths are as much too long or too short as they were.
pub fn resized(case: &mut Case, follow: Range<usize>, change: impl Fn(&mut Case)) {
    let (old, called) = (lengths(case), called_for(case));
    change(case);
    for k in follow {
        let length = called_for(case)[k].saturating_add(old[k]).saturating_sub(called[k]);
        set_length(case, k, length);
    }
}

// ---- lists, as far as offsets and ids go

pub fn lists(case: &Case) -> Vec<Vec<u8>> {
    let end = case.ids.len();
    let list = |w: &[u32]| {
        let to = end.min(w[1] as usize);
        case.ids[to.min(w[0] as usize)..to].to_vec()
    };
    case.offsets.windows(2).map(list).collect()
}

pub fn set_lists(case: &mut Case, lists: &[Vec<u8>]) {
    case.offsets = vec![0];
    case.ids.clear();
    for list in lists {
        case.ids.extend_from_slice(list);
        case.offsets.push(case.ids.len() as u32);
    }
}

/// Each pattern beside itself and no other.
pub fn set_alone(case: &mut Case) {
    let alone: Vec<Vec<u8>> = (0..4 * case.count.min(64)).map(|k| vec![(k / 4) as u8]).collect();
    set_lists(case, &alone);
}

/// The list that should have the pattern of list k where that one has q.
pub fn counterpart(k: usize, q: u8) -> usize {
    4 * q as usize + OPPOSITE[k % 4]
}

/// The pairs that stand in list k and not in the list of the other.
pub fn one_sided(lists: &[Vec<u8>]) -> Vec<(usize, u8)> {
    let lone = |k: usize, q: u8| {
        !lists
            .get(counterpart(k, q))
            .map_or(false, |l| l.contains(&((k / 4) as u8)))
    };
    let pairs = (0..lists.len()).flat_map(|k| lists[k].iter().map(move |&q| (k, q)));
    pairs.filter(|&(k, q)| lone(k, q)).collect()
}
