//! The smallest case that still shows something: forbids, words, rows, columns and patterns go as long as it does.

use crate::cases::{Case, Room};
use crate::mend::{faults, mends};
use crate::parts::Step;
use crate::rules;
use crate::shorten::{shortenings, size};

const OPPOSITE: [usize; 4] = [2, 3, 0, 1];

fn without_cells(case: &Case, stays: impl Fn(usize, usize) -> bool, width: usize, height: usize) -> Case {
    let mut next = case.clone();
    let kept: Vec<usize> = (0..case.cells())
        .filter(|c| stays(c % case.width, c / case.width))
        .collect();
    next.width = width;
    next.height = height;
    next.noise = kept.iter().map(|&c| case.noise[c]).collect();
    next.forbids.clear();
    for record in case.forbids.chunks(3) {
        if let Some(at) = kept.iter().position(|&c| c == record[0] as usize) {
            next.forbids.extend_from_slice(&[at as u32, record[1], record[2]]);
        }
    }
    next.room = Room::of(next.count, next.cells());
    next
}

/// A table anew from the pairs that `stays` lets stand.
fn with_lists(
    case: &Case,
    count: usize,
    name: impl Fn(usize) -> usize,
    stays: impl Fn(usize, usize, usize) -> bool,
) -> (Vec<u32>, Vec<u8>) {
    let mut offsets = vec![0];
    let mut ids = Vec::new();
    for p in 0..count {
        for d in 0..4 {
            for q in 0..count {
                if case.list(name(p), d).contains(&(name(q) as u8)) && stays(p, d, q) {
                    ids.push(q as u8);
                }
            }
            offsets.push(ids.len() as u32);
        }
    }
    (offsets, ids)
}

fn without_pattern(case: &Case, gone: usize) -> Case {
    let mut next = case.clone();
    next.count -= 1;
    next.weights.remove(gone);
    let (offsets, ids) = with_lists(case, next.count, |p| p + (p >= gone) as usize, |_, _, _| true);
    next.offsets = offsets;
    next.ids = ids;
    next.forbids.clear();
    for record in case.forbids.chunks(3) {
        let p = record[1] as usize;
        if p != gone {
            next.forbids
                .extend_from_slice(&[record[0], (p - (p > gone) as usize) as u32, record[2]]);
        }
    }
    next.room = Room::of(next.count, next.cells());
    next
}

fn without_pair(case: &Case, p: usize, d: usize, q: usize) -> Case {
    let mut next = case.clone();
    let gone = |a, e, b| (a, e, b) == (p, d, q) || (a, e, b) == (q, OPPOSITE[d], p);
    let (offsets, ids) = with_lists(case, case.count, |a| a, |a, e, b| !gone(a, e, b));
    next.offsets = offsets;
    next.ids = ids;
    next
}

/// Every case that is a step smaller.
fn smaller(case: &Case) -> Vec<Case> {
    let mut out = Vec::new();
    let (w, h, p) = (case.width, case.height, case.count);
    for x in 0..if w > 1 { w } else { 0 } {
        out.push(without_cells(case, |a, _| a != x, w - 1, h));
    }
    for y in 0..if h > 1 { h } else { 0 } {
        out.push(without_cells(case, |_, b| b != y, w, h - 1));
    }
    for q in 0..if p > 1 { p } else { 0 } {
        out.push(without_pattern(case, q));
    }
    let records = case.forbids.len() / 3;
    if records > 3 {
        for half in 0..2 {
            let mut next = case.clone();
            next.forbids.drain(if half == 0 {
                0..records / 2 * 3
            } else {
                records / 2 * 3..records * 3
            });
            out.push(next);
        }
    }
    for k in 0..records {
        let mut next = case.clone();
        next.forbids.drain(3 * k..3 * k + 3);
        out.push(next);
    }
    for k in (0..case.words.len()).rev() {
        let mut next = case.clone();
        next.words.remove(k);
        out.push(next);
    }
    if case.mode > 0 {
        for mode in 0..case.mode {
            out.push(Case { mode, ..case.clone() });
        }
    }
    for (k, &weight) in case.weights.iter().enumerate() {
        for next_weight in [0, 1, weight / 2].iter().copied().filter(|&x| x < weight) {
            let mut next = case.clone();
            next.weights[k] = next_weight;
            out.push(next);
        }
    }
    for (k, &word) in case.words.iter().enumerate() {
        for next_word in [0, 1, word % 16].iter().copied().filter(|&x| x < word) {
            let mut next = case.clone();
            next.words[k] = next_word;
            out.push(next);
        }
    }
    // noise words by their rank
    let mut ranked: Vec<u32> = case.noise.clone();
    ranked.sort_unstable();
    ranked.dedup();
    let ranks: Vec<u32> = case
        .noise
        .iter()
        .map(|n| ranked.iter().position(|r| r == n).unwrap() as u32)
        .collect();
    if ranks != case.noise {
        out.push(Case {
            noise: ranks,
            ..case.clone()
        });
    }
    for a in 0..p {
        for d in 0..2 {
            for &b in case.list(a, d) {
                out.push(without_pair(case, a, d, b as usize));
            }
        }
    }
    out
}

/// A case that `shows` and none of whose smaller ones does. The case must be one that docs/RULES.md accepts, and `shows` of a refused one false.
pub fn minimise(case: &Case, shows: &mut dyn FnMut(&Case) -> bool) -> Case {
    let mut least = case.clone();
    'again: loop {
        for next in smaller(&least) {
            if shows(&next) {
                least = next;
                continue 'again;
            }
        }
        return least;
    }
}

// ---- cases that are refused

/// The first of the steps after which `good` is so.
fn first(case: &Case, steps: Vec<Step>, good: &mut dyn FnMut(&Case) -> bool) -> Option<Case> {
    steps.iter().find_map(|step| {
        let mut next = case.clone();
        step(&mut next);
        if good(&next) {
            Some(next)
        } else {
            None
        }
    })
}

/// A case that `shows`, with as few faults as these steps leave, and none where it shows without. If it is refused it is as small as they make it.
pub fn refused(case: &Case, shows: &mut dyn FnMut(&Case) -> bool) -> Case {
    let mut least = case.clone();
    loop {
        let now = faults(&least);
        match first(&least, mends(&least), &mut |c| faults(c) < now && shows(c)) {
            Some(next) => least = next,
            None => break,
        }
    }
    let number = rules::refusal(&least);
    while number != 0 {
        let now = size(&least);
        let mut good = |c: &Case| size(c) < now && rules::refusal(c) == number && shows(c);
        match first(&least, shortenings(&least), &mut good) {
            Some(next) => least = next,
            None => break,
        }
    }
    least
}
