//! The size of a case that is refused, and steps that make it smaller: patterns, rows, columns and entries go, and numbers are lowered.

use crate::cases::Case;
use crate::parts::{resized, set_alone, stretches, Step};
use std::ops::Range;

/// All entries and all numbers.
pub fn size(case: &Case) -> u128 {
    let sum = |items: &[u32]| items.iter().map(|&x| x as u128 + 1).sum::<u128>();
    let vectors = [&case.forbids, &case.weights, &case.offsets, &case.noise, &case.words];
    let ids: u128 = case.ids.iter().map(|&q| q as u128 + 1).sum();
    let r = &case.room;
    let numbers = [
        case.count,
        case.width,
        case.height,
        case.mode,
        r.domains,
        r.counts,
        r.pending,
        r.floats,
        r.marks,
    ];
    let numbers: u128 = numbers.iter().map(|&x| x as u128).sum();
    vectors.iter().map(|v| sum(v)).sum::<u128>() + ids + numbers
}

/// An id goes, and the offsets behind it follow.
fn remove_id(case: &mut Case, k: usize) {
    case.ids.remove(k);
    for offset in case.offsets.iter_mut().filter(|o| **o as usize > k) {
        *offset -= 1;
    }
}

/// A pattern goes, with its weight, its lists, its ids in others and its forbids.
fn without_pattern(case: &mut Case, gone: usize) {
    if gone < case.weights.len() {
        case.weights.remove(gone);
    }
    if case.offsets.len() > 4 * gone + 4 {
        let at = |k: usize| case.ids.len().min(case.offsets[k] as usize);
        let lists = at(4 * gone)..at(4 * gone + 4);
        case.offsets.drain(4 * gone + 1..4 * gone + 5);
        lists.rev().for_each(|k| remove_id(case, k));
    }
    for k in (0..case.ids.len()).rev() {
        if case.ids[k] as usize == gone {
            remove_id(case, k);
        } else if case.ids[k] as usize > gone {
            case.ids[k] -= 1;
        }
    }
    case.forbids
        .chunks_exact_mut(3)
        .for_each(|r| r[1] -= (r[1] as usize > gone) as u32);
}

type Vector = fn(&mut Case) -> &mut Vec<u32>;

fn vectors() -> [Vector; 5] {
    [
        |c| &mut c.forbids,
        |c| &mut c.weights,
        |c| &mut c.offsets,
        |c| &mut c.noise,
        |c| &mut c.words,
    ]
}

type Number = fn(&mut Case) -> &mut usize;

fn numbers() -> [Number; 9] {
    [
        |c| &mut c.count,
        |c| &mut c.width,
        |c| &mut c.height,
        |c| &mut c.mode,
        |c| &mut c.room.domains,
        |c| &mut c.room.counts,
        |c| &mut c.room.pending,
        |c| &mut c.room.floats,
        |c| &mut c.room.marks,
    ]
}

/// Steps of which each may make the case smaller.
pub fn shortenings(case: &Case) -> Vec<Step> {
    let mut steps: Vec<Step> = Vec::new();
    for side in below(case.width) {
        steps.push(Box::new(move |c| resized(c, 2..8, |c| c.width = side)));
    }
    for side in below(case.height) {
        steps.push(Box::new(move |c| resized(c, 2..8, |c| c.height = side)));
    }
    steps.push(Box::new(set_alone));
    for gone in 0..if case.count <= 128 { case.count } else { 0 } {
        steps.push(Box::new(move |c| {
            resized(c, 3..8, |c| {
                c.count -= 1;
                without_pattern(c, gone);
            })
        }));
    }
    for s in stretches(case.forbids.len() / 3) {
        steps.push(Box::new(move |c| drop(c.forbids.drain(3 * s.start..3 * s.end))));
    }
    steps.extend(dropped(case));
    steps.extend(lowered(case));
    steps
}

/// Entries go.
fn dropped(case: &Case) -> Vec<Step> {
    let mut steps: Vec<Step> = Vec::new();
    for &vector in &vectors() {
        for s in stretches(vector(&mut case.clone()).len()) {
            steps.push(Box::new(move |c| drop(vector(c).drain(s.clone()))));
        }
    }
    for s in stretches(case.ids.len()) {
        let bare = s.clone();
        steps.push(Box::new(move |c| drop(c.ids.drain(bare.clone()))));
        steps.push(Box::new(move |c| s.clone().rev().for_each(|k| remove_id(c, k))));
    }
    steps
}

/// Smaller numbers: the next one only where it is not far to the smallest.
fn below(now: usize) -> Vec<usize> {
    let next = now.saturating_sub((now < 1 << 12) as usize);
    let mut out = vec![0, 1, now / 2, next];
    out.retain(|&x| x < now);
    out
}

/// Numbers become smaller.
fn lowered(case: &Case) -> Vec<Step> {
    let mut steps: Vec<Step> = Vec::new();
    for &number in &numbers() {
        for next in below(*number(&mut case.clone())) {
            steps.push(Box::new(move |c| *number(c) = next));
        }
    }
    for &vector in &vectors() {
        let now = vector(&mut case.clone()).clone();
        let zero = |s: &Range<usize>| now[s.clone()].iter().all(|&x| x == 0);
        for s in stretches(now.len()).into_iter().filter(|s| !zero(s)) {
            steps.push(Box::new(move |c| vector(c)[s.clone()].iter_mut().for_each(|x| *x = 0)));
        }
        for k in 0..now.len().min(1 << 10) {
            for next in below(now[k] as usize) {
                steps.push(Box::new(move |c| vector(c)[k] = next as u32));
            }
        }
    }
    for k in 0..case.ids.len() {
        for next in below(case.ids[k] as usize) {
            steps.push(Box::new(move |c| c.ids[k] = next as u8));
        }
    }
    steps
}
