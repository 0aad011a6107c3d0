//! The faults of a case that is refused, and steps that take them away.

use crate::cases::Case;
use crate::parts::{
    called_for, cells, counterpart, lengths, lists, one_sided, set_alone, set_length, set_lists, stretches, Step,
};

fn list_faults(list: &[u8], p: usize) -> usize {
    let unordered = list.windows(2).filter(|w| w[0] >= w[1]).count();
    list.is_empty() as usize + unordered + list.iter().filter(|&&q| q as usize >= p).count()
}

/// How many there are.
pub fn faults(case: &Case) -> usize {
    let (p, n) = (case.count, cells(case));
    let outside = |side: usize| (side < 1 || side > 64) as usize;
    let sizes =
        outside(p) + outside(case.width) + outside(case.height) + (n > 1024) as usize + (case.mode > 3) as usize;
    let (long, called) = (lengths(case), called_for(case));
    let unfit = (0..8).filter(|&k| long[k] != called[k]).count();
    let sum: u64 = case.weights.iter().map(|&w| w as u64).sum();
    let begin = (case.offsets.first() != Some(&0)) as usize;
    let end = (case.offsets.last().map(|&o| o as usize) != Some(case.ids.len())) as usize;
    let falls = case.offsets.windows(2).filter(|w| w[0] > w[1]).count();
    let lists = lists(case);
    let bad: usize = lists.iter().map(|list| list_faults(list, p)).sum();
    let forbids = (case.forbids.len() % 3 != 0) as usize + (case.forbids.len() / 3 > 4096) as usize;
    let astray = |r: &[u32]| (r[0] as usize >= n) as usize + (r[1] as usize >= p) as usize;
    let records: usize = case.forbids.chunks_exact(3).map(astray).sum();
    sizes + unfit + (sum > 1024) as usize + begin + end + falls + bad + one_sided(&lists).len() + forbids + records
}

/// Steps of which each may take a fault away.
pub fn mends(case: &Case) -> Vec<Step> {
    let mut steps: Vec<Step> = Vec::new();
    for &count in &[case.weights.len(), case.offsets.len() / 4, 1] {
        steps.push(Box::new(move |c| c.count = count));
    }
    for &side in &[
        case.noise.len() / case.height.max(1),
        case.noise.len() / case.width.max(1),
        1,
    ] {
        steps.push(Box::new(move |c| c.width = side));
        steps.push(Box::new(move |c| c.height = side));
    }
    steps.push(Box::new(|c| c.mode = 0));
    let called = called_for(case);
    // to lengths of a size that can be accepted
    for k in 0..if case.count <= 64 && cells(case) <= 1024 { 8 } else { 0 } {
        steps.push(Box::new(move |c| set_length(c, k, called[k])));
    }
    steps.push(Box::new(|c| c.forbids.truncate(c.forbids.len() / 3 * 3)));
    steps.push(Box::new(|c| c.forbids.truncate(3 * 4096)));
    for s in stretches(case.forbids.len() / 3) {
        steps.push(Box::new(move |c| drop(c.forbids.drain(3 * s.start..3 * s.end))));
    }
    for k in 0..case.weights.len() {
        steps.push(Box::new(move |c| c.weights[k] = 1));
    }
    steps.push(Box::new(|c| c.weights.iter_mut().for_each(|w| *w = 1)));
    steps.extend(list_mends(case));
    steps
}

fn list_mends(case: &Case) -> Vec<Step> {
    let mut steps: Vec<Step> = Vec::new();
    for k in 0..case.offsets.len() {
        let before = if k > 0 { case.offsets[k - 1] } else { 0 };
        let behind = case.offsets.get(k + 1).copied().unwrap_or(case.ids.len() as u32);
        for &offset in &[before, behind] {
            steps.push(Box::new(move |c| c.offsets[k] = offset));
        }
    }
    let (p, all) = (case.count.min(64), lists(case));
    steps.push(Box::new(|c| {
        c.ids
            .resize(c.offsets.last().map_or(0, |&o| o as usize).min(1 << 14), 0)
    }));
    // offsets that fit the lists as they can be read
    steps.push(Box::new(|c| set_lists(c, &lists(c))));
    for k in (0..all.len()).filter(|&k| list_faults(&all[k], p) > 0) {
        steps.push(Box::new(move |c| {
            let mut all = lists(c);
            all[k].retain(|&q| (q as usize) < p);
            all[k].sort_unstable();
            all[k].dedup();
            set_lists(c, &all);
        }));
    }
    for (k, q) in one_sided(&all) {
        steps.push(Box::new(move |c| {
            let mut all = lists(c);
            all[k].retain(|&other| other != q);
            set_lists(c, &all);
        }));
        steps.push(Box::new(move |c| {
            let mut all = lists(c);
            if let Some(list) = all.get_mut(counterpart(k, q)) {
                list.push((k / 4) as u8);
                list.sort_unstable();
            }
            set_lists(c, &all);
        }));
    }
    steps.push(Box::new(set_alone));
    steps
}
