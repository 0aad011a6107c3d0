//! Runs the published Rust and Murghidossu on the same cases, and tells the first difference at its smallest.
//!
//!     compare                        the five comparisons of docs/DIFFERENCES.md, each of which must meet its ground (src/figures.rs)
//!     compare random COUNT SEED      random cases that docs/RULES.md accepts
//!     compare damaged COUNT SEED     random cases with a fault or two
//!     compare two                    every table of two patterns on small grids
//!     compare three                  every table of three patterns on 2 by 2
//!     compare file PATH              the cases of a file
//!     compare findings SEED          the smallest cases that show where the Rust gives no ground
//!     compare show COUNT SEED        writes random cases, as a file holds them, with the Rust's answers
//!
//! Several may follow each other. Before the first case answers are altered, and the comparer must tell each (src/selftest.rs).
//! Status 0: no difference. Status 1: one, which is told; or one of the five lacks ground, or the comparer fails to tell an altered answer.

use oracle::cases::{self, Case, Told};
use oracle::figures::{self, Figures, Ground};
use oracle::{damage, generate, judge, minimise, probe, rules, selftest, told};
use std::env;
use std::process::exit;
use std::time::Instant;

/// What is told of a difference, or nothing.
fn differs(case: &Case, figures: &mut Figures) -> Option<String> {
    figures.cases += 1;
    match told::told(case) {
        Ok(mine) => judge::differs(case, &mine, figures),
        Err(why) => Some(format!("Murghidossu: {}\n", why)),
    }
}

/// Compares a case, and at the first difference tells it at its smallest and stops.
fn compare(case: &Case, figures: &mut Figures) {
    if differs(case, figures).is_none() {
        return;
    }
    let mut shows = |c: &Case| differs(c, &mut Figures::default()).is_some();
    let mut least = minimise::refused(case, &mut shows);
    if rules::refusal(&least) == 0 {
        least = minimise::minimise(&least, &mut |c| rules::refusal(c) == 0 && shows(c));
    }
    let why = differs(&least, &mut Figures::default()).unwrap_or_default();
    println!("A difference, found at: {}\n\n{}\n{}", case.name, least, why);
    exit(1);
}

/// Tells the figures. Of the five, one that lacks some of its ground is no comparison, and ends all.
fn tell(what: &str, figures: &Figures, began: Instant, ground: Option<&Ground>) {
    let seconds = began.elapsed().as_secs();
    println!("{}: {} cases, no difference ({} s)", what, figures.cases, seconds);
    print!("{}", figures);
    let lacks = ground.map_or(Vec::new(), |ground| figures.lacking(ground));
    if !lacks.is_empty() {
        println!("  not met: {}", lacks.join(", "));
        exit(1);
    }
}

/// The smallest case that shows something, from the first random one that does.
fn finding(what: &str, seed: u64, shows: &mut dyn FnMut(&Case) -> bool) {
    let found = (0..10_000).map(|k| generate::random(seed, k)).find(|case| shows(case));
    match found {
        None => println!("{}: none in 10,000 cases of seed {}\n", what, seed),
        Some(case) => {
            let least = minimise::minimise(&case, shows);
            println!(
                "{}\n{}the Rust:\n{}docs/RULES.md:\n{}",
                what,
                least,
                probe::run(&least).ended,
                rules::told(&least)
            );
        }
    }
}

fn findings(seed: u64) {
    let accepted = |case: &Case| rules::refusal(case) == 0;
    let silent = |case: &Case| {
        if accepted(case) && case.distinct_noise() {
            probe::run(case).silent
        } else {
            None
        }
    };
    finding("A cell emptied, unnoticed by the Rust", seed, &mut |case| {
        silent(case).is_some()
    });
    // the hash map is seeded anew in each run, so one run may not show it
    finding("Equal noise words", seed, &mut |case| {
        let told = |case| Told::Ended(probe::run(case).ended);
        accepted(case) && !case.distinct_noise() && (0..20).any(|_| told(case) != rules::told(case))
    });
}

/// Every table of so many patterns on these grids, in all four modes, with each of these weights.
fn small_tables(
    count: usize,
    grids: &[(usize, usize)],
    weights: &[&[u32]],
    sequences: usize,
    forbids: bool,
    figures: &mut Figures,
) {
    let pairs = generate::every_pairs(count);
    for &(width, height) in grids {
        for mode in 0..4 {
            for ws in weights {
                let small = generate::Small {
                    count,
                    width,
                    height,
                    mode,
                    weights: ws.to_vec(),
                    sequences,
                    forbids,
                };
                for east in &pairs {
                    for south in &pairs {
                        generate::each_small(&small, east, south, &mut |case| compare(case, figures));
                    }
                }
            }
        }
    }
}

const TWO_GRIDS: [(usize, usize); 9] = [(1, 1), (1, 2), (2, 1), (1, 3), (3, 1), (2, 2), (2, 3), (3, 2), (3, 3)];
const TWO_WEIGHTS: [&[u32]; 6] = [&[0, 0], &[0, 1], &[1, 0], &[1, 1], &[2, 1], &[1, 3]];
const THREE_WEIGHTS: [&[u32]; 2] = [&[1, 2, 3], &[0, 1, 1]];

fn stop(why: &str) -> ! {
    eprintln!("compare: {}", why);
    exit(2);
}

const FIVE: &str = "random 100000 1 random 100000 2 damaged 100000 1 two three";

fn main() {
    if let Err(why) = selftest::passes() {
        println!("The comparer fails: {}", why);
        exit(1);
    }
    let mut words: Vec<String> = env::args().skip(1).collect();
    let five = words.is_empty();
    if five {
        words = FIVE.split(' ').map(str::to_string).collect();
    }
    let mut words = words.into_iter();
    while let Some(what) = words.next() {
        asked(&what, &mut words, five);
    }
}

/// One comparison, with the words that belong to it.
fn asked(what: &str, words: &mut dyn Iterator<Item = String>, five: bool) {
    let began = Instant::now();
    let mut figures = Figures::default();
    let mut number = |name: &str| -> u64 {
        let word = words.next().unwrap_or_default();
        word.parse()
            .unwrap_or_else(|_| stop(&format!("{}: give a {}", what, name)))
    };
    let (name, ground) = match what {
        "random" => {
            let (count, seed) = (number("count"), number("seed"));
            (0..count).for_each(|k| compare(&generate::random(seed, k), &mut figures));
            (format!("random, seed {}", seed), figures::RANDOM)
        }
        "damaged" => {
            let (count, seed) = (number("count"), number("seed"));
            (0..count).for_each(|k| compare(&damage::damaged(seed, k), &mut figures));
            (format!("damaged, seed {}", seed), figures::DAMAGED)
        }
        "two" => {
            small_tables(2, &TWO_GRIDS, &TWO_WEIGHTS, 16, true, &mut figures);
            ("every table of two patterns".to_string(), figures::TWO)
        }
        "three" => {
            small_tables(3, &[(2, 2)], &THREE_WEIGHTS, 2, false, &mut figures);
            ("every table of three patterns, 2 by 2".to_string(), figures::THREE)
        }
        "file" => {
            let path = words.next().unwrap_or_default();
            file(&path, &mut figures);
            return tell(&path, &figures, began, None);
        }
        "findings" => return findings(number("seed")),
        "show" => return show(number("count"), number("seed")),
        _ => stop("random COUNT SEED, damaged COUNT SEED, two, three, file PATH, findings SEED, show COUNT SEED"),
    };
    tell(&name, &figures, began, if five { Some(&ground) } else { None });
}

fn file(path: &str, figures: &mut Figures) {
    let text = std::fs::read_to_string(path).unwrap_or_else(|why| stop(&format!("{}: {}", path, why)));
    let read = cases::read(&text).unwrap_or_else(|why| stop(&format!("{}: {}", path, why)));
    for case in &read {
        compare(case, figures);
    }
}

fn show(count: u64, seed: u64) {
    for k in 0..count {
        let case = generate::random(seed, k);
        println!("{}{}", case, probe::run(&case).ended);
    }
}
