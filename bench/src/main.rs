//! The published wfc 0.10.7 and Murghidossu on the same inputs: whole runs, timed in turn, and their instructions.
//!
//!     bench                  the nine inputs: ratios with their spread, and instructions for each lowered support
//!     bench growth           how the cost grows with the cells and with the patterns
//!     bench write FOLDER     writes the nine inputs, as oracle/src/cases.rs reads them, to FOLDER/0 to FOLDER/8
//!     bench again FILE SIDE TIMES
//!                            the first case of a file, run so often by `original` or `ours` on kept memory; for a profiler
//!
//! A run is: memory begun, forbids, then turns to the end. Nothing but that is timed.

mod counting;
mod inputs;
mod sides;
mod timing;

use oracle::cases::{self, Case};
use sides::{Memory, Side};
use std::{env, fs};

/// Both sides must come to the same before they are timed.
fn same(case: &Case) {
    let theirs = oracle::probe::run(case).ended;
    let mut memory = Memory::new(case);
    let told = memory.run(case);
    let agree = told == (0, theirs.end, theirs.used) && memory.domains() == &theirs.domains[..];
    assert!(agree, "the two sides come to different ends: {}", case.name);
}

fn nine(rounds: usize) {
    println!(
        "Ratios: how many times as long the published code takes; the median of {} rounds, and the quartiles.",
        rounds
    );
    println!();
    println!("| Input | End, words | kept | fresh | with tables | original, µs | ours, µs |");
    println!("|---|---|---|---|---|---|---|");
    let cases = inputs::nine();
    for case in &cases {
        same(case);
        let ended = oracle::probe::run(case).ended;
        let t = timing::of(case, rounds);
        println!(
            "| {} | {}, {} | {} | {} | {} | {:.2} | {:.2} |",
            case.name,
            ended.end,
            ended.used,
            t.kept,
            t.fresh,
            t.tables,
            t.ns[Side::TheirsKept as usize] / 1000.0,
            t.ns[Side::OursKept as usize] / 1000.0
        );
    }
    println!();
    counting::table(&cases);
}

fn growth(rounds: usize) {
    println!("| Input | Choices | P · list | Lowered supports | for each cell | original, µs | ours, µs | ours, ns for each cell | Ratio |");
    println!("|---|---|---|---|---|---|---|---|---|");
    for case in inputs::growing() {
        same(&case);
        let t = timing::of(&case, rounds);
        let (cells, ours) = (case.cells() as f64, t.ns[Side::OursKept as usize]);
        let lowered = oracle::rules::lowered(&case);
        println!(
            "| {} | {} | {} | {} | {:.1} | {:.1} | {:.1} | {:.0} | {} |",
            case.name,
            oracle::probe::run(&case).ended.used,
            // the lists of a ring are all of one length, and there are four for each pattern
            case.ids.len() / 4,
            lowered,
            lowered as f64 / cells,
            t.ns[Side::TheirsKept as usize] / 1000.0,
            ours / 1000.0,
            ours / cells,
            t.kept
        );
    }
}

fn again(path: &str, side: &str, times: usize) {
    let text = fs::read_to_string(path).expect("a file of cases");
    let all = cases::read(&text).expect("cases");
    let side = if side == "ours" {
        Side::OursKept
    } else {
        Side::TheirsKept
    };
    let mut run = side.of(&all[0]);
    for _ in 0..times {
        run();
    }
}

fn main() {
    let words: Vec<String> = env::args().skip(1).collect();
    let words: Vec<&str> = words.iter().map(String::as_str).collect();
    let rounds = env::var("BENCH_ROUNDS").map_or(101, |text| text.parse().expect("a number of rounds"));
    match words[..] {
        [] => nine(rounds),
        ["growth"] => growth(rounds),
        ["write", folder] => {
            for (k, case) in inputs::nine().iter().enumerate() {
                fs::write(format!("{}/{}", folder, k), case.to_string()).expect("a folder to write to");
            }
        }
        ["again", path, side, times] => again(path, side, times.parse().expect("a number")),
        _ => panic!("see the head of bench/src/main.rs"),
    }
}
