//! Instructions of a run, counted by callgrind, and how many there are for each support that the run lowers.

use oracle::cases::Case;
use oracle::rules;
use std::process::Command;
use std::{env, fs, process};

/// What callgrind counts of so many runs of a file's case, or nothing where there is no valgrind.
fn collected(path: &str, side: &str, times: u64) -> Option<u64> {
    let output = Command::new("valgrind")
        .args(["--tool=callgrind", "--callgrind-out-file=/dev/null"].iter())
        .arg(env::current_exe().ok()?)
        .args(["again", path, side, &times.to_string()].iter())
        .output()
        .ok()?;
    let said = String::from_utf8(output.stderr).ok()?;
    let line = said.lines().find(|line| line.contains("Collected"))?;
    line.rsplit(' ').next()?.parse().ok()
}

/// The instructions of one run on kept memory: what one more run adds.
fn instructions(path: &str, side: &str) -> Option<u64> {
    collected(path, side, 2)?.checked_sub(collected(path, side, 1)?)
}

fn shown(figure: Option<u64>, lowered: u64) -> (String, String) {
    match figure {
        None => ("-".to_string(), "-".to_string()),
        Some(n) if lowered == 0 => (n.to_string(), "-".to_string()),
        Some(n) => (n.to_string(), format!("{:.1}", n as f64 / lowered as f64)),
    }
}

pub fn table(cases: &[Case]) {
    println!("Instructions of a run on kept memory, by callgrind; in brackets for each support that the run lowers, as docs/RULES.md counts them.");
    println!();
    println!("| Input | Lowered supports | original | ours |");
    println!("|---|---|---|---|");
    let path = env::temp_dir().join(format!("murghidossu-bench-{}", process::id()));
    let path = path.to_str().expect("a folder for temporary files");
    for case in cases {
        fs::write(path, case.to_string()).expect("room for a temporary file");
        let lowered = rules::lowered(case);
        let (theirs, each) = shown(instructions(path, "original"), lowered);
        let (ours, our_each) = shown(instructions(path, "ours"), lowered);
        println!(
            "| {} | {} | {} ({}) | {} ({}) |",
            case.name, lowered, theirs, each, ours, our_each
        );
    }
    let _ = fs::remove_file(path);
}
