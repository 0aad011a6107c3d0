//! Before the first case: answers are altered in one part each, and the comparer must tell every one; and figures that are all 0 must lack all
//! that their ground names.

use crate::cases::{Case, Ended, Told, CONTRADICTION};
use crate::figures::{self, Figures, Ground};
use crate::judge::{against_rules, against_rust};
use crate::{damage, generate, minimise, probe, rules};

/// This answer, altered in each part that is compared. It has two cells and two choices or more.
fn altered(right: &Ended) -> Vec<(&'static str, Ended)> {
    let last = right.choices.len() - 1;
    let with = |what: &'static str, alter: &dyn Fn(&mut Ended)| {
        let mut wrong = right.clone();
        alter(&mut wrong);
        (what, wrong)
    };
    vec![
        with("the end", &|e| e.end ^= 1),
        with("the words used", &|e| e.used -= 1),
        with("the first domain", &|e| e.domains[0] ^= 1),
        with("the last domain", &|e| *e.domains.last_mut().unwrap() ^= 1 << 63),
        with("a domain more", &|e| e.domains.push(0)),
        with("a choice less", &|e| e.choices.truncate(last)),
        with("the first cell chosen", &|e| e.choices[0].cell ^= 1),
        with("the last cell chosen", &|e| e.choices[last].cell ^= 1),
        with("the lowest bit of the first entropy", &|e| e.choices[0].entropy ^= 1),
        with("the highest bit of the last entropy", &|e| {
            e.choices[last].entropy ^= 1 << 31
        }),
        with("the first pattern", &|e| e.choices[0].pattern ^= 1),
        with("the last pattern", &|e| e.choices[last].pattern ^= 1),
    ]
}

fn by_rules(case: &Case, told: Told) -> bool {
    against_rules(case, &told).is_some()
}

fn by_rust(case: &Case, mine: &Ended) -> bool {
    against_rust(case, mine, &mut Figures::default()).is_some()
}

/// Requires it, or says what fails.
fn require(so: bool, what: &str, case: &Case) -> Result<(), String> {
    if so {
        Ok(())
    } else {
        Err(format!("{}, at {}", what, case.name))
    }
}

/// On the grounds of the Rust, with two choices or more.
fn on_grounds(end: u32, case: &Case) -> Option<Ended> {
    match rules::told(case) {
        Told::Ended(right) if right.end == end && right.choices.len() >= 2 && case.distinct_noise() => {
            probe::run(case).silent.map_or(Some(right), |_| None)
        }
        _ => None,
    }
}

fn random() -> impl Iterator<Item = Case> {
    (0..10_000).map(|k| generate::random(1, k))
}

fn ended(end: u32) -> Result<(), String> {
    let found = random().find_map(|case| on_grounds(end, &case).map(|right| (case, right)));
    let (case, right) = found.ok_or(format!("no case of end {}", end))?;
    require(
        !by_rules(&case, Told::Ended(right.clone())),
        "docs/RULES.md differs from itself",
        &case,
    )?;
    require(!by_rust(&case, &right), "a right answer is told to be wrong", &case)?;
    for (what, wrong) in altered(&right) {
        require(
            by_rust(&case, &wrong),
            &format!("the Rust does not tell {}", what),
            &case,
        )?;
        let told = by_rules(&case, Told::Ended(wrong));
        require(told, &format!("docs/RULES.md does not tell {}", what), &case)?;
    }
    Ok(())
}

/// Where the Rust empties a cell unnoticed it still tells the end and the words used.
fn silent() -> Result<(), String> {
    let case = random()
        .find(|case| case.distinct_noise() && probe::run(case).silent.is_some())
        .ok_or("no cell emptied unnoticed")?;
    let right = match rules::told(&case) {
        Told::Ended(right) if right.end == CONTRADICTION => right,
        _ => return Err(format!("no contradiction, at {}", case.name)),
    };
    require(!by_rust(&case, &right), "a right answer is told to be wrong", &case)?;
    let end = Ended {
        end: 0,
        ..right.clone()
    };
    require(
        by_rust(&case, &end),
        "the Rust does not tell the end past an empty cell",
        &case,
    )?;
    let used = Ended {
        used: right.used + 1,
        ..right
    };
    require(
        by_rust(&case, &used),
        "the Rust does not tell the words past an empty cell",
        &case,
    )
}

fn refused(number: u32) -> Result<(), String> {
    let case = (0..10_000)
        .map(|k| damage::damaged(1, k))
        .find(|case| rules::refusal(case) == number)
        .ok_or(format!("no case of refusal {}", number))?;
    require(
        !by_rules(&case, Told::Refused(number)),
        "docs/RULES.md differs from itself",
        &case,
    )?;
    require(
        by_rules(&case, Told::Refused(number + 1)),
        "another refusal is not told",
        &case,
    )?;
    require(
        by_rules(&case, Told::Ended(Ended::default())),
        "a refused case that ends is not told",
        &case,
    )?;
    let least = minimise::refused(&case, &mut |c| rules::refusal(c) == number);
    let small = least.count <= 2 && least.cells() <= 1 && least.ids.len() <= 8 && least.forbids.len() <= 3;
    let small = small && rules::refusal(&least) == number;
    require(small, "a refused case is not brought to its smallest", &case)
}

/// Figures of nothing lack all of a ground: two counts, four modes, and what it names.
fn ground(ground: &Ground) -> Result<(), String> {
    let named = ground.ends.len() + ground.sides.len() + ground.patterns.clone().count();
    let beside = if ground.refusals { 9 } else { 0 } + ground.silent as usize + ground.equal_noise as usize;
    if Figures::default().lacking(ground).len() == 2 + 4 + named + beside {
        Ok(())
    } else {
        Err("a comparison of no case does not lack all of its ground".to_string())
    }
}

/// What the comparer fails to tell, or nothing.
pub fn passes() -> Result<(), String> {
    (0..4).try_for_each(ended)?;
    silent()?;
    (1..10).try_for_each(refused)?;
    [figures::RANDOM, figures::DAMAGED, figures::TWO, figures::THREE]
        .iter()
        .try_for_each(ground)
}
