//! Whether an answer is what docs/RULES.md and the Rust come to: what is told of a difference, or nothing.

use crate::cases::{Case, Ended, Told, CONTRADICTION};
use crate::figures::Figures;
use crate::{probe, rules};
use std::fmt::Display;

fn apart(what: &str, left: &dyn Display, right: &dyn Display) -> String {
    format!("{}\n{}Murghidossu:\n{}", what, left, right)
}

/// On every case, and then on the grounds of the Rust.
pub fn differs(case: &Case, mine: &Told, figures: &mut Figures) -> Option<String> {
    if let Some(why) = against_rules(case, mine) {
        return Some(why);
    }
    match mine {
        Told::Refused(number) => {
            figures.refused[*number as usize] += 1;
            None
        }
        Told::Ended(mine) => {
            figures.accepted.meet(case, mine);
            against_rust(case, mine, figures)
        }
    }
}

pub fn against_rules(case: &Case, mine: &Told) -> Option<String> {
    let ruled = rules::told(case);
    if *mine == ruled {
        None
    } else {
        Some(apart("docs/RULES.md:", &ruled, mine))
    }
}

/// Of a case that docs/RULES.md accepts.
pub fn against_rust(case: &Case, mine: &Ended, figures: &mut Figures) -> Option<String> {
    let rust = probe::run(case);
    if !case.distinct_noise() {
        figures.equal_noise += 1;
        figures.equal_noise_apart += (rust.ended != *mine) as u64;
        return None;
    }
    if let Some(why) = rust.broken.first() {
        return Some(format!("not so of the Rust: {}\n", why));
    }
    if let Some(used) = rust.silent {
        // here an empty cell is a contradiction, at the word that emptied it
        figures.silent += 1;
        figures.silent_by_choice += (used > 0) as u64;
        figures.panicked += rust.panicked as u64;
        let contradicted =
            mine.end == CONTRADICTION && mine.used == used && rust.ended.choices.get(..used) == Some(&mine.choices[..]);
        return if contradicted {
            None
        } else {
            Some(apart("the Rust, past an empty cell:", &rust.ended, mine))
        };
    }
    if rust.panicked {
        return Some("the Rust panicked\n".to_string());
    }
    if rust.ended != *mine {
        return Some(apart("the Rust:", &rust.ended, mine));
    }
    figures.by_rust.meet(case, mine);
    None
}
