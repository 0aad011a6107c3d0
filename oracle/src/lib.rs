//! The published wfc 0.10.7 and Murghidossu, side by side: cases, what each of the two answers, and what docs/RULES.md says.

#[allow(unused, mismatched_lifetime_syntaxes, clippy::all)]
#[path = "../../docs/src/retry.rs"]
pub mod retry;
#[allow(clippy::all)]
#[path = "../../docs/src/wrap.rs"]
pub mod wrap;

/// The published file with its one line changed (build.rs), and below it, where private fields can be read, the probe.
#[allow(unused, mismatched_lifetime_syntaxes, clippy::all)]
mod wfc {
    include!(concat!(env!("OUT_DIR"), "/wfc.rs"));
    pub mod probe;
}

pub use crate::wfc::probe;
// what retry.rs and wrap.rs name at the root of their crate
pub use crate::wfc::*;
pub use coord_2d::{Coord, Size};
pub use wrap::Wrap;

pub mod cases;
pub mod damage;
pub mod figures;
pub mod generate;
pub mod judge;
pub mod mend;
pub mod minimise;
pub mod numbers;
pub mod ours;
pub mod parts;
pub mod rules;
pub mod selftest;
pub mod shorten;
#[cfg(feature = "trace")]
pub mod told;
