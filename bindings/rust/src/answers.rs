//! What calls answer, and how it is read from the number that the archive answers with: the refusal in bits 0 to 7, the case from bit 8, the
//! value from bit 32.

use crate::Grid;
use core::fmt;

/// Why a call is refused. Of several reasons the first in the call's order is given.
#[derive(Clone, Copy, Debug, PartialEq, Eq, Hash)]
pub enum Refusal {
    /// A side is 0 or above 64, or the cells are above 1,024.
    BadSize = 1,
    /// The mode is above 3.
    BadWrap = 2,
    /// The patterns are 0 or above 64.
    BadCount = 3,
    /// The weights add up to more than 1,024.
    BadWeights = 4,
    /// A slice has not its published length, an output is too short, or the forbids are above 4,096.
    BadLength = 5,
    /// The offsets do not fit, or a list has no id, does not ascend strictly, or names no pattern.
    BadList = 6,
    /// Some q is in p's list for a direction while p is not in q's list for the opposite one.
    Disagree = 7,
    /// A cell is not in the grid.
    BadCell = 8,
    /// A pattern does not exist, or a domain has the bit of one that does not.
    BadPattern = 9,
    /// The bytes are no sheet.
    BadSheet = 10,
    /// The direction is above 3.
    BadDirection = 11,
}

impl Refusal {
    /// Its number.
    pub const fn number(self) -> u32 {
        self as u32
    }
    fn named(number: u64) -> Refusal {
        match number {
            1 => Refusal::BadSize,
            2 => Refusal::BadWrap,
            3 => Refusal::BadCount,
            4 => Refusal::BadWeights,
            5 => Refusal::BadLength,
            6 => Refusal::BadList,
            7 => Refusal::Disagree,
            8 => Refusal::BadCell,
            9 => Refusal::BadPattern,
            10 => Refusal::BadSheet,
            // the archive is proved to answer no other number
            _ => Refusal::BadDirection,
        }
    }
}

impl fmt::Display for Refusal {
    fn fmt(&self, f: &mut fmt::Formatter) -> fmt::Result {
        let why = match self {
            Refusal::BadSize => "a side is 0 or above 64, or the cells are above 1,024",
            Refusal::BadWrap => "the mode is above 3",
            Refusal::BadCount => "the patterns are 0 or above 64",
            Refusal::BadWeights => "the weights add up to more than 1,024",
            Refusal::BadLength => "a slice has not its length, an output is too short, or the forbids are above 4,096",
            Refusal::BadList => "the offsets do not fit, or a list is empty, not ascending, or names no pattern",
            Refusal::Disagree => "two lists disagree",
            Refusal::BadCell => "a cell is not in the grid",
            Refusal::BadPattern => "a pattern does not exist",
            Refusal::BadSheet => "the bytes are no sheet",
            Refusal::BadDirection => "the direction is above 3",
        };
        write!(f, "refused, {} ({:?}): {}", self.number(), self, why)
    }
}

impl core::error::Error for Refusal {}

/// How a run ended.
#[derive(Clone, Copy, Debug, PartialEq, Eq, Hash)]
pub enum End {
    /// Every cell has one pattern.
    Decided = 0,
    /// Nothing is left to choose, yet some cell has more patterns.
    Undecided = 1,
    /// No word was left for the next choice.
    Paused = 2,
    /// A cell lost its last pattern; every domain is 0.
    Contradiction = 3,
}

/// How a run ended, and how many words it used: one for each choice.
#[derive(Clone, Copy, Debug, PartialEq, Eq, Hash)]
pub struct Ended {
    /// The end.
    pub end: End,
    /// The words used.
    pub used: usize,
}

/// What propagation of starting domains comes to.
#[derive(Clone, Copy, Debug, PartialEq, Eq, Hash)]
pub enum Propagated {
    /// The domains are the greatest consistent subset of what they were.
    Consistent,
    /// That has an empty cell; every domain is 0.
    Contradiction,
}

/// How much a sheet holds.
#[derive(Clone, Copy, Debug, PartialEq, Eq)]
pub struct Sizes {
    /// Patterns.
    pub count: usize,
    /// Ids in all lists together.
    pub ids: usize,
    /// The grid.
    pub grid: Grid,
    /// Forbids.
    pub forbids: usize,
}

/// The case and the value of an accepted answer.
pub(crate) struct Told {
    pub case: u32,
    pub value: u32,
}

/// The answer, or the refusal.
pub(crate) fn accepted(answer: u64) -> Result<Told, Refusal> {
    match answer & 255 {
        0 => Ok(Told {
            case: (answer >> 8 & 0xff_ffff) as u32,
            value: (answer >> 32) as u32,
        }),
        number => Err(Refusal::named(number)),
    }
}

impl Told {
    pub fn found(self) -> Option<u32> {
        match self.case {
            0 => Some(self.value),
            _ => None,
        }
    }
    pub fn propagated(self) -> Propagated {
        match self.case {
            0 => Propagated::Consistent,
            _ => Propagated::Contradiction,
        }
    }
    pub fn ended(self) -> Ended {
        let end = match self.case {
            0 => End::Decided,
            1 => End::Undecided,
            2 => End::Paused,
            _ => End::Contradiction,
        };
        Ended {
            end,
            used: self.value as usize,
        }
    }
}
