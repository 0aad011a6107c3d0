//! Murghidossu for Rust: lays practice oceans by wave function collapse, by functions that are proved to meet their contracts.
//!
//! Every function takes what it works on as slices and plain numbers, and answers with an enum, a struct or a [`Refusal`]. Any input is legal:
//! what cannot be done is refused by number, in a fixed order, and then nothing that was lent is changed. Nothing here panics, allocates, or
//! keeps state between calls, and every call ends. docs/RULES.md of the repository says what each call does, and docs/CONTRACTS.md which
//! proved contract stands behind it.
//!
//! Lent work memory may hold anything before a call; it is all zero after an accepted one. [`lengths`] has the length of every slice. A thread
//! that calls needs less than 200,000 bytes of stack, most of it for [`read`]; c/test of the repository measures it.
//!
//! ```
//! use murghidossu::{lengths, Forbid, Grid, Memory, Table, End, WRAP_X};
//!
//! // two patterns, each of which may stand only beside the other
//! let table = Table { count: 2, offsets: &[0, 1, 2, 3, 4, 5, 6, 7, 8], ids: &[1, 1, 1, 1, 0, 0, 0, 0], weights: &[1, 1] };
//! let grid = Grid { width: 4, height: 1, mode: WRAP_X };
//! let cells = 4;
//!
//! let mut domains = [0; 4];
//! let mut counts = vec![0; lengths::counts(table.count, cells)];
//! let mut pending = vec![0; lengths::pending(table.count, cells)];
//! let mut floats = vec![0.0; lengths::floats(cells)];
//! let mut marks = vec![0; lengths::marks(cells)];
//! let memory = Memory { domains: &mut domains, counts: &mut counts, pending: &mut pending, floats: &mut floats, marks: &mut marks };
//!
//! let keep_0_at_0 = Forbid { cell: 0, pattern: 0, keep: 1 };
//! let ended = murghidossu::run(&[keep_0_at_0], table, grid, &[7, 3, 9, 1], &[], memory).unwrap();
//! assert_eq!(ended.end, End::Decided);
//! assert_eq!(domains, [1, 2, 1, 2]);
//! ```

#![no_std]
#![deny(unsafe_code, missing_docs)]

mod answers;
pub mod lengths;
#[rustfmt::skip]
mod sys;

pub use answers::{End, Ended, Propagated, Refusal, Sizes};

use sys::Given;

/// Wraps nothing.
pub const WRAP_NONE: usize = 0;
/// Joins the east edge to the west edge.
pub const WRAP_X: usize = 1;
/// Joins the south edge to the north edge.
pub const WRAP_Y: usize = 2;
/// Joins both.
pub const WRAP_BOTH: usize = 3;

/// One row up.
pub const NORTH: usize = 0;
/// One column on.
pub const EAST: usize = 1;
/// One row down.
pub const SOUTH: usize = 2;
/// One column back.
pub const WEST: usize = 3;

/// Patterns, what may stand beside what, and weights, as they are lent.
#[derive(Clone, Copy, Debug)]
pub struct Table<'a> {
    /// How many patterns there are, P: 1 to 64.
    pub count: usize,
    /// 4P + 1 offsets into the ids, from 0 up to their number: list 4p + d has what may be the neighbour of pattern p in direction d.
    pub offsets: &'a [u32],
    /// The lists, each strictly ascending and not empty.
    pub ids: &'a [u8],
    /// P weights, 0 for none, at most 1,024 together. Calls that do not concern weights do not look at them.
    pub weights: &'a [u32],
}

/// A grid, as it is lent: sides of 1 to 64, 1,024 cells or fewer, and one of the four modes. Cell number = y · width + x.
#[derive(Clone, Copy, Debug, PartialEq, Eq)]
pub struct Grid {
    /// Columns.
    pub width: usize,
    /// Rows.
    pub height: usize,
    /// [`WRAP_NONE`], [`WRAP_X`], [`WRAP_Y`] or [`WRAP_BOTH`].
    pub mode: usize,
}

/// A pattern that is forbidden at a cell, or the only one that is kept there.
#[repr(C)]
#[derive(Clone, Copy, Debug, Default, PartialEq, Eq)]
pub struct Forbid {
    /// The cell.
    pub cell: u32,
    /// The pattern.
    pub pattern: u32,
    /// 0 forbids the pattern; any other number keeps only it, and is stored in a sheet as 1.
    pub keep: u32,
}

/// What a run writes: the domains, and work memory. [`lengths`] says how long each is.
#[derive(Debug)]
pub struct Memory<'a> {
    /// A word for each cell: bit p is set where pattern p is possible. What stood there before is ignored.
    pub domains: &'a mut [u64],
    /// Work memory: support counts.
    pub counts: &'a mut [u8],
    /// Work memory: pending removals.
    pub pending: &'a mut [u32],
    /// Work memory: running values and noted entropies.
    pub floats: &'a mut [f32],
    /// Work memory: notes.
    pub marks: &'a mut [u8],
}

impl<'a> Table<'a> {
    fn on(self, grid: Grid) -> Given<'a> {
        Given {
            count: self.count,
            offsets: self.offsets,
            ids: self.ids,
            weights: self.weights,
            width: grid.width,
            height: grid.height,
            mode: grid.mode,
        }
    }
    fn alone(self) -> Given<'a> {
        self.on(Grid {
            width: 0,
            height: 0,
            mode: 0,
        })
    }
}

impl<'a> Memory<'a> {
    fn written(self) -> sys::Written<'a> {
        sys::Written {
            domains: self.domains,
            counts: self.counts,
            pending: self.pending,
            floats: self.floats,
            marks: self.marks,
        }
    }
}

/// Whether a table with its weights is accepted. Refusals, in order: 3 5 4 6 7.
pub fn check_table(table: Table) -> Result<(), Refusal> {
    answers::accepted(sys::check_table(table.alone())).map(|_| ())
}

/// What may stand in a direction of a pattern: that part of the lent ids. Refusals, in order: 3 5 6 7 11 9.
pub fn list<'a>(table: Table<'a>, pattern: usize, direction: usize) -> Result<&'a [u8], Refusal> {
    let told = answers::accepted(sys::list(table.alone(), pattern, direction))?;
    let (start, long) = (told.value as usize, told.case as usize);
    Ok(table.ids.get(start..start.saturating_add(long)).unwrap_or(&[]))
}

/// Beside [`list`], with the same arguments: whether it is answered. Refusals, in order: 3 5 6 7 11 9.
pub fn list_refusal(table: Table, pattern: usize, direction: usize) -> Result<(), Refusal> {
    answers::accepted(sys::list_refusal(table.alone(), pattern, direction)).map(|_| ())
}

/// The cell in a direction of a cell, or `None` at an edge that does not wrap. Refusals, in order: 1 2 11 8.
pub fn neighbour(grid: Grid, cell: usize, direction: usize) -> Result<Option<usize>, Refusal> {
    let told = answers::accepted(sys::neighbour(grid.width, grid.height, grid.mode, cell, direction))?;
    Ok(told.found().map(|cell| cell as usize))
}

/// The entropy of a domain, or `None` where none of its patterns has weight. It is never a NaN. Refusals, in order: 3 5 4 9.
pub fn entropy_of(count: usize, weights: &[u32], domain: u64) -> Result<Option<f32>, Refusal> {
    let told = answers::accepted(sys::entropy_of(count, weights, domain))?;
    Ok(told.found().map(f32::from_bits))
}

/// The pattern that a word chooses in a domain, or `None` where none of its patterns has weight. Refusals, in order: 3 5 4 9.
pub fn choice_of(count: usize, weights: &[u32], domain: u64, word: u32) -> Result<Option<usize>, Refusal> {
    let told = answers::accepted(sys::choice_of(count, weights, domain, word))?;
    Ok(told.found().map(|pattern| pattern as usize))
}

/// Propagates starting domains to the greatest consistent subset of them; where that has an empty cell it is a contradiction, and every domain
/// is 0. `counts` and `pending` are work memory. The table's weights do not matter. Refusals, in order: 3 1 2 5 6 7 9.
pub fn propagate(
    table: Table,
    grid: Grid,
    domains: &mut [u64],
    counts: &mut [u8],
    pending: &mut [u32],
) -> Result<Propagated, Refusal> {
    let told = answers::accepted(sys::propagate(table.on(grid), domains, counts, pending))?;
    Ok(told.propagated())
}

/// A run: the forbids are laid in order, then a cell is observed and a word chooses a pattern there, until the run ends. `noise` has a word for
/// each cell, which breaks ties. Refusals, in order: 3 1 2 5 4 6 7, then the forbids one by one, 8 before 9 in each.
pub fn run(
    forbids: &[Forbid],
    table: Table,
    grid: Grid,
    noise: &[u32],
    words: &[u32],
    memory: Memory,
) -> Result<Ended, Refusal> {
    run_numbers(sys::numbers(forbids), table, grid, noise, words, memory)
}

/// The same with the forbids as numbers, three for each; another number of them is [`Refusal::BadLength`].
pub fn run_numbers(
    forbids: &[u32],
    table: Table,
    grid: Grid,
    noise: &[u32],
    words: &[u32],
    memory: Memory,
) -> Result<Ended, Refusal> {
    let told = answers::accepted(sys::run(forbids, table.on(grid), noise, words, memory.written()))?;
    Ok(told.ended())
}

/// A run whose result is written, too: a record of [`lengths::result`] bytes at the front of `out`; what stands past it stays. An `out` that is
/// shorter is [`Refusal::BadLength`], in its turn. No other call writes a result.
pub fn run_result(
    forbids: &[Forbid],
    table: Table,
    grid: Grid,
    noise: &[u32],
    words: &[u32],
    memory: Memory,
    out: &mut [u8],
) -> Result<Ended, Refusal> {
    let told = answers::accepted(sys::run_result(
        sys::numbers(forbids),
        table.on(grid),
        noise,
        words,
        memory.written(),
        out,
    ))?;
    Ok(told.ended())
}

/// How much a sheet holds, so that room for it can be lent. The numbers are what the bytes say; [`read`] checks them. Refusals: 10.
pub fn sizes(sheet: &[u8]) -> Result<Sizes, Refusal> {
    let mut measures = [0; lengths::MEASURES];
    answers::accepted(sys::sizes(sheet, &mut measures))?;
    let [count, ids, width, height, mode, forbids] = measures;
    Ok(Sizes {
        count,
        ids,
        grid: Grid { width, height, mode },
        forbids,
    })
}

/// Reads a sheet into lent slices: `weights` and `offsets` have exactly their lengths, `ids` and `forbids` may be longer, and what stands past
/// the last stays. Refusals, in order: 10 3 1 2 5 4 6 7, then the forbids one by one, 8 before 9 in each.
pub fn read(
    sheet: &[u8],
    weights: &mut [u32],
    offsets: &mut [u32],
    ids: &mut [u8],
    forbids: &mut [Forbid],
) -> Result<Sizes, Refusal> {
    answers::accepted(sys::read(sheet, weights, offsets, ids, sys::numbers_mut(forbids)))?;
    sizes(sheet)
}

/// Writes a sheet to the front of `out`, which has [`lengths::sheet`] bytes or more, and says how many bytes that were; what stands past them
/// stays. Refusals, in order: 3 1 2 5 4 6 7, then the forbids one by one, 8 before 9 in each.
pub fn write(table: Table, grid: Grid, forbids: &[Forbid], out: &mut [u8]) -> Result<usize, Refusal> {
    let told = answers::accepted(sys::write(table.on(grid), sys::numbers(forbids), out))?;
    Ok(told.value as usize)
}
