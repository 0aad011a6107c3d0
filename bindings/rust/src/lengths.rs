//! How long each lent slice is, in entries, for so many patterns and cells; a slice of another length is refused. Numbers that are far too
//! large give some number, and what they describe is refused before any length is.

/// Weights: one for each pattern.
pub const fn weights(count: usize) -> usize {
    count
}

/// Offsets: four for each pattern and one.
pub const fn offsets(count: usize) -> usize {
    count.wrapping_mul(4).wrapping_add(1)
}

/// Noise: one word for each cell.
pub const fn noise(cells: usize) -> usize {
    cells
}

/// Domains: one word for each cell.
pub const fn domains(cells: usize) -> usize {
    cells
}

/// Support counts: four for each pattern at each cell.
pub const fn counts(count: usize, cells: usize) -> usize {
    count.wrapping_mul(cells).wrapping_mul(4)
}

/// Pending removals: one for each pattern at each cell.
pub const fn pending(count: usize, cells: usize) -> usize {
    count.wrapping_mul(cells)
}

/// Floats: two for each cell.
pub const fn floats(cells: usize) -> usize {
    cells.wrapping_mul(2)
}

/// Marks: two for each cell, and one for each block of 32 cells that is begun.
pub const fn marks(cells: usize) -> usize {
    cells.wrapping_mul(2).wrapping_add(cells.div_ceil(32))
}

/// The bytes that a written sheet needs at least.
pub const fn sheet(count: usize, ids: usize, forbids: usize) -> usize {
    count
        .wrapping_add(forbids)
        .wrapping_mul(6)
        .wrapping_add(ids)
        .wrapping_add(32)
}

/// The bytes of a result.
pub const fn result(cells: usize) -> usize {
    cells.wrapping_mul(8).wrapping_add(10)
}

/// How many numbers say how much a sheet holds.
pub(crate) const MEASURES: usize = 6;
