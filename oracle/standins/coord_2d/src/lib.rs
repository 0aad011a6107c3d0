//! STAND-IN for the crate `coord_2d`: what wfc.rs and wrap.rs use of it, and no more. This is NOT the real crate.

use std::ops::Add;

#[derive(Debug, Clone, Copy, PartialEq, Eq, Hash)]
pub struct Coord {
    pub x: i32,
    pub y: i32,
}

impl Coord {
    pub const fn new(x: i32, y: i32) -> Self {
        Self { x, y }
    }
    /// In the grid.
    pub fn is_valid(self, size: Size) -> bool {
        self.x >= 0 && self.y >= 0 && (self.x as u32) < size.x() && (self.y as u32) < size.y()
    }
    /// Both axes wrapped into the grid, as docs/RULES.md has it for mode 3.
    pub fn normalize(self, size: Size) -> Self {
        Self {
            x: self.x.rem_euclid(size.x() as i32),
            y: self.y.rem_euclid(size.y() as i32),
        }
    }
}

impl Add for Coord {
    type Output = Coord;
    fn add(self, other: Coord) -> Coord {
        Coord::new(self.x + other.x, self.y + other.y)
    }
}

#[derive(Debug, Clone, Copy, PartialEq, Eq)]
pub struct Size {
    x: u32,
    y: u32,
}

impl Size {
    pub const fn new(x: u32, y: u32) -> Self {
        Self { x, y }
    }
    pub fn x(self) -> u32 {
        self.x
    }
    pub fn y(self) -> u32 {
        self.y
    }
    pub fn count(self) -> usize {
        self.x as usize * self.y as usize
    }
}
