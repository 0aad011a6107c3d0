//! STAND-IN for the crate `direction`: what wfc.rs uses of it, and no more. This is NOT the real crate.
//! The order of the directions and their steps are those of docs/RULES.md; that `CardinalDirections` goes in this order was not compared with the real crate.

use coord_2d::Coord;
use std::ops::{Index, IndexMut};

#[derive(Debug, Clone, Copy, PartialEq, Eq)]
#[repr(u8)]
pub enum CardinalDirection {
    North = 0,
    East = 1,
    South = 2,
    West = 3,
}

const ALL: [CardinalDirection; 4] = [
    CardinalDirection::North,
    CardinalDirection::East,
    CardinalDirection::South,
    CardinalDirection::West,
];

impl CardinalDirection {
    pub fn opposite(self) -> Self {
        ALL[[2, 3, 0, 1][self as usize]]
    }
    pub fn coord(self) -> Coord {
        match self {
            CardinalDirection::North => Coord::new(0, -1),
            CardinalDirection::East => Coord::new(1, 0),
            CardinalDirection::South => Coord::new(0, 1),
            CardinalDirection::West => Coord::new(-1, 0),
        }
    }
}

pub struct CardinalDirections;

pub struct CardinalDirectionIter(usize);

impl Iterator for CardinalDirectionIter {
    type Item = CardinalDirection;
    fn next(&mut self) -> Option<CardinalDirection> {
        let d = ALL.get(self.0).copied();
        self.0 += 1;
        d
    }
}

impl IntoIterator for CardinalDirections {
    type Item = CardinalDirection;
    type IntoIter = CardinalDirectionIter;
    fn into_iter(self) -> CardinalDirectionIter {
        CardinalDirectionIter(0)
    }
}

#[derive(Debug, Clone, PartialEq, Eq, Default)]
pub struct CardinalDirectionTable<T> {
    array: [T; 4],
}

impl<T> CardinalDirectionTable<T> {
    pub const fn new_array(array: [T; 4]) -> Self {
        Self { array }
    }
    pub fn get(&self, direction: CardinalDirection) -> &T {
        &self.array[direction as usize]
    }
    pub fn get_mut(&mut self, direction: CardinalDirection) -> &mut T {
        &mut self.array[direction as usize]
    }
    pub fn iter(&self) -> std::slice::Iter<'_, T> {
        self.array.iter()
    }
}

impl<T> Index<CardinalDirection> for CardinalDirectionTable<T> {
    type Output = T;
    fn index(&self, direction: CardinalDirection) -> &T {
        self.get(direction)
    }
}

impl<T> IndexMut<CardinalDirection> for CardinalDirectionTable<T> {
    fn index_mut(&mut self, direction: CardinalDirection) -> &mut T {
        self.get_mut(direction)
    }
}
