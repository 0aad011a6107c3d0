//! STAND-IN for the crate `grid_2d`: what wfc.rs uses of it, and no more. This is NOT the real crate.
//! Cells are numbered as docs/RULES.md numbers them, y · width + x, and `iter`, `iter_mut` and `enumerate` go in that order.

use coord_2d::{Coord, Size};

#[derive(Debug, Clone)]
pub struct Grid<T> {
    cells: Vec<T>,
    size: Size,
}

impl<T: Default> Grid<T> {
    pub fn new_default(size: Size) -> Self {
        let mut cells = Vec::new();
        for _ in 0..size.count() {
            cells.push(Default::default());
        }
        Self { cells, size }
    }
}

impl<T> Grid<T> {
    pub fn size(&self) -> Size {
        self.size
    }
    pub fn iter(&self) -> std::slice::Iter<'_, T> {
        self.cells.iter()
    }
    pub fn iter_mut(&mut self) -> std::slice::IterMut<'_, T> {
        self.cells.iter_mut()
    }
    pub fn enumerate(&self) -> impl Iterator<Item = (Coord, &T)> {
        let width = self.size.x() as usize;
        self.cells
            .iter()
            .enumerate()
            .map(move |(index, cell)| (Coord::new((index % width) as i32, (index / width) as i32), cell))
    }
    pub fn index_of_coord(&self, coord: Coord) -> Option<usize> {
        if coord.is_valid(self.size) {
            Some(coord.y as usize * self.size.x() as usize + coord.x as usize)
        } else {
            None
        }
    }
    pub fn get_checked(&self, coord: Coord) -> &T {
        let index = self.index_of_coord(coord).expect("out of the grid");
        &self.cells[index]
    }
    pub fn get_checked_mut(&mut self, coord: Coord) -> &mut T {
        let index = self.index_of_coord(coord).expect("out of the grid");
        &mut self.cells[index]
    }
    pub fn get_index_checked(&self, index: usize) -> &T {
        &self.cells[index]
    }
    pub fn get_index_checked_mut(&mut self, index: usize) -> &mut T {
        &mut self.cells[index]
    }
}
