//! The interaction matrix and its directions. Document 01, "Matrix and
//! directions". Each cell is judged by its middle.

use std::collections::BTreeSet;

use crate::fraction::Fraction;
use crate::plane::{Bounds, Span};
use crate::tile;

/// Rows from the north, columns from the west; cells past the size are 0.
pub type Cells = [[u8; 3]; 3];

const HOLDS_FIRST: u8 = 1;
const HOLDS_SECOND: u8 = 2;

/// The matrix of two regions, with its size.
#[derive(Clone, Copy, Debug, PartialEq, Eq)]
pub struct Matrix {
    pub rows: usize,
    pub columns: usize,
    pub cells: Cells,
}

/// One of the two regions, as far as the matrix looks at it: its box, and its
/// relation to the other region's box.
#[derive(Clone, Copy, Debug)]
pub struct Side {
    pub bounds: Bounds,
    pub relation: u16,
}

impl Side {
    /// Whether a cell with this middle "lies inside a's box and the tile of
    /// b's box that contains it is in a's relation to b".
    fn holds(&self, other: &Bounds, x: Fraction, y: Fraction) -> bool {
        let is_inside = self.bounds.tile_of(x, y) == Some(tile::B);
        let tile = other.tile_of(x, y).unwrap_or(0);
        is_inside && self.relation & tile != 0
    }
}

/// The matrix of two regions with width and height.
pub fn matrix(first: &Side, second: &Side) -> Matrix {
    let columns = cell_middles(first.bounds.x, second.bounds.x);
    let mut rows = cell_middles(first.bounds.y, second.bounds.y);
    rows.reverse();
    let mut cells = Cells::default();
    for (row, &y) in rows.iter().enumerate() {
        for (column, &x) in columns.iter().enumerate() {
            if first.holds(&second.bounds, x, y) {
                cells[row][column] += HOLDS_FIRST;
            }
            if second.holds(&first.bounds, x, y) {
                cells[row][column] += HOLDS_SECOND;
            }
        }
    }
    Matrix {
        rows: rows.len(),
        columns: columns.len(),
        cells,
    }
}

/// The directions of the first region from the second: the compass place of
/// each cell that holds the first from each that holds the second.
pub fn directions(cells: Cells) -> u16 {
    let mut places = 0;
    for first in holding(cells, HOLDS_FIRST) {
        for second in holding(cells, HOLDS_SECOND) {
            places |= tile::at(
                compass_place(first.0, second.0),
                compass_place(first.1, second.1),
            );
        }
    }
    places
}

/// The middles of the ranges between the distinct lines of two boxes.
fn cell_middles(first: Span, second: Span) -> Vec<Fraction> {
    let lines: BTreeSet<i128> = [first, second].iter().flat_map(Span::lines).collect();
    let lines: Vec<i128> = lines.into_iter().collect();
    lines
        .windows(2)
        .map(|range| Fraction::new(range[0] + range[1], 2))
        .collect()
}

/// The cells (row, column) that hold a region: its value, or 3 for both.
fn holding(cells: Cells, value: u8) -> Vec<(usize, usize)> {
    let places = (0..3).flat_map(|row| (0..3).map(move |column| (row, column)));
    places
        .filter(|&(row, column)| [value, HOLDS_FIRST + HOLDS_SECOND].contains(&cells[row][column]))
        .collect()
}

/// 0 before, 1 the same, 2 after: in rows from the north, in columns from the
/// west.
fn compass_place(first: usize, second: usize) -> usize {
    match first.cmp(&second) {
        std::cmp::Ordering::Less => 0,
        std::cmp::Ordering::Equal => 1,
        std::cmp::Ordering::Greater => 2,
    }
}

#[cfg(test)]
mod tests {
    use super::*;

    #[test]
    fn values_above_three_hold_nothing() {
        assert_eq!(directions([[4, 5, 6], [7, 255, 4], [9, 8, 7]]), 0);
        assert_eq!(directions([[1, 1, 1], [1, 1, 1], [1, 1, 1]]), 0);
        assert_eq!(directions([[0, 0, 0], [0, 3, 0], [0, 0, 4]]), tile::B);
    }
}
