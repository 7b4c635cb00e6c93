//! The pair answer: where two regions lie from each other. Document 01, the
//! paragraph after the table of refusals, and the report of "The card".

use crate::check::{check, Broken};
use crate::matrix::{directions, matrix, Matrix, Side};
use crate::region::{Outline, Region};
use crate::relation::{pieces, relation};
use crate::tile;

/// How many numbers a pair answer has.
pub const NUMBERS: usize = 19;

/// Where two accepted regions lie from each other.
#[derive(Clone, Copy, Debug, PartialEq, Eq)]
pub struct Comparison {
    pub first_to_second: u16,
    pub second_to_first: u16,
    pub matrix: Matrix,
    pub directions: u16,
    pub pieces_of_first: usize,
    pub pieces_of_second: usize,
}

/// Why a pair is refused: the broken rule, and whether the region is 1 or 2.
#[derive(Clone, Copy, Debug, PartialEq, Eq)]
pub struct PairRefusal {
    pub broken: Broken,
    pub region: u16,
}

/// The pair call: region 1 is checked wholly first. Two regions that are
/// accepted always have an answer (request L10 of document 02).
pub fn pair(first: &Outline, second: &Outline) -> Result<Comparison, PairRefusal> {
    let in_region = |region| move |broken| PairRefusal { broken, region };
    let first = check(first).map_err(in_region(1))?;
    let second = check(second).map_err(in_region(2))?;
    Ok(compare(&first, &second))
}

/// Where two accepted regions lie from each other.
pub fn compare(first: &Region, second: &Region) -> Comparison {
    let bounds = [first.bounds(), second.bounds()];
    let first_to_second = relation(first, &bounds[1]);
    let second_to_first = relation(second, &bounds[0]);
    let matrix = matrix(
        &Side {
            bounds: bounds[0],
            relation: first_to_second,
        },
        &Side {
            bounds: bounds[1],
            relation: second_to_first,
        },
    );
    Comparison {
        first_to_second,
        second_to_first,
        matrix,
        directions: directions(matrix.cells),
        pieces_of_first: pieces(first, &bounds[1]),
        pieces_of_second: pieces(second, &bounds[0]),
    }
}

/// The numbers of an answer in the report's order: number, region, ring, the
/// two relations, rows, columns, nine cells by row, directions, the two piece
/// counts. "All other fields of a refused pair answer are 0."
pub fn numbers(answer: &Result<Comparison, PairRefusal>) -> [u16; NUMBERS] {
    let mut numbers = [0; NUMBERS];
    match answer {
        Err(refusal) => {
            numbers[0] = refusal.broken.rule.number();
            numbers[1] = refusal.region;
            numbers[2] = refusal.broken.ring as u16;
        }
        Ok(comparison) => {
            let matrix = &comparison.matrix;
            numbers[3] = comparison.first_to_second;
            numbers[4] = comparison.second_to_first;
            numbers[5] = matrix.rows as u16;
            numbers[6] = matrix.columns as u16;
            for (number, &cell) in numbers[7..16].iter_mut().zip(matrix.cells.iter().flatten()) {
                *number = cell.into();
            }
            numbers[16] = comparison.directions;
            numbers[17] = comparison.pieces_of_first as u16;
            numbers[18] = comparison.pieces_of_second as u16;
        }
    }
    numbers
}

/// The word "around", as request L1 of document 02 has it: the first region is
/// in every tile of the second's box but B, and the second in B of the first's
/// box and in no other tile. A refused pair gives no.
pub fn around(answer: &Result<Comparison, PairRefusal>) -> bool {
    answer.map_or(false, |comparison| {
        let every_tile_but_b = tile::ALL & !tile::B;
        comparison.first_to_second == every_tile_but_b && comparison.second_to_first == tile::B
    })
}

#[cfg(test)]
mod tests {
    use super::*;

    #[test]
    fn around_looks_at_both_relations() {
        let answer = |first_to_second, second_to_first| {
            Ok(Comparison {
                first_to_second,
                second_to_first,
                matrix: Matrix {
                    rows: 3,
                    columns: 3,
                    cells: [[1, 1, 1], [1, 2, 1], [1, 1, 1]],
                },
                directions: 495,
                pieces_of_first: 24,
                pieces_of_second: 4,
            })
        };
        assert!(around(&answer(495, 16)));
        for (there, back) in [
            (495, 495),
            (16, 495),
            (16, 16),
            (511, 16),
            (495, 48),
            (495, 0),
        ] {
            assert!(!around(&answer(there, back)), "{there} {back}");
        }
    }
}
