//! The listing program's text. Document 01, the end of "Outlines to try, with
//! what they give"; document 02, L2: it "runs both and prints `differ` after a
//! pair where they do not agree".

use crate::card;
use crate::drawn::drawn;
use crate::matrix::Matrix;
use crate::pair::{compare, Comparison};
use crate::sheet::Standing;
use crate::tile::{directions_text, relation_text};

/// The listing of a card, or its refusal.
pub fn listing(card: &[u8]) -> String {
    match card::read(card) {
        Ok(parcels) => lines(&parcels),
        Err(refusal) => format!("refused {}\n", refusal.number()),
    }
}

fn lines(parcels: &Standing) -> String {
    let mut text = format!("parcels {}\n", parcels.len());
    for (&primary, first) in parcels {
        for (&reference, second) in parcels {
            if primary != reference {
                let comparison = compare(first, second);
                let slots = [primary, reference];
                text += &line(slots, &comparison, &drawn(first, second));
            }
        }
    }
    text
}

/// The line of two parcels, of which the drawn matrix is given as well.
fn line(slots: [usize; 2], comparison: &Comparison, drawn: &Matrix) -> String {
    let [primary, reference] = slots;
    let tiles = relation_text(comparison.first_to_second);
    let directions = directions_text(comparison.directions);
    let pieces = comparison.pieces_of_first;
    let end = match *drawn == comparison.matrix {
        true => "",
        false => " differ",
    };
    format!("{primary} {reference} {tiles} {directions} {pieces}{end}\n")
}

#[cfg(test)]
mod tests {
    use super::*;

    #[test]
    fn a_line_says_where_the_drawn_matrix_is_another() {
        let matrix = Matrix {
            rows: 2,
            columns: 2,
            cells: [[0, 2, 0], [1, 0, 0], [0, 0, 0]],
        };
        let comparison = Comparison {
            first_to_second: 64,
            second_to_first: 4,
            matrix,
            directions: 64,
            pieces_of_first: 4,
            pieces_of_second: 4,
        };
        let text = |drawn: &Matrix| line([0, 3], &comparison, drawn);
        assert_eq!(text(&matrix), "0 3 SW SW 4\n");
        let mut cells = matrix.cells;
        cells[1][1] = 3;
        for other in [
            Matrix { rows: 3, ..matrix },
            Matrix {
                columns: 1,
                ..matrix
            },
            Matrix { cells, ..matrix },
        ] {
            assert_eq!(text(&other), "0 3 SW SW 4 differ\n");
        }
    }
}
