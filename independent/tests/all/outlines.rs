//! "Outlines to try, with what they give", and "Errors a trained hand makes".

use independent::pair::{around, pair, Comparison};
use independent::region::Outline;

use crate::common::{
    a, c, four_round_a, number_and_ring, opposite, outline, rectangle, set, single, verdict,
    Vertices,
};
use crate::lists::Lists;

fn compared(first: &Outline, second: &Outline) -> Comparison {
    pair(first, second).expect("both outlines are accepted")
}

/// What the document says of a pair, either way. The matrix is given by its
/// rows, as long as they are.
struct Expected<'a> {
    tiles: &'a str,
    tiles_back: &'a str,
    matrix: &'a [&'a [u8]],
    directions: &'a str,
    pieces: (usize, usize),
}

impl Expected<'_> {
    fn hold_for(&self, first: &Outline, second: &Outline) {
        let answer = compared(first, second);
        assert_eq!(answer.first_to_second, set(self.tiles));
        assert_eq!(answer.second_to_first, set(self.tiles_back));
        assert_eq!(answer.directions, set(self.directions));
        let counts = (answer.pieces_of_first, answer.pieces_of_second);
        assert_eq!(counts, self.pieces);
        assert_eq!(answer.matrix.rows, self.matrix.len());
        assert_eq!(answer.matrix.columns, self.matrix[0].len());
        assert_eq!(answer.matrix.cells, self.cells(|value| value));

        let back = compared(second, first);
        assert_eq!(back.first_to_second, answer.second_to_first);
        assert_eq!(back.second_to_first, answer.first_to_second);
        assert_eq!(back.directions, opposite(set(self.directions)));
        assert_eq!(back.matrix.cells, self.cells(exchanged));
    }

    /// The matrix filled up with zeros to three by three.
    fn cells(&self, value: fn(u8) -> u8) -> [[u8; 3]; 3] {
        let mut cells = [[0; 3]; 3];
        for (row, given) in cells.iter_mut().zip(self.matrix) {
            for (cell, &number) in row.iter_mut().zip(*given) {
                *cell = value(number);
            }
        }
        cells
    }
}

/// A cell's value with the two regions exchanged.
fn exchanged(value: u8) -> u8 {
    [0, 2, 1, 3][usize::from(value)]
}

fn triangle() -> Outline {
    single(vec![(0, 0), (0, 10), (10, 0)])
}

#[test]
fn outline_1() {
    let expected = Expected {
        tiles: "W:B:SW:S",
        tiles_back: "N:NE:B:E",
        matrix: &[&[0, 2, 2], &[1, 3, 2], &[1, 1, 0]],
        directions: "W:O:SW:S",
        pieces: (8, 8),
    };
    expected.hold_for(&single(a()), &single(c()));
}

#[test]
fn outline_2() {
    let expected = Expected {
        tiles: "W",
        tiles_back: "E",
        matrix: &[&[1, 2]],
        directions: "W",
        pieces: (4, 4),
    };
    expected.hold_for(&single(a()), &single(rectangle(10, 20, 0, 10)));
}

#[test]
fn outline_3() {
    let expected = Expected {
        tiles: "SW",
        tiles_back: "NE",
        matrix: &[&[0, 2], &[1, 0]],
        directions: "SW",
        pieces: (4, 4),
    };
    expected.hold_for(&single(a()), &single(rectangle(10, 20, 10, 20)));
}

#[test]
fn outline_4() {
    let expected = Expected {
        tiles: "SW",
        tiles_back: "NE",
        matrix: &[&[0, 0, 2], &[0, 0, 0], &[1, 0, 0]],
        directions: "SW",
        pieces: (4, 4),
    };
    expected.hold_for(&single(a()), &single(rectangle(12, 22, 12, 22)));
}

#[test]
fn outline_5() {
    // Back, the relation has B and the directions do not have O.
    let expected = Expected {
        tiles: "W:SW:S",
        tiles_back: "N:NE:B:E",
        matrix: &[&[0, 2, 2], &[1, 2, 2], &[1, 1, 0]],
        directions: "W:SW:S",
        pieces: (6, 8),
    };
    expected.hold_for(&triangle(), &single(rectangle(5, 15, 5, 15)));
}

#[test]
fn outline_6() {
    let expected = Expected {
        tiles: "NW:N:NE:W:B:E:SW:S:SE",
        tiles_back: "B",
        matrix: &[&[1, 1, 1], &[1, 3, 1], &[1, 1, 1]],
        directions: "NW:N:NE:W:O:E:SW:S:SE",
        pieces: (12, 4),
    };
    let (first, second) = (single(rectangle(-10, 40, -10, 40)), single(a()));
    expected.hold_for(&first, &second);
    assert!(!around(&pair(&first, &second)));
}

#[test]
fn outline_7() {
    let expected = Expected {
        tiles: "NW:N:NE:W:E:SW:S:SE",
        tiles_back: "B",
        matrix: &[&[1, 1, 1], &[1, 2, 1], &[1, 1, 1]],
        directions: "NW:N:NE:W:E:SW:S:SE",
        // The long sides of the rectangles west and east of A are cut twice;
        // those north and south of it are not cut.
        pieces: (8 + 4 + 4 + 8, 4),
    };
    let (first, second) = (outline(&four_round_a()), single(a()));
    expected.hold_for(&first, &second);
    assert!(around(&pair(&first, &second)));
    assert!(!around(&pair(&second, &first)), "it goes one way");
}

#[test]
fn outlines_8_to_12() {
    let reversed: Vertices = a().into_iter().rev().collect();
    let refused = [
        (vec![(0, 0), (10, 10), (10, 0), (0, 10)], 6),
        (vec![(0, 0), (5, 5), (10, 10)], 6),
        (reversed, 7),
        (vec![(0, 0), (0, 10)], 2),
        (rectangle(0, 1_000_001, 0, 10), 4),
        (rectangle(0, 1_000_000, 0, 10), 0),
        (rectangle(-1_000_000, 0, -1_000_000, 0), 0),
        (rectangle(-1_000_001, 0, 0, 10), 4),
        (rectangle(0, 10, -1_000_001, 0), 4),
        (rectangle(0, 10, 0, 1_000_001), 4),
    ];
    for (ring, number) in refused {
        assert_eq!(number_and_ring(&single(ring)), (number, 0));
    }
}

/// A clockwise ring of so many vertices, north along a curve that bends east.
fn curve(vertices: i32) -> Vertices {
    (0..vertices).map(|step| (step * step, step)).collect()
}

#[test]
fn sixty_four_vertices_and_one_more() {
    assert_eq!(number_and_ring(&single(curve(64))), (0, 0));
    assert_eq!(number_and_ring(&single(curve(65))), (3, 0));
}

#[test]
fn eight_rings_and_one_more() {
    assert_eq!(number_and_ring(&outline(&vec![a(); 8])), (0, 0));
    assert_eq!(number_and_ring(&outline(&vec![a(); 9])), (1, 0));
}

#[test]
fn slots_31_and_32() {
    let mut lists = Lists::empty();
    assert_eq!(lists.put(31, &single(a())), 0);
    assert_eq!(lists.put(32, &single(a())), 8);
    assert_eq!(lists.cell(31, 31), Ok(0));
}

#[test]
fn error_of_an_edge_counted_for_both_tiles() {
    let answer = compared(&outline(&four_round_a()), &single(a()));
    assert_eq!(answer.first_to_second & set("B"), 0);
}

#[test]
fn error_of_a_corner_cut_twice() {
    let answer = compared(&triangle(), &single(rectangle(5, 15, 5, 15)));
    assert_ne!(answer.pieces_of_first, 7);
    assert_eq!(answer.pieces_of_first, 6);
}

#[test]
fn error_of_only_edges_looked_at() {
    let answer = compared(&single(rectangle(-10, 40, -10, 40)), &single(a()));
    assert_ne!(answer.first_to_second & set("B"), 0);
}

#[test]
fn error_of_gaps_dropped() {
    let corner = compared(&single(a()), &single(rectangle(10, 20, 10, 20)));
    let apart = compared(&single(a()), &single(rectangle(12, 22, 12, 22)));
    assert_ne!(corner.matrix, apart.matrix);
}

#[test]
fn error_of_the_column_left_old() {
    let mut lists = Lists::empty();
    assert_eq!(lists.put(0, &single(a())), 0);
    assert_eq!(lists.put(3, &single(c())), 0);
    assert_eq!(lists.cell(0, 3), Ok(set("W:B:SW:S")));
    assert_eq!(lists.cell(3, 0), Ok(set("N:NE:B:E")));
    assert_eq!(lists.put(0, &single(rectangle(30, 40, 5, 25))), 0);
    assert_eq!(lists.cell(0, 3), Ok(set("E")), "the row is renewed");
    assert_eq!(lists.cell(3, 0), Ok(set("W")), "and so is the column");
}

#[test]
fn a_pair_of_the_same_outline_is_in_its_own_box() {
    assert_eq!(verdict(&single(a()), &single(a())), [0, 0, 0]);
    let expected = Expected {
        tiles: "B",
        tiles_back: "B",
        matrix: &[&[3]],
        directions: "O",
        pieces: (4, 4),
    };
    expected.hold_for(&single(a()), &single(a()));
}
