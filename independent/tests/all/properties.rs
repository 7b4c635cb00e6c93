//! What holds of any two accepted regions.

use independent::pair::{around, compare};
use independent::region::{Region, Ring};
use independent::relation::{encloses, relation};

use crate::common::{accepted_pairs, opposite, set};

fn for_accepted_pairs(seed: u64, property: impl Fn(&Region, &Region)) {
    for (first, second) in accepted_pairs(2_000, seed) {
        property(&first, &second);
    }
}

fn edges(region: &Region) -> usize {
    region.rings.iter().map(|ring| ring.edges().len()).sum()
}

#[test]
fn a_relation_has_a_tile_and_no_bit_above_eight() {
    for_accepted_pairs(1, |first, second| {
        let tiles = relation(first, &second.bounds());
        assert!((1..512).contains(&tiles), "{first:?} {second:?}");
    });
}

#[test]
fn directions_back_are_the_opposites() {
    for_accepted_pairs(2, |first, second| {
        let (there, back) = (compare(first, second), compare(second, first));
        assert_ne!(there.directions, 0);
        assert_eq!(back.directions, opposite(there.directions));
    });
}

#[test]
fn around_goes_one_way_and_has_the_eight_directions() {
    let mut seen = 0;
    for (first, second) in accepted_pairs(2_000, 7) {
        let (there, back) = (compare(&first, &second), compare(&second, &first));
        let eight = set("NW:N:NE:W:E:SW:S:SE");
        // The eight tiles one way never come without B alone the other way.
        assert_eq!(around(&Ok(there)), there.first_to_second == eight);
        if around(&Ok(there)) {
            seen += 1;
            assert!(!around(&Ok(back)));
            assert_eq!(there.directions, eight);
        }
    }
    assert!(seen > 10, "only {seen} of the pairs are around");
}

#[test]
fn the_matrix_back_has_1_and_2_exchanged() {
    for_accepted_pairs(3, |first, second| {
        let (there, back) = (compare(first, second).matrix, compare(second, first).matrix);
        assert_eq!((there.rows, there.columns), (back.rows, back.columns));
        let exchanged = |value: u8| [0, 2, 1, 3][usize::from(value)];
        assert_eq!(back.cells, there.cells.map(|row| row.map(exchanged)));
    });
}

#[test]
fn the_matrix_has_one_to_three_rows_and_columns_and_nothing_past_them() {
    for_accepted_pairs(4, |first, second| {
        let matrix = compare(first, second).matrix;
        assert!((1..=3).contains(&matrix.rows) && (1..=3).contains(&matrix.columns));
        for (row, cells) in matrix.cells.iter().enumerate() {
            for (column, &cell) in cells.iter().enumerate() {
                let is_past = row >= matrix.rows || column >= matrix.columns;
                assert!(cell <= 3 && !(is_past && cell != 0));
            }
        }
    });
}

#[test]
fn an_edge_gives_one_to_five_pieces() {
    for_accepted_pairs(5, |first, second| {
        let answer = compare(first, second);
        for (region, pieces) in [
            (first, answer.pieces_of_first),
            (second, answer.pieces_of_second),
        ] {
            assert!((edges(region)..=5 * edges(region)).contains(&pieces));
        }
    });
}

#[test]
fn without_the_covering_condition_nothing_changes() {
    for_accepted_pairs(6, |first, second| {
        let bounds = second.bounds();
        let is_enclosing = |ring: &Ring| encloses(ring, bounds.centre());
        if first.rings.iter().any(is_enclosing) {
            assert_ne!(relation(first, &bounds) & set("B"), 0);
        }
    });
}

#[test]
fn a_region_is_in_its_own_box() {
    for_accepted_pairs(7, |first, _| {
        assert_eq!(relation(first, &first.bounds()), set("B"));
    });
}

#[test]
fn the_invented_pairs_are_of_many_kinds() {
    let answers: Vec<_> = accepted_pairs(2_000, 8)
        .iter()
        .map(|(first, second)| compare(first, second))
        .collect();
    let mut relations: Vec<u16> = answers
        .iter()
        .map(|answer| answer.first_to_second)
        .collect();
    relations.sort_unstable();
    relations.dedup();
    assert!(relations.len() > 150, "{}", relations.len());
    let mut matrices: Vec<_> = answers.iter().map(|answer| answer.matrix.cells).collect();
    matrices.sort_unstable();
    matrices.dedup();
    assert!(matrices.len() > 300, "{}", matrices.len());
    assert!(answers.iter().any(|answer| answer.pieces_of_first > 300));
    assert!(answers
        .iter()
        .any(|answer| answer.directions == set("NW:N:NE:W:E:SW:S:SE")));
}
