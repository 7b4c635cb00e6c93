//! Outlines that others have written on a sheet: they keep rules 1 to 4 and
//! need keep no other. So boxes may have no width or height, edges equal ends,
//! and rings may run anticlockwise, where the clause on edges along a line
//! shows.

use independent::relation::{pieces, relation};

use crate::common::{a, rectangle, region, set, single, Vertices};
use crate::lists::Lists;

/// The relation of one ring to another's box.
fn ring_relation(first: Vertices, second: Vertices) -> u16 {
    relation(&region(&[first]), &region(&[second]).bounds())
}

fn reversed(ring: Vertices) -> Vertices {
    ring.into_iter().rev().collect()
}

#[test]
fn a_box_without_width_has_no_middle_column_but_may_have_its_centre_enclosed() {
    let flat = vec![(5, 2), (5, 4), (5, 8)];
    let tiles = ring_relation(a(), flat);
    assert_eq!(tiles, set("NW:NE:W:B:E:SW:SE"));
}

#[test]
fn a_box_without_height_has_no_middle_row() {
    let flat = vec![(2, 5), (8, 5), (4, 5)];
    let tiles = ring_relation(a(), flat);
    assert_eq!(tiles, set("NW:N:NE:B:SW:S:SE"));
}

#[test]
fn a_single_point_and_a() {
    let point = vec![(5, 5); 3];
    assert_eq!(ring_relation(a(), point.clone()), set("NW:NE:B:SW:SE"));
    assert_eq!(ring_relation(point, a()), 0);
}

#[test]
fn an_edge_along_two_lines_that_fall_together_passes_over_the_empty_range() {
    let flat = vec![(0, 2), (0, 4), (0, 8)];
    let northward = vec![(0, 3), (0, 5), (0, 3)];
    // North along the line: east of it. South along it: west of it.
    assert_eq!(ring_relation(northward, flat), set("W:E"));
}

#[test]
fn an_edge_with_equal_ends_is_one_piece_without_a_tile() {
    let still = region(&[vec![(3, 3), (3, 3), (3, 3)]]);
    let bounds = region(&[a()]).bounds();
    assert_eq!(relation(&still, &bounds), 0);
    assert_eq!(pieces(&still, &bounds), 3);
}

#[test]
fn three_vertices_that_keep_rule_5_have_a_tile_of_any_box() {
    // Whether they turn clockwise, the other way or lie in a line; boxes without
    // width or height too. Every way to draw them on a grid of 4 by 4.
    let grid = |number: i32| (number % 4, number / 4);
    let mut boxes = Vec::new();
    for corner in 0..16 {
        for opposite in corner..16 {
            boxes.push(region(&[vec![grid(corner), grid(opposite), grid(corner)]]).bounds());
        }
    }
    for first in 0..16 {
        for second in (0..16).filter(|&second| second != first) {
            for third in (0..16).filter(|&third| third != first && third != second) {
                let ring = region(&[vec![grid(first), grid(second), grid(third)]]);
                for bounds in &boxes {
                    assert_ne!(relation(&ring, bounds), 0, "{ring:?} {bounds:?}");
                }
            }
        }
    }
}

#[test]
fn an_edge_with_equal_ends_does_not_count_for_the_centre() {
    // A round the box, with a vertex repeated straight east of the centre.
    let ring = vec![(-5, -5), (-5, 15), (15, 15), (15, 5), (15, 5), (15, -5)];
    assert_ne!(ring_relation(ring, a()) & set("B"), 0);
}

#[test]
fn the_centre_is_enclosed_as_if_it_were_just_north_east_of_itself() {
    // The centre is (5, 5), on the west side of the first rectangle and on the
    // east side of the second; then on the south side, and on the north side.
    let upright = vec![(5, 2), (5, 4), (5, 8)];
    let level = vec![(2, 5), (4, 5), (8, 5)];
    let has_b = |ring, flat: &Vertices| ring_relation(ring, flat.clone()) & set("B") != 0;
    assert!(has_b(rectangle(5, 15, 0, 10), &upright));
    assert!(!has_b(rectangle(-5, 5, 0, 10), &upright));
    assert!(has_b(rectangle(0, 10, 5, 15), &level));
    assert!(!has_b(rectangle(0, 10, -5, 5), &level));
}

#[test]
fn an_anticlockwise_square_with_its_own_box() {
    assert_eq!(ring_relation(reversed(a()), a()), set("N:W:B:E:S"));
    assert_eq!(ring_relation(a(), a()), set("B"));
}

#[test]
fn the_cell_of_a_foreign_parcel_with_itself() {
    let mut lists = Lists::empty();
    lists.write_outline(4, &single(reversed(a())));
    assert_eq!(lists.put(5, &single(rectangle(10, 20, 0, 10))), 0);
    // The put wrote its own row and column only; the other's own cell stays.
    assert_eq!(lists.cell(4, 4), Ok(0));
    assert_eq!(lists.cell(5, 5), Ok(0));
    let foreign_to_own = lists.cell(4, 5);
    assert_eq!(foreign_to_own, Ok(set("NW:W:B:SW")));
}

#[test]
fn the_clause_for_edges_along_a_line_is_needed() {
    let beside = rectangle(10, 20, 0, 10);
    assert_eq!(ring_relation(reversed(a()), beside), set("NW:W:B:SW"));
}

#[test]
fn the_covering_condition_is_needed() {
    // The ring encloses the centre of both boxes, and no edge can show B, which
    // is empty; only the first box is covered.
    let ring = vec![(4, 4), (4, 6), (6, 6), (6, 4)];
    let covered = vec![(5, 5), (5, 5), (5, 5)];
    let longer = vec![(5, 0), (5, 10), (5, 0)];
    assert_ne!(ring_relation(ring.clone(), covered) & set("B"), 0);
    assert_eq!(ring_relation(ring, longer) & set("B"), 0);
}
