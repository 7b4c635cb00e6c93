//! The tiles of an edge in order of travel by one formula for both clauses about
//! edges, boxes without width or height included (`lines_behind`). The program
//! goes by the clauses; here every edge and box of a small grid is compared.

use independent::plane::{Bounds, Edge, Point, Span};
use independent::region::Region;
use independent::relation::{edge_tiles, pieces, relation};
use independent::tile;

/// A place on the way, `above / below` of it, with `below` above 0.
type Way = (i32, i32);

#[derive(Clone, Copy)]
struct Leg {
    from: (i32, i32),
    step: (i32, i32),
}

/// How many of two lines lie behind a place, or at it with the travel going on
/// to their upper side.
fn lines_behind(lines: [i32; 2], from: i32, step: i32, way: Way, goes_up: bool) -> i32 {
    let place = from * way.1 + step * way.0;
    let is_behind = |line: &&i32| *line * way.1 < place || (*line * way.1 == place && goes_up);
    lines.iter().filter(is_behind).count() as i32
}

/// The bit of the tile that the leg is in just after a place.
fn bit_after(leg: Leg, way: Way, x_lines: [i32; 2], y_lines: [i32; 2]) -> i32 {
    let (dx, dy) = leg.step;
    let east = dx > 0 || (dx == 0 && dy > 0);
    let north = dy > 0 || (dy == 0 && dx < 0);
    let column = lines_behind(x_lines, leg.from.0, dx, way, east);
    let row = lines_behind(y_lines, leg.from.1, dy, way, north);
    3 * (2 - row) + column
}

/// The bits of the tiles of a leg, in order of travel.
fn bits(leg: Leg, x_lines: [i32; 2], y_lines: [i32; 2]) -> Vec<i32> {
    let mut ways: Vec<Way> = vec![(0, 1)];
    let axes = [
        (leg.from.0, leg.step.0, x_lines),
        (leg.from.1, leg.step.1, y_lines),
    ];
    for (from, step, lines) in axes {
        for line in lines {
            let way = ((line - from) * step.signum(), step.abs());
            if 0 < way.0 && way.0 < way.1 {
                ways.push(way);
            }
        }
    }
    ways.sort_by_key(|way| way.0 * 60 / way.1);
    ways.dedup_by_key(|way| way.0 * 60 / way.1);
    let bit = |way| bit_after(leg, way, x_lines, y_lines);
    ways.into_iter().map(bit).collect()
}

/// The pairs of a small number and one that is not below it.
fn spans(most: i32) -> Vec<[i32; 2]> {
    let pairs = (0..=most).flat_map(|low| (low..=most).map(move |high| [low, high]));
    pairs.collect()
}

#[test]
fn every_edge_and_box_of_a_small_grid() {
    // Edges go up to 5 along an axis, so 60 tells any two places on them apart.
    let points: Vec<(i32, i32)> = (0..36).map(|place| (place % 6, place / 6)).collect();
    let mut compared = 0;
    for x_lines in spans(5).into_iter().step_by(2) {
        for y_lines in spans(5).into_iter().step_by(3) {
            let span = |[low, high]: [i32; 2]| Span {
                low: low.into(),
                high: high.into(),
            };
            let bounds = Bounds {
                x: span(x_lines),
                y: span(y_lines),
            };
            for &from in &points {
                for &to in points.iter().filter(|&&to| to != from) {
                    let step = (to.0 - from.0, to.1 - from.1);
                    let there = bits(Leg { from, step }, x_lines, y_lines);
                    let point = |(x, y): (i32, i32)| Point { x, y };
                    let edge = Edge {
                        from: point(from),
                        to: point(to),
                    };
                    let order: Vec<i32> = edge_tiles(&edge, &bounds)
                        .into_iter()
                        .map(|tile| tile::bit(tile) as i32)
                        .collect();
                    assert_eq!(order, there, "{from:?} {to:?} {bounds:?}");
                    let step = (-step.0, -step.1);
                    let back = bits(Leg { from: to, step }, x_lines, y_lines);
                    let bits = [there, back].concat();
                    let tiles = bits.iter().fold(0, |tiles, bit| tiles | 1 << bit);
                    // There and back: a ring of two edges, which encloses nothing.
                    let region = Region::new(&[2], &[from.0, from.1, to.0, to.1]);
                    assert_eq!(
                        relation(&region, &bounds),
                        tiles,
                        "{from:?} {to:?} {bounds:?}"
                    );
                    assert_eq!(pieces(&region, &bounds), bits.len());
                    compared += 1;
                }
            }
        }
    }
    assert_eq!(compared, 11 * 7 * 36 * 35);
}
