//! What two edges have in common, by solving for it. Document 01, rule 6:
//! "share a point" is said of edges with their ends.

use crate::fraction::Fraction;
use crate::plane::{Edge, Point};

/// The points that two edges share.
#[derive(Clone, Copy, Debug, PartialEq, Eq)]
pub enum Shared {
    Nothing,
    OnePoint,
    Stretch,
}

/// What two edges share, neither of which has equal ends. A point of the first
/// is A + (B-A)·t and one of the second C + (D-C)·s, with t and s from 0 to 1.
pub fn shared(first: &Edge, second: &Edge) -> Shared {
    let course = (first.dx(), first.dy());
    let other = (second.dx(), second.dy());
    let apart = difference(first.from, second.from);
    let turn = cross(course, other);
    if turn != 0 {
        let t = Fraction::new(cross(apart, other), turn);
        let s = Fraction::new(cross(apart, course), turn);
        return if on_edge(t) && on_edge(s) {
            Shared::OnePoint
        } else {
            Shared::Nothing
        };
    }
    if cross(apart, course) != 0 {
        return Shared::Nothing;
    }
    shared_on_one_line(first, second)
}

/// What two edges on one line share: the second's ends are at two values of t,
/// and the stretch between these meets the one from 0 to 1 or does not.
fn shared_on_one_line(first: &Edge, second: &Edge) -> Shared {
    let course = (first.dx(), first.dy());
    let t_of = |point| {
        let from_start = difference(first.from, point);
        Fraction::new(dot(from_start, course), dot(course, course))
    };
    let (one_end, other_end) = (t_of(second.from), t_of(second.to));
    let least = one_end.min(other_end).max(Fraction::from(0));
    let greatest = one_end.max(other_end).min(Fraction::from(1));
    match least.cmp(&greatest) {
        std::cmp::Ordering::Less => Shared::Stretch,
        std::cmp::Ordering::Equal => Shared::OnePoint,
        std::cmp::Ordering::Greater => Shared::Nothing,
    }
}

fn on_edge(t: Fraction) -> bool {
    Fraction::from(0) <= t && t <= Fraction::from(1)
}

fn difference(from: Point, to: Point) -> (i128, i128) {
    let step = Edge { from, to };
    (step.dx(), step.dy())
}

fn cross(a: (i128, i128), b: (i128, i128)) -> i128 {
    a.0 * b.1 - a.1 * b.0
}

fn dot(a: (i128, i128), b: (i128, i128)) -> i128 {
    a.0 * b.0 + a.1 * b.1
}

#[cfg(test)]
mod tests {
    use super::*;

    fn edge(ax: i32, ay: i32, bx: i32, by: i32) -> Edge {
        Edge {
            from: Point { x: ax, y: ay },
            to: Point { x: bx, y: by },
        }
    }

    /// The answer, which must not depend on order or sense of travel.
    fn every_way(first: Edge, second: Edge) -> Shared {
        let back = |edge: Edge| Edge {
            from: edge.to,
            to: edge.from,
        };
        let answer = shared(&first, &second);
        for (a, b) in [(first, second), (back(first), second)] {
            for (a, b) in [(a, b), (a, back(b))] {
                assert_eq!(shared(&a, &b), answer);
                assert_eq!(shared(&b, &a), answer);
            }
        }
        answer
    }

    #[test]
    fn edges_across_each_other() {
        let first = edge(0, 0, 10, 10);
        assert_eq!(every_way(first, edge(0, 10, 10, 0)), Shared::OnePoint);
        assert_eq!(every_way(first, edge(5, 5, 9, 0)), Shared::OnePoint);
        assert_eq!(every_way(first, edge(10, 10, 20, 0)), Shared::OnePoint);
        assert_eq!(every_way(first, edge(6, 5, 9, 0)), Shared::Nothing);
        assert_eq!(every_way(first, edge(11, 11, 20, 0)), Shared::Nothing);
    }

    #[test]
    fn edges_side_by_side_share_nothing() {
        assert_eq!(
            every_way(edge(0, 0, 4, 2), edge(0, 1, 4, 3)),
            Shared::Nothing
        );
    }

    #[test]
    fn edges_on_one_line() {
        let first = edge(0, 0, 4, 2);
        assert_eq!(every_way(first, edge(6, 3, 8, 4)), Shared::Nothing);
        assert_eq!(every_way(first, edge(4, 2, 8, 4)), Shared::OnePoint);
        assert_eq!(every_way(first, edge(2, 1, 8, 4)), Shared::Stretch);
        assert_eq!(every_way(first, edge(-2, -1, 8, 4)), Shared::Stretch);
        assert_eq!(every_way(first, first), Shared::Stretch);
    }

    #[test]
    fn the_ends_of_the_range_fit() {
        let most = 1_000_000;
        let rising = edge(-most, -most, most, most);
        assert_eq!(
            every_way(rising, edge(-most, most, most, -most)),
            Shared::OnePoint
        );
        let beside = edge(-most, -most + 1, most - 1, most);
        assert_eq!(every_way(rising, beside), Shared::Nothing);
        let towards = edge(-most, -most, most, most - 1);
        assert_eq!(every_way(rising, towards), Shared::OnePoint);
    }
}
