//! The published models themselves: a region has a tile exactly when its inside
//! meets the open tile (Li and Liu, "Cardinal directions: A comparison of
//! direction relation matrix and objects interaction matrix"), and a cell of
//! the matrix holds it exactly when its inside meets the cell (Schneider and
//! others, "Cardinal Directions between Complex Regions"). For an accepted ring
//! that is an area above 0, which is worked out here by clipping, without a
//! look at the clauses of document 01.

use independent::make::random::Random;
use independent::make::regions::small_outline;
use independent::matrix::Matrix;
use independent::pair::compare;
use independent::plane::Bounds;
use independent::region::{Region, Ring};

use crate::common::region;

/// A reduced fraction, of small numbers.
#[derive(Clone, Copy, Debug, PartialEq)]
struct Exact {
    above: i128,
    below: i128,
}

impl Exact {
    fn new(above: i128, below: i128) -> Self {
        let divisor = common_divisor(above.abs(), below.abs()) * below.signum();
        Self {
            above: above / divisor,
            below: below / divisor,
        }
    }

    fn plus(self, other: Self) -> Self {
        Self::new(
            self.above * other.below + other.above * self.below,
            self.below * other.below,
        )
    }

    fn times(self, other: Self) -> Self {
        Self::new(self.above * other.above, self.below * other.below)
    }

    fn minus(self, other: Self) -> Self {
        self.plus(other.times(Self::new(-1, 1)))
    }

    fn over(self, other: Self) -> Self {
        self.times(Self::new(other.below, other.above))
    }
}

fn common_divisor(a: i128, b: i128) -> i128 {
    if b == 0 {
        a
    } else {
        common_divisor(b, a % b)
    }
}

type Place = [Exact; 2];

/// A half plane: what lies above a line of an axis, or below it.
#[derive(Clone, Copy)]
struct Half {
    axis: usize,
    line: i128,
    above: bool,
}

impl Half {
    /// How far a place lies on the half plane's side, below 0 outside.
    fn depth(&self, place: Place) -> Exact {
        let height = place[self.axis].minus(Exact::new(self.line, 1));
        if self.above {
            height
        } else {
            height.times(Exact::new(-1, 1))
        }
    }

    /// The part of a polygon in the half plane (Sutherland and Hodgman).
    fn clip(&self, polygon: &[Place]) -> Vec<Place> {
        let mut kept = Vec::new();
        let next = polygon.iter().cycle().skip(1);
        for (&from, &to) in polygon.iter().zip(next) {
            let (start, end) = (self.depth(from), self.depth(to));
            if start.above >= 0 {
                kept.push(from);
            }
            if start.above.signum() * end.above.signum() < 0 {
                let way = start.over(start.minus(end));
                let between = |axis: usize| from[axis].plus(to[axis].minus(from[axis]).times(way));
                kept.push([between(0), between(1)]);
            }
        }
        kept
    }
}

/// Whether a ring has area in all of some half planes.
fn has_area(ring: &Ring, halves: &[Half]) -> bool {
    let whole = |number: i32| Exact::new(number.into(), 1);
    let vertices = ring.vertices().iter();
    let polygon: Vec<Place> = vertices
        .map(|vertex| [whole(vertex.x), whole(vertex.y)])
        .collect();
    let part = halves.iter().fold(polygon, |part, half| half.clip(&part));
    let next = part.iter().cycle().skip(1);
    let twice_area = part.iter().zip(next).map(|(from, to)| {
        let there = from[0].times(to[1]);
        there.minus(to[0].times(from[1]))
    });
    let zero = Exact::new(0, 1);
    twice_area.fold(zero, Exact::plus) != zero
}

/// The half planes of a range of an axis: between two lines, or past one.
fn halves(axis: usize, low: Option<i128>, high: Option<i128>) -> Vec<Half> {
    let ends = [(low, true), (high, false)];
    let half = |(line, above)| Option::map(line, |line| Half { axis, line, above });
    ends.into_iter().filter_map(half).collect()
}

/// The relation by area.
fn tiles_with_area(first: &Region, bounds: &Bounds) -> u16 {
    let ranges = |low, high| {
        [
            (None, Some(low)),
            (Some(low), Some(high)),
            (Some(high), None),
        ]
    };
    let mut tiles = 0;
    for (row, &(south, north)) in ranges(bounds.y.low, bounds.y.high).iter().rev().enumerate() {
        for (column, &(west, east)) in ranges(bounds.x.low, bounds.x.high).iter().enumerate() {
            let tile = [halves(0, west, east), halves(1, south, north)].concat();
            if first.rings.iter().any(|ring| has_area(ring, &tile)) {
                tiles |= 1 << (3 * row + column);
            }
        }
    }
    tiles
}

/// The matrix by area.
fn matrix_by_area(first: &Region, second: &Region) -> Matrix {
    let (a, b) = (first.bounds(), second.bounds());
    let lines = |mut lines: Vec<i128>| {
        lines.sort_unstable();
        lines.dedup();
        lines
    };
    let xs = lines(vec![a.x.low, a.x.high, b.x.low, b.x.high]);
    let ys = lines(vec![a.y.low, a.y.high, b.y.low, b.y.high]);
    let mut cells = [[0; 3]; 3];
    for (row, y) in ys.windows(2).rev().enumerate() {
        for (column, x) in xs.windows(2).enumerate() {
            let cell = [
                halves(0, Some(x[0]), Some(x[1])),
                halves(1, Some(y[0]), Some(y[1])),
            ];
            for (value, region) in [(1, first), (2, second)] {
                if region
                    .rings
                    .iter()
                    .any(|ring| has_area(ring, &cell.concat()))
                {
                    cells[row][column] += value;
                }
            }
        }
    }
    Matrix {
        rows: ys.len() - 1,
        columns: xs.len() - 1,
        cells,
    }
}

#[test]
fn tiles_and_matrix_are_those_with_area() {
    let mut random = Random::new(21);
    let mut all_tiles = 0;
    for _ in 0..1_500 {
        let mut draw = || {
            let outline = small_outline(&mut random);
            Region::new(&outline.ends, &outline.coordinates)
        };
        let (first, second) = (draw(), draw());
        let answer = compare(&first, &second);
        let context = format!("{first:?} {second:?}");
        let (there, back) = (
            tiles_with_area(&first, &second.bounds()),
            tiles_with_area(&second, &first.bounds()),
        );
        assert_eq!(answer.first_to_second, there, "{context}");
        assert_eq!(answer.second_to_first, back, "{context}");
        assert_eq!(answer.matrix, matrix_by_area(&first, &second), "{context}");
        all_tiles |= there;
    }
    assert_eq!(all_tiles, 511);
}

#[test]
fn the_clipping_itself() {
    let square = region(&[vec![(0, 0), (0, 10), (10, 10), (10, 0)]]);
    let within = |west, east| has_area(&square.rings[0], &halves(0, west, east));
    assert!(within(Some(9), None) && within(None, Some(1)) && within(Some(3), Some(4)));
    assert!(!within(Some(10), None) && !within(None, Some(0)) && !within(Some(11), Some(12)));
}
