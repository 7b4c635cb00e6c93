//! The matrix straight from the edges. Document 02, L2: "lay all the lines of
//! both boxes over the plane, cut every edge by them, and mark the cells".
//! Each piece is judged by its middle.

use std::collections::BTreeSet;

use crate::check::check;
use crate::fraction::Fraction;
use crate::matrix::{Cells, Matrix};
use crate::pair::PairRefusal;
use crate::plane::{Bounds, Edge, Span};
use crate::region::{Outline, Region, Ring};
use crate::relation::encloses;

/// The lines of both boxes along one axis, each once, from the lower end.
struct Lines(Vec<i128>);

impl Lines {
    fn of(one: Span, other: Span) -> Self {
        let lines: BTreeSet<i128> = one.lines().into_iter().chain(other.lines()).collect();
        Self(lines.into_iter().collect())
    }

    /// How many strips lie between them.
    fn strips(&self) -> usize {
        self.0.len() - 1
    }

    /// Where an edge meets the lines, as fractions of its way. A line that it
    /// runs along, or beside, does not cut it.
    fn cuts(&self, from: i32, step: i128) -> Vec<Fraction> {
        if step == 0 {
            return Vec::new();
        }
        let way = |line: &i128| Fraction::new(line - i128::from(from), step);
        self.0.iter().map(way).collect()
    }

    /// The strip of a piece with its middle at this place. On a line it is the
    /// one past the line or the one before it.
    fn strip(&self, place: Fraction, is_past: bool) -> Option<usize> {
        let lines = self.0.iter();
        let before = lines
            .clone()
            .filter(|&&line| Fraction::from(line) < place)
            .count();
        let until = lines.filter(|&&line| Fraction::from(line) <= place).count();
        let passed = if is_past { until } else { before };
        passed.checked_sub(1).filter(|&strip| strip < self.strips())
    }
}

/// "Right of travel, except that a piece on its own region's outer line marks
/// the cell inside that box": does a piece on a line count for the cell past it?
fn counts_past(own: Span, place: i32, right_is_past: bool) -> bool {
    match i128::from(place) {
        line if line == own.low => true,
        line if line == own.high => false,
        _ => right_is_past,
    }
}

/// How many numbers the answer of the call has.
pub const NUMBERS: usize = 14;

/// The call: refused as the pair call is, region 1 wholly first.
pub fn drawn_pair(first: &Outline, second: &Outline) -> Result<Matrix, PairRefusal> {
    let in_region = |region| move |broken| PairRefusal { broken, region };
    let first = check(first).map_err(in_region(1))?;
    let second = check(second).map_err(in_region(2))?;
    Ok(drawn(&first, &second))
}

/// Number, region, ring, rows, columns and nine cells by row; all but the first
/// three are 0 beside a refusal.
pub fn numbers(answer: &Result<Matrix, PairRefusal>) -> [u16; NUMBERS] {
    let mut numbers = [0; NUMBERS];
    match answer {
        Err(refusal) => {
            numbers[0] = refusal.broken.rule.number();
            numbers[1] = refusal.region;
            numbers[2] = refusal.broken.ring as u16;
        }
        Ok(matrix) => {
            numbers[3] = matrix.rows as u16;
            numbers[4] = matrix.columns as u16;
            for (number, &cell) in numbers[5..].iter_mut().zip(matrix.cells.iter().flatten()) {
                *number = cell.into();
            }
        }
    }
    numbers
}

/// The drawn matrix of two regions with width and height.
pub fn drawn(first: &Region, second: &Region) -> Matrix {
    let bounds = [first.bounds(), second.bounds()];
    let across = Lines::of(bounds[0].x, bounds[1].x);
    let up = Lines::of(bounds[0].y, bounds[1].y);
    let mut cells = Cells::default();
    let sides = [
        (first, bounds[0], bounds[1], 1),
        (second, bounds[1], bounds[0], 2),
    ];
    for (region, own, other, value) in sides {
        for (column, row) in marked(region, &own, &other, &across, &up) {
            cells[up.strips() - 1 - row][column] += value;
        }
    }
    Matrix {
        rows: up.strips(),
        columns: across.strips(),
        cells,
    }
}

/// The cells that a region marks, by column from the west and row from the south.
fn marked(
    region: &Region,
    own: &Bounds,
    other: &Bounds,
    across: &Lines,
    up: &Lines,
) -> BTreeSet<(usize, usize)> {
    let mut cells = BTreeSet::new();
    for edge in region.rings.iter().flat_map(Ring::edges) {
        if edge.from == edge.to {
            continue;
        }
        let is_east = counts_past(own.x, edge.from.x, edge.dy() > 0);
        let is_north = counts_past(own.y, edge.from.y, edge.dx() < 0);
        for middle in piece_middles(&edge, across, up) {
            let (x, y) = edge.at(middle);
            let column = across.strip(x, is_east);
            let row = up.strip(y, is_north);
            cells.extend(column.zip(row));
        }
    }
    let has_centre = |ring: &&Ring| ring.bounds().covers(other) && encloses(ring, other.centre());
    if region.rings.iter().any(|ring| has_centre(&ring)) {
        let (x, y) = other.centre();
        cells.extend(across.strip(x, true).zip(up.strip(y, true)));
    }
    cells
}

/// The middles of the pieces of an edge, as fractions of its way.
fn piece_middles(edge: &Edge, across: &Lines, up: &Lines) -> Vec<Fraction> {
    let (start, end) = (Fraction::from(0), Fraction::from(1));
    let mut cuts = BTreeSet::from([start, end]);
    cuts.extend(across.cuts(edge.from.x, edge.dx()));
    cuts.extend(up.cuts(edge.from.y, edge.dy()));
    let cuts: Vec<Fraction> = cuts.range(start..=end).copied().collect();
    let pieces = cuts.windows(2);
    pieces.map(|piece| piece[0].halfway(piece[1])).collect()
}

#[cfg(test)]
mod tests {
    use super::*;
    use crate::pair::compare;

    fn region(rings: &[&[(i32, i32)]]) -> Region {
        let mut ends = Vec::new();
        let mut coordinates = Vec::new();
        for ring in rings {
            coordinates.extend(ring.iter().flat_map(|&(x, y)| [x, y]));
            ends.push((coordinates.len() / 2) as u16);
        }
        Region::new(&ends, &coordinates)
    }

    const A: &[(i32, i32)] = &[(0, 0), (0, 10), (10, 10), (10, 0)];

    #[test]
    fn the_outlines_of_the_document() {
        let a = region(&[A]);
        let others = [
            region(&[&[(5, 5), (5, 25), (25, 25), (25, 5)]]),
            region(&[&[(10, 0), (10, 10), (20, 10), (20, 0)]]),
            region(&[&[(10, 10), (10, 20), (20, 20), (20, 10)]]),
            region(&[&[(12, 12), (12, 22), (22, 22), (22, 12)]]),
            region(&[&[(-10, -10), (-10, 40), (40, 40), (40, -10)]]),
            region(&[
                &[(-10, -10), (-10, 40), (0, 40), (0, -10)],
                &[(0, 10), (0, 40), (10, 40), (10, 10)],
                &[(0, -10), (0, 0), (10, 0), (10, -10)],
                &[(10, -10), (10, 40), (40, 40), (40, -10)],
            ]),
        ];
        for other in &others {
            assert_eq!(drawn(&a, other), compare(&a, other).matrix);
            assert_eq!(drawn(other, &a), compare(other, &a).matrix);
        }
    }

    #[test]
    fn a_ring_run_twice_differs() {
        let once = [(0, 0), (10, 0), (10, 10), (0, 10)];
        let twice: Vec<(i32, i32)> = once.into_iter().chain(once).collect();
        let (twice, a) = (region(&[&twice]), region(&[A]));
        assert_eq!(compare(&twice, &a).matrix.cells[0][0], 2);
        assert_eq!(drawn(&twice, &a).cells[0][0], 3);
    }
}
