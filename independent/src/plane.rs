//! Points, edges and boxes. Document 01, "Outlines that are accepted" (x grows
//! east, y north) and the first sentences of "The nine tiles".

use crate::fraction::Fraction;
use crate::tile;

/// A vertex, in the numbers in which it is lent.
#[derive(Clone, Copy, Debug, PartialEq, Eq)]
pub struct Point {
    pub x: i32,
    pub y: i32,
}

/// A straight edge, with its direction of travel.
#[derive(Clone, Copy, Debug)]
pub struct Edge {
    pub from: Point,
    pub to: Point,
}

impl Edge {
    /// How far the edge goes east.
    pub fn dx(&self) -> i128 {
        i128::from(self.to.x) - i128::from(self.from.x)
    }

    /// How far the edge goes north.
    pub fn dy(&self) -> i128 {
        i128::from(self.to.y) - i128::from(self.from.y)
    }

    /// The point A + (B-A)·t.
    pub fn at(&self, t: Fraction) -> (Fraction, Fraction) {
        (
            Fraction::from(self.from.x) + Fraction::from(self.dx()) * t,
            Fraction::from(self.from.y) + Fraction::from(self.dy()) * t,
        )
    }
}

/// A box along one axis: two lines, which cut the axis into three open ranges,
/// numbered 0 to 2 from the lower end.
#[derive(Clone, Copy, Debug, PartialEq, Eq)]
pub struct Span {
    pub low: i128,
    pub high: i128,
}

impl Span {
    /// From the least to the greatest of some places.
    fn over(places: impl Iterator<Item = i32>) -> Self {
        let (low, high) = places.fold((i32::MAX, i32::MIN), |(low, high), place| {
            (low.min(place), high.max(place))
        });
        Self {
            low: low.into(),
            high: high.into(),
        }
    }

    /// The two lines, which may fall together.
    pub fn lines(&self) -> [i128; 2] {
        [self.low, self.high]
    }

    fn covers(&self, other: &Self) -> bool {
        self.low <= other.low && other.high <= self.high
    }

    fn centre(&self) -> Fraction {
        Fraction::new(self.low + self.high, 2)
    }

    /// The ranges as (lower end, upper end); the outer two have one end only.
    fn ranges(&self) -> [(Option<i128>, Option<i128>); 3] {
        [
            (None, Some(self.low)),
            (Some(self.low), Some(self.high)),
            (Some(self.high), None),
        ]
    }

    /// The range that strictly contains a place; none where it is on a line.
    pub fn range_of(&self, place: Fraction) -> Option<usize> {
        self.ranges().iter().position(|&(from, to)| {
            from.map_or(true, |line| Fraction::from(line) < place)
                && to.map_or(true, |line| place < Fraction::from(line))
        })
    }

    /// The non-empty range next to a line of this span, on its upper or its
    /// lower side. Where the two lines fall together, the range between them
    /// is empty and is passed over.
    pub fn range_beside(&self, line: i128, upper_side: bool) -> Option<usize> {
        self.ranges().iter().position(|&(from, to)| {
            let border = if upper_side { from } else { to };
            from != to && border == Some(line)
        })
    }
}

/// The box of a region (Rust has taken the word): the least and greatest x
/// and y.
#[derive(Clone, Copy, Debug, PartialEq, Eq)]
pub struct Bounds {
    pub x: Span,
    pub y: Span,
}

impl Bounds {
    /// The box of some vertices, of which there is at least one.
    pub fn over<'a>(vertices: impl Iterator<Item = &'a Point> + Clone) -> Self {
        Self {
            x: Span::over(vertices.clone().map(|vertex| vertex.x)),
            y: Span::over(vertices.map(|vertex| vertex.y)),
        }
    }

    /// Whether the other box lies within this one; they may share borders.
    pub fn covers(&self, other: &Self) -> bool {
        self.x.covers(&other.x) && self.y.covers(&other.y)
    }

    /// The middle of the box.
    pub fn centre(&self) -> (Fraction, Fraction) {
        (self.x.centre(), self.y.centre())
    }

    /// The tile that strictly contains a point; none where it is on a line.
    pub fn tile_of(&self, x: Fraction, y: Fraction) -> Option<u16> {
        Some(tile::of_ranges(self.x.range_of(x)?, self.y.range_of(y)?))
    }
}

#[cfg(test)]
mod tests {
    use super::*;

    #[test]
    fn a_place_on_a_line_is_in_no_range() {
        let span = Span { low: 2, high: 5 };
        let places = [1, 2, 3, 5, 6].map(|place: i32| span.range_of(place.into()));
        assert_eq!(places, [Some(0), None, Some(1), None, Some(2)]);
    }

    #[test]
    fn ranges_beside_the_lines_of_a_box_with_width() {
        let span = Span { low: 2, high: 5 };
        assert_eq!(span.range_beside(2, false), Some(0));
        assert_eq!(span.range_beside(2, true), Some(1));
        assert_eq!(span.range_beside(5, false), Some(1));
        assert_eq!(span.range_beside(5, true), Some(2));
        assert_eq!(span.range_beside(3, true), None);
    }

    #[test]
    fn the_range_between_lines_that_fall_together_is_empty() {
        let span = Span { low: 4, high: 4 };
        assert_eq!(span.range_of(4_i32.into()), None);
        assert_eq!(span.range_beside(4, false), Some(0));
        assert_eq!(span.range_beside(4, true), Some(2));
    }
}
