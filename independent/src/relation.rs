//! Which tiles of a box a region has, and into how many pieces the box's lines
//! cut it. Document 01, "The nine tiles". Each edge is cut at its crossings,
//! and each piece is judged by its middle.

use std::collections::BTreeSet;

use crate::fraction::Fraction;
use crate::plane::{Bounds, Edge};
use crate::region::{Region, Ring};
use crate::tile;

/// The relation of a region to a box: all tiles that one of its polygons has.
pub fn relation(region: &Region, to: &Bounds) -> u16 {
    let polygons = region.rings.iter();
    polygons.fold(0, |tiles, ring| tiles | ring_tiles(ring, to))
}

/// The piece count of a region: the pieces of all its edges.
pub fn pieces(region: &Region, by: &Bounds) -> usize {
    let edges = region.rings.iter().flat_map(Ring::edges);
    edges.map(|edge| piece_middles(&edge, by).len()).sum()
}

/// The tiles of an edge in order of travel, one a piece.
pub fn edge_tiles(edge: &Edge, of: &Bounds) -> Vec<u16> {
    let middles = piece_middles(edge, of).into_iter();
    middles
        .filter_map(|middle| piece_tile(edge, middle, of))
        .collect()
}

/// Whether a point is enclosed: "an odd number of edges cross the ray strictly
/// east of it".
pub fn encloses(ring: &Ring, (x, y): (Fraction, Fraction)) -> bool {
    let edges = ring.edges();
    let crossings = edges.iter().filter(|edge| crosses_ray(edge, x, y));
    crossings.count() % 2 == 1
}

fn ring_tiles(ring: &Ring, to: &Bounds) -> u16 {
    let mut tiles = 0;
    for edge in ring.edges() {
        for middle in piece_middles(&edge, to) {
            tiles |= piece_tile(&edge, middle, to).unwrap_or(0);
        }
    }
    if ring.bounds().covers(to) && encloses(ring, to.centre()) {
        tiles |= tile::B;
    }
    tiles
}

/// The middles of the pieces of an edge, as fractions of the way along it. A
/// line that the edge runs along, or beside, does not cut it.
fn piece_middles(edge: &Edge, by: &Bounds) -> Vec<Fraction> {
    let (start, end) = (Fraction::from(0), Fraction::from(1));
    let mut cuts = BTreeSet::from([start, end]);
    let axes = [
        (edge.from.x, edge.dx(), by.x),
        (edge.from.y, edge.dy(), by.y),
    ];
    for (from, step, span) in axes {
        for line in span.lines() {
            if step != 0 {
                cuts.insert(Fraction::new(line - i128::from(from), step));
            }
        }
    }
    let cuts: Vec<Fraction> = cuts.range(start..=end).copied().collect();
    cuts.windows(2)
        .map(|piece| piece[0].halfway(piece[1]))
        .collect()
}

/// The tile of the piece with this middle. An edge along a line belongs right
/// of travel: north of a westward one, east of a northward one. An edge with
/// equal ends gives no tile.
fn piece_tile(edge: &Edge, middle: Fraction, of: &Bounds) -> Option<u16> {
    if edge.from == edge.to {
        return None;
    }
    let (x, y) = edge.at(middle);
    let beside_upright = match edge.dx() {
        0 => of.x.range_beside(edge.from.x.into(), edge.dy() > 0),
        _ => None,
    };
    let beside_level = match edge.dy() {
        0 => of.y.range_beside(edge.from.y.into(), edge.dx() < 0),
        _ => None,
    };
    let from_west = beside_upright.or_else(|| of.x.range_of(x))?;
    let from_south = beside_level.or_else(|| of.y.range_of(y))?;
    Some(tile::of_ranges(from_west, from_south))
}

/// Whether an edge crosses the ray from a point to the east, "counting its
/// lower end and not its upper, horizontal edges never".
fn crosses_ray(edge: &Edge, x: Fraction, y: Fraction) -> bool {
    let lower = Fraction::from(edge.from.y.min(edge.to.y));
    let upper = Fraction::from(edge.from.y.max(edge.to.y));
    if !(lower..upper).contains(&y) {
        return false;
    }
    let way = (y - Fraction::from(edge.from.y)) / Fraction::from(edge.dy());
    let (crossing, _) = edge.at(way);
    x < crossing
}
