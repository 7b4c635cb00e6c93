//! Which outlines are accepted. Document 01, "Outlines that are accepted",
//! rules 1 to 7: "lowest broken number first over the whole region".

use crate::meet::{shared, Shared};
use crate::plane::Edge;
use crate::refusal::Refusal;
use crate::region::{Outline, Region, Ring};

/// The most rings a region may have.
pub const MOST_RINGS: usize = 8;
/// The most vertices a region may have.
pub const MOST_VERTICES: usize = 64;
/// The greatest coordinate, and the least with its sign turned.
pub const RANGE: i32 = 1_000_000;

/// A broken rule, and the first ring that breaks it.
#[derive(Clone, Copy, Debug, PartialEq, Eq)]
pub struct Broken {
    pub rule: Refusal,
    pub ring: usize,
}

impl From<Broken> for Refusal {
    fn from(broken: Broken) -> Self {
        broken.rule
    }
}

/// The region of an outline, or the lowest rule that it breaks.
pub fn check(outline: &Outline) -> Result<Region, Broken> {
    let Outline { ends, coordinates } = outline;
    if ends.is_empty() || ends.len() > MOST_RINGS {
        return Err(of_region(Refusal::RingCount));
    }
    check_ends(ends)?;
    if coordinates.len() != 2 * last(ends) {
        return Err(of_region(Refusal::VertexCount));
    }
    let region = Region::new(ends, coordinates);
    check_rings(&region)?;
    Ok(region)
}

/// Rule 2, and the part of rule 3 that the ends alone decide.
pub fn check_ends(ends: &[u16]) -> Result<(), Broken> {
    let starts = std::iter::once(&0).chain(ends);
    let lengths = starts
        .zip(ends)
        .map(|(&start, &end)| i32::from(end) - i32::from(start));
    for (ring, length) in lengths.enumerate() {
        if length < 3 {
            let rule = Refusal::ShortRing;
            return Err(Broken { rule, ring });
        }
    }
    if last(ends) > MOST_VERTICES {
        return Err(of_region(Refusal::VertexCount));
    }
    Ok(())
}

/// Rules 4 to 7, of which each speaks of one ring.
pub fn check_rings(region: &Region) -> Result<(), Broken> {
    type IsBrokenBy = fn(&Ring) -> bool;
    let rules: [(Refusal, IsBrokenBy); 4] = [
        (Refusal::OutOfRange, is_out_of_range),
        (Refusal::RepeatedVertex, repeats_vertex),
        (Refusal::TouchesItself, touches_itself),
        (Refusal::NotClockwise, is_not_clockwise),
    ];
    for (rule, is_broken_by) in rules {
        if let Some(ring) = region.rings.iter().position(is_broken_by) {
            return Err(Broken { rule, ring });
        }
    }
    Ok(())
}

/// The number of vertices up to the end of the last ring.
pub fn last(ends: &[u16]) -> usize {
    ends.last().map_or(0, |&end| end.into())
}

/// Rule 4.
pub fn is_out_of_range(ring: &Ring) -> bool {
    let range = -RANGE..=RANGE;
    ring.vertices()
        .iter()
        .any(|vertex| !range.contains(&vertex.x) || !range.contains(&vertex.y))
}

/// Rule 5.
fn repeats_vertex(ring: &Ring) -> bool {
    ring.edges().iter().any(|edge| edge.from == edge.to)
}

/// Rule 6, for a ring that keeps rule 5. Neighbours share their common vertex,
/// so they share more than it exactly when they share a stretch.
fn touches_itself(ring: &Ring) -> bool {
    let edges = ring.edges();
    let is_bad_pair = |i: usize, j: usize| {
        let neighbours = j == i + 1 || (i == 0 && j == edges.len() - 1);
        match shared(&edges[i], &edges[j]) {
            Shared::Nothing => false,
            Shared::OnePoint => !neighbours,
            Shared::Stretch => true,
        }
    };
    (0..edges.len()).any(|i| (i + 1..edges.len()).any(|j| is_bad_pair(i, j)))
}

/// Rule 7.
fn is_not_clockwise(ring: &Ring) -> bool {
    let twice_area = |edge: &Edge| {
        i128::from(edge.from.x) * i128::from(edge.to.y)
            - i128::from(edge.to.x) * i128::from(edge.from.y)
    };
    ring.edges().iter().map(twice_area).sum::<i128>() >= 0
}

/// A broken rule that speaks of no ring names ring 0.
fn of_region(rule: Refusal) -> Broken {
    Broken { rule, ring: 0 }
}
