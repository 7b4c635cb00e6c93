//! Regions, as they are lent and as rings of vertices. Document 01, "Outlines
//! that are accepted", first paragraph.

use crate::plane::{Bounds, Edge, Point};

/// A region as it is lent, whatever the two lists hold.
#[derive(Clone, Debug, Default, PartialEq, Eq)]
pub struct Outline {
    /// For each ring, the number of vertices up to its end.
    pub ends: Vec<u16>,
    /// x, y, x, y and so on.
    pub coordinates: Vec<i32>,
}

/// One polygon. The last vertex joins the first and is not repeated.
#[derive(Clone, Debug, PartialEq, Eq)]
pub struct Ring {
    vertices: Vec<Point>,
}

/// A region that keeps rules 1 to 3: one ring or more, of three vertices or
/// more each.
#[derive(Clone, Debug, PartialEq, Eq)]
pub struct Region {
    pub rings: Vec<Ring>,
}

impl Outline {
    /// The two lists of some rings of vertices.
    pub fn of_rings<'a>(rings: impl Iterator<Item = &'a [Point]>) -> Self {
        let mut outline = Self::default();
        for vertices in rings {
            let numbers = vertices.iter().flat_map(|vertex| [vertex.x, vertex.y]);
            outline.coordinates.extend(numbers);
            outline.ends.push((outline.coordinates.len() / 2) as u16);
        }
        outline
    }
}

impl Ring {
    pub fn vertices(&self) -> &[Point] {
        &self.vertices
    }

    /// The edges in order of travel, the one from the last vertex to the first
    /// included.
    pub fn edges(&self) -> Vec<Edge> {
        let next = self.vertices.iter().cycle().skip(1);
        let ends = self.vertices.iter().zip(next);
        ends.map(|(&from, &to)| Edge { from, to }).collect()
    }

    pub fn bounds(&self) -> Bounds {
        Bounds::over(self.vertices.iter())
    }
}

impl Region {
    /// The region of ring ends that keep rule 2 and of two coordinates for
    /// each vertex up to the last end.
    pub fn new(ends: &[u16], coordinates: &[i32]) -> Self {
        let points: Vec<Point> = coordinates
            .chunks_exact(2)
            .map(|pair| Point {
                x: pair[0],
                y: pair[1],
            })
            .collect();
        let starts = std::iter::once(&0).chain(ends);
        let rings = starts
            .zip(ends)
            .map(|(&start, &end)| Ring {
                vertices: points[usize::from(start)..usize::from(end)].to_vec(),
            })
            .collect();
        Self { rings }
    }

    /// The box over all rings.
    pub fn bounds(&self) -> Bounds {
        Bounds::over(self.rings.iter().flat_map(Ring::vertices))
    }

    /// The region as two lists again.
    pub fn outline(&self) -> Outline {
        Outline::of_rings(self.rings.iter().map(Ring::vertices))
    }
}
