//! Regions of rings that are accepted: small ones near the origin, so that
//! borders, corners and lines fall together, and others at the limits.

use crate::check::{MOST_RINGS, RANGE};
use crate::make::random::Random;
use crate::make::rings::{change, enlarge, rectangle, ring_of, saw, shift, small_ring, Vertices};
use crate::plane::Bounds;
use crate::region::Outline;

/// The rings of a region.
pub type Rings = Vec<Vertices>;

/// The outline of some rings.
pub fn outline(rings: &[Vertices]) -> Outline {
    Outline::of_rings(rings.iter().map(Vec::as_slice))
}

/// A region of few rings near the origin, of up to 40 vertices, within
/// -100..100. Rings lie apart, touch or overlap as it comes.
pub fn small_region(random: &mut Random) -> Rings {
    let most = random.pick(&[1, 1, 1, 1, 2, 2, 3, MOST_RINGS]);
    let mut rings: Rings = vec![small_ring(random)];
    while rings.len() < most {
        let ring = small_ring(random);
        let vertices = rings.iter().map(Vec::len).sum::<usize>();
        if vertices + ring.len() > 40 {
            break;
        }
        rings.push(ring);
    }
    rings
}

/// The outline of a small region.
pub fn small_outline(random: &mut Random) -> Outline {
    outline(&small_region(random))
}

/// An outline of exactly so many rings and vertices, three a ring at least.
pub fn full_outline(random: &mut Random, rings: usize, vertices: usize) -> Outline {
    let share = vertices / rings;
    let mut all: Rings = (1..rings).map(|_| ring_of(random, share)).collect();
    all.push(ring_of(random, vertices - share * (rings - 1)));
    for ring in &mut all {
        let (east, north) = (random.between(-40, 40), random.between(-40, 40));
        shift(ring, east, north);
    }
    outline(&all)
}

/// Four rectangles round the box of a region, like outline 7; or nearly so.
pub fn frame(random: &mut Random, region: &[Vertices]) -> Rings {
    let Bounds { x, y } = Bounds::over(region.iter().flatten());
    let [west, south, east, north] = [x.low, y.low, x.high, y.high].map(|line| line as i32);
    let margin = random.between(2, 9);
    let outer = [west - margin, south - margin, east + margin, north + margin];
    let gap = random.pick(&[0, 0, 0, 1]);
    let inner = [west - gap, south - gap, east + gap, north + gap];
    let mut rings = vec![
        rectangle(outer[0], outer[1], inner[0], outer[3]),
        rectangle(inner[0], inner[3], inner[2], outer[3]),
        rectangle(inner[0], outer[1], inner[2], inner[1]),
        rectangle(inner[2], outer[1], outer[2], outer[3]),
    ];
    match random.below(6) {
        0 => {
            rings.remove(random.below(4));
        }
        1 => rings.push(rectangle(west, south, west + 1, south + 1)),
        2 => rings = vec![rectangle(outer[0], outer[1], outer[2], outer[3])],
        _ => {}
    }
    rings
}

/// A saw and a rectangle, all four lines of which cut each long edge of the
/// saw: nearly as many pieces as there can be.
pub fn saw_and_rectangle(random: &mut Random) -> (Rings, Rings) {
    let (west, south) = (random.between(130, 150), random.between(1, 180));
    let (east, north) = (west + random.between(1, 9), south + random.between(1, 9));
    (vec![saw()], vec![rectangle(west, south, east, north)])
}

/// Stretches regions together until they reach the ends of the range.
pub fn stretch_to_range(random: &mut Random, regions: &mut [&mut Rings]) {
    let points = regions.iter().flat_map(|rings| rings.iter().flatten());
    let reaches = points.map(|point| point.x.abs().max(point.y.abs()));
    let reach = reaches.fold(1, i32::max);
    let factor = RANGE / reach;
    let rest = RANGE - factor * reach;
    let slide = random.pick(&[-rest, 0, rest]);
    for ring in regions.iter_mut().flat_map(|rings| rings.iter_mut()) {
        enlarge(ring, factor);
        shift(ring, slide, slide);
    }
}

/// Turns and slants small regions together, to coordinates of many digits. The
/// sense of turning stays, as the map's determinant is above 0.
pub fn warp(random: &mut Random, regions: &mut [&mut Rings]) {
    let mut factor = || random.between(-4_900, 4_900);
    let map = loop {
        let map = [factor(), factor(), factor(), factor()];
        if map[0] * map[3] > map[1] * map[2] {
            break map;
        }
    };
    for ring in regions.iter_mut().flat_map(|rings| rings.iter_mut()) {
        change(ring, |point| {
            (
                map[0] * point.x + map[1] * point.y,
                map[2] * point.x + map[3] * point.y,
            )
        });
    }
}
