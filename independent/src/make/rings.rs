//! Rings that are accepted by the way they are built; the check of document 01
//! is not asked, so that it is tried and not repeated.

use crate::check::{MOST_VERTICES, RANGE};
use crate::make::random::Random;
use crate::plane::Point;

/// The vertices of a ring.
pub type Vertices = Vec<Point>;

/// A small ring of any kind, in any of the four quarter turns, sometimes
/// slanted, sometimes with vertices that go straight on.
pub fn small_ring(random: &mut Random) -> Vertices {
    let mut ring = match random.below(8) {
        0..=1 => small_rectangle(random),
        2..=3 => triangle(random),
        4..=5 => {
            let columns = random.between(2, 4);
            let heights: Vec<i32> = (0..columns).map(|_| random.between(1, 4)).collect();
            comb(&heights)
        }
        _ => {
            let vertices = random.between(4, 12) as usize;
            star(random, vertices)
        }
    };
    for _ in 0..random.below(4) {
        change(&mut ring, |point| (point.y, -point.x));
    }
    if random.percent(15) {
        let slant = random.pick(&[-1, 1, 2]);
        change(&mut ring, |point| (point.x + slant * point.y, point.y));
    }
    if random.percent(15) {
        enlarge(&mut ring, 2);
        let place = random.below(ring.len());
        let middle = halfway(&ring, place);
        ring.insert(place + 1, middle);
    }
    let (east, north) = (random.between(-4, 4), random.between(-4, 4));
    shift(&mut ring, east, north);
    let start = random.below(ring.len());
    ring.rotate_left(start);
    ring
}

/// A ring of exactly so many vertices, from 3 to 66.
pub fn ring_of(random: &mut Random, vertices: usize) -> Vertices {
    if (4..=MOST_VERTICES).contains(&vertices) && random.percent(50) {
        return star(random, vertices);
    }
    let columns = vertices / 2 - 1;
    let mut heights: Vec<i32> = (0..columns).map(|_| random.between(1, 9)).collect();
    for column in 1..columns {
        if heights[column] == heights[column - 1] {
            heights[column] += 10;
        }
    }
    if columns == 0 {
        return triangle(random);
    }
    let mut ring = comb(&heights);
    enlarge(&mut ring, 2);
    if ring.len() < vertices {
        ring.push(Point { x: 1, y: 0 });
    }
    ring
}

/// A triangle anywhere in the range.
pub fn wide_triangle(random: &mut Random) -> Vertices {
    loop {
        let corner = |random: &mut Random| Point {
            x: random.between(-RANGE, RANGE),
            y: random.between(-RANGE, RANGE),
        };
        let ring = vec![corner(random), corner(random), corner(random)];
        if let Some(ring) = made_clockwise(ring) {
            return ring;
        }
    }
}

/// A saw of 64 vertices, whose 62 long edges all cross what lies between x 130
/// and 160, y 1 and 198.
pub fn saw() -> Vertices {
    let top: Vertices = (0..32)
        .map(|tooth| Point {
            x: 4 * tooth,
            y: if tooth % 2 == 0 { 0 } else { 200 },
        })
        .collect();
    let back = top.iter().rev();
    let below: Vertices = back.map(|&Point { x, y }| Point { x, y: y - 1 }).collect();
    let mut saw = [top, below].concat();
    change(&mut saw, |point| (point.x + point.y, point.y));
    saw
}

/// A rectangle, clockwise from its south-west corner.
pub fn rectangle(west: i32, south: i32, east: i32, north: i32) -> Vertices {
    [(west, south), (west, north), (east, north), (east, south)]
        .map(|(x, y)| Point { x, y })
        .to_vec()
}

fn small_rectangle(random: &mut Random) -> Vertices {
    let (west, south) = (random.between(0, 3), random.between(0, 3));
    rectangle(
        west,
        south,
        random.between(west + 1, 4),
        random.between(south + 1, 4),
    )
}

fn triangle(random: &mut Random) -> Vertices {
    loop {
        if let Some(ring) = made_clockwise(scattered(random, 3)) {
            return ring;
        }
    }
}

/// So many points of a tiny grid, in any order: a ring by luck alone.
pub fn scattered(random: &mut Random, vertices: usize) -> Vertices {
    let point = |_| Point {
        x: random.between(0, 4),
        y: random.between(0, 4),
    };
    (0..vertices).map(point).collect()
}

/// Columns of some heights on one floor. Two of the same height leave a vertex
/// on their common top, at which the ring goes straight on.
fn comb(heights: &[i32]) -> Vertices {
    let floor = |x| Point { x, y: 0 };
    let mut ring = vec![floor(0)];
    for (x, &y) in (0..).zip(heights) {
        ring.extend([Point { x, y }, Point { x: x + 1, y }]);
    }
    ring.push(floor(heights.len() as i32));
    ring.dedup();
    ring
}

/// So many vertices, from 4 to 64, in clockwise order round the origin, which
/// sees them all: the four of the compass are among the directions, so no two
/// that follow each other are half a turn apart.
fn star(random: &mut Random, vertices: usize) -> Vertices {
    let mut directions = primitive_directions();
    while directions.len() > vertices {
        let place = random.below(directions.len());
        let Point { x, y } = directions[place];
        if x != 0 && y != 0 {
            directions.remove(place);
        }
    }
    for direction in &mut directions {
        let length = random.between(1, 3);
        direction.x *= length;
        direction.y *= length;
    }
    directions
}

/// All 80 directions of whole steps up to 5, clockwise from the north.
fn primitive_directions() -> Vertices {
    let steps = (1..=5).flat_map(|x| (1..=5).map(move |y| Point { x, y }));
    let mut quarter: Vertices = steps
        .filter(|step| (2..=5).all(|k| step.x % k != 0 || step.y % k != 0))
        .collect();
    quarter.sort_by(|a, b| (a.x * b.y).cmp(&(b.x * a.y)));
    quarter.insert(0, Point { x: 0, y: 1 });
    let mut all = Vec::new();
    for _ in 0..4 {
        all.extend(quarter.iter().copied());
        change(&mut quarter, |point| (point.y, -point.x));
    }
    all
}

/// The ring in clockwise order, if its three vertices are not on one line.
fn made_clockwise(mut ring: Vertices) -> Option<Vertices> {
    let [a, b, c] = [ring[0], ring[1], ring[2]].map(|p| (i64::from(p.x), i64::from(p.y)));
    let turn = (b.0 - a.0) * (c.1 - a.1) - (b.1 - a.1) * (c.0 - a.0);
    if turn > 0 {
        ring.reverse();
    }
    (turn != 0).then_some(ring)
}

/// The middle of an edge whose ends have even numbers.
pub fn halfway(ring: &[Point], edge: usize) -> Point {
    let (from, to) = (ring[edge], ring[(edge + 1) % ring.len()]);
    Point {
        x: (from.x + to.x) / 2,
        y: (from.y + to.y) / 2,
    }
}

pub fn enlarge(ring: &mut [Point], factor: i32) {
    change(ring, |point| (factor * point.x, factor * point.y));
}

pub fn shift(ring: &mut [Point], east: i32, north: i32) {
    change(ring, |point| (point.x + east, point.y + north));
}

pub fn change(ring: &mut [Point], place: impl Fn(Point) -> (i32, i32)) {
    for point in ring {
        let (x, y) = place(*point);
        *point = Point { x, y };
    }
}
