//! Document 02, L12: a point that a polygon encloses, strictly inside a tile of the other region's
//! box, has its tile in the relation. Crossings are counted here anew, by where an edge is at the
//! height of the point.

use independent::fraction::Fraction;
use independent::make::random::Random;
use independent::plane::{Bounds, Edge, Point};
use independent::region::{Region, Ring};
use independent::relation::{encloses, relation};

use crate::common::{a, accepted_pairs, rectangle, region, set, Vertices};

type Pin = (Fraction, Fraction);

fn pin(x: i128, y: i128, below: i128) -> Pin {
    (Fraction::new(x, below), Fraction::new(y, below))
}

/// The rays and ends by which a crossing may be counted.
#[derive(Clone, Copy)]
enum Counting {
    East,
    West,
    EastWithUpperEnds,
}

fn crosses(edge: &Edge, (x, y): Pin, counting: Counting) -> bool {
    let (low, high) = (edge.from.y.min(edge.to.y), edge.from.y.max(edge.to.y));
    if low == high || y < Fraction::from(low) || y > Fraction::from(high) {
        return false;
    }
    let upper_end = y == Fraction::from(high);
    let way = (y - Fraction::from(edge.from.y)) / Fraction::from(edge.dy());
    let there = edge.at(way).0;
    match counting {
        Counting::East => !upper_end && there > x,
        Counting::West => !upper_end && there < x,
        Counting::EastWithUpperEnds => there > x,
    }
}

fn crossings(ring: &Ring, pin: Pin, counting: Counting) -> usize {
    let edges = ring.edges();
    edges
        .iter()
        .filter(|edge| crosses(edge, pin, counting))
        .count()
}

fn is_odd(ring: &Ring, pin: Pin, counting: Counting) -> bool {
    crossings(ring, pin, counting) % 2 == 1
}

/// Whether a point is on an edge, ends included.
fn is_on(edge: &Edge, (x, y): Pin) -> bool {
    let within = |place, one: i32, other: i32| {
        Fraction::from(one.min(other)) <= place && place <= Fraction::from(one.max(other))
    };
    let (east, north) = (
        x - Fraction::from(edge.from.x),
        y - Fraction::from(edge.from.y),
    );
    within(x, edge.from.x, edge.to.x)
        && within(y, edge.from.y, edge.to.y)
        && east * Fraction::from(edge.dy()) == north * Fraction::from(edge.dx())
}

/// A coordinate of a pin: that of a vertex, one between two vertices, or one close to a line.
fn coordinate(random: &mut Random, places: &[i32], lines: [i128; 2]) -> Fraction {
    let one = Fraction::from(random.pick(places));
    match random.below(4) {
        0 => one,
        1 => one.halfway(Fraction::from(random.pick(places))),
        2 => one + Fraction::new(i128::from(random.between(-2, 2)), 3),
        _ => {
            Fraction::from(random.pick(&lines))
                + Fraction::new(i128::from(random.between(-3, 3)), 5)
        }
    }
}

/// Pins in and around a region: eight a ring, and a point of each of its edges.
fn pins(random: &mut Random, region: &Region, bounds: &Bounds) -> Vec<Pin> {
    let mut pins = Vec::new();
    for ring in &region.rings {
        let xs: Vec<i32> = ring.vertices().iter().map(|&Point { x, .. }| x).collect();
        let ys: Vec<i32> = ring.vertices().iter().map(|&Point { y, .. }| y).collect();
        for _ in 0..8 {
            let x = coordinate(random, &xs, bounds.x.lines());
            pins.push((x, coordinate(random, &ys, bounds.y.lines())));
        }
        let way = Fraction::new(i128::from(random.between(0, 4)), 4);
        pins.extend(ring.edges().iter().map(|edge| edge.at(way)));
    }
    pins
}

/// Asks every pin of 2,000 pairs, and every ring of the first region.
fn for_pins(seed: u64, mut ask: impl FnMut(&Region, &Ring, Pin, Option<u16>, u16)) {
    let mut random = Random::new(seed);
    for (first, second) in accepted_pairs(2_000, seed) {
        let bounds = second.bounds();
        let tiles = relation(&first, &bounds);
        for pin in pins(&mut random, &first, &bounds) {
            let tile = bounds.tile_of(pin.0, pin.1);
            for ring in &first.rings {
                ask(&first, ring, pin, tile, tiles);
            }
        }
    }
}

#[test]
fn an_enclosed_pin_lies_in_a_tile_of_the_relation() {
    let mut found = [0; 9];
    for_pins(21, |region, ring, pin, tile, tiles| {
        let odd = is_odd(ring, pin, Counting::East);
        assert_eq!(odd, encloses(ring, pin), "{ring:?} {pin:?}");
        if let (true, Some(tile)) = (odd, tile) {
            assert_ne!(tiles & tile, 0, "{region:?} {pin:?}");
            found[tile.trailing_zeros() as usize] += 1;
        }
    });
    assert!(found.iter().all(|&pins| pins > 100), "{found:?}");
}

#[test]
fn a_ray_to_the_west_differs_on_edges_only_and_promises_the_same() {
    let mut differ = 0;
    for_pins(22, |region, ring, pin, tile, tiles| {
        let (east, west) = (
            is_odd(ring, pin, Counting::East),
            is_odd(ring, pin, Counting::West),
        );
        if east != west {
            differ += 1;
            assert!(
                ring.edges().iter().any(|edge| is_on(edge, pin)),
                "{ring:?} {pin:?}"
            );
        }
        if let (true, Some(tile)) = (west, tile) {
            assert_ne!(tiles & tile, 0, "{region:?} {pin:?}");
        }
    });
    assert!(differ > 1_000, "only {differ} pins are told apart");
}

#[test]
fn outside_its_box_a_ring_is_crossed_an_even_number_of_times() {
    let mut outside = 0;
    for_pins(23, |_, ring, pin, _, _| {
        let own = ring.bounds();
        let is_in = |place, [low, high]: [i128; 2]| {
            Fraction::from(low) <= place && place <= Fraction::from(high)
        };
        if !(is_in(pin.0, own.x.lines()) && is_in(pin.1, own.y.lines())) {
            outside += 1;
            assert!(!is_odd(ring, pin, Counting::East), "{ring:?} {pin:?}");
        }
    });
    assert!(outside > 1_000, "only {outside} pins lie outside");
}

fn one_ring(vertices: Vertices) -> (Region, Ring) {
    let region = region(&[vertices]);
    let ring = region.rings[0].clone();
    (region, ring)
}

/// The pins of `docs/TEACHING.md`: how many edges each ray meets, and the pin's tile.
fn taught(ring: &Ring, bounds: &Bounds, pins: &[(Pin, usize, &str)]) {
    for &(pin, count, tile) in pins {
        assert_eq!(crossings(ring, pin, Counting::East), count, "{pin:?}");
        assert_eq!(bounds.tile_of(pin.0, pin.1), Some(set(tile)), "{pin:?}");
    }
}

#[test]
fn the_pins_that_are_taught() {
    let (large, ring) = one_ring(rectangle(-10, 40, -10, 40));
    let bounds = region(&[a()]).bounds();
    assert_eq!(relation(&large, &bounds), 511);
    let pins = [
        (pin(5, 5, 2), 1, "B"),
        (pin(25, 5, 1), 1, "E"),
        (pin(-21, 10, 2), 2, "W"),
        (pin(-20, -10, 1), 2, "SW"),
        (pin(-20, 40, 1), 0, "NW"),
    ];
    taught(&ring, &bounds, &pins);

    let notch = [
        (0, 0),
        (0, 30),
        (10, 30),
        (10, 10),
        (20, 10),
        (20, 30),
        (30, 30),
        (30, 0),
    ];
    let (notched, ring) = one_ring(notch.to_vec());
    let bounds = region(&[rectangle(12, 18, 15, 25)]).bounds();
    assert_eq!(relation(&notched, &bounds), set("NW:NE:W:E:SW:S:SE"));
    let pins = [
        (pin(5, 20, 1), 3, "W"),
        (pin(15, 20, 1), 2, "B"),
        (pin(15, 5, 1), 1, "S"),
        (pin(5, 10, 1), 3, "SW"),
    ];
    taught(&ring, &bounds, &pins);
}

#[test]
fn on_a_line_or_with_upper_ends_it_would_be_false() {
    let (square, ring) = one_ring(a());
    let west_side = pin(0, 5, 1);
    assert_eq!(crossings(&ring, west_side, Counting::East), 1);
    assert_eq!(crossings(&ring, west_side, Counting::West), 0);
    assert_eq!(square.bounds().tile_of(west_side.0, west_side.1), None);
    assert_eq!(relation(&square, &square.bounds()), set("B"));

    let (triangle, ring) = one_ring(vec![(0, 0), (0, 10), (10, 5)]);
    let beside = pin(-5, 5, 1);
    assert_eq!(crossings(&ring, beside, Counting::East), 2);
    assert_eq!(crossings(&ring, beside, Counting::EastWithUpperEnds), 3);
    assert_eq!(
        triangle.bounds().tile_of(beside.0, beside.1),
        Some(set("W"))
    );
    assert_eq!(relation(&triangle, &triangle.bounds()), set("B"));
}
