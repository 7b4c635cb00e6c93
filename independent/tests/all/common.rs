//! What the tests share.

use independent::card::Parts;
use independent::check::check;
use independent::make::random::Random;
use independent::pair::{numbers, pair, NUMBERS};
use independent::plane::Point;
use independent::region::{Outline, Region};

/// A ring's vertices as the document writes them.
pub type Vertices = Vec<(i32, i32)>;

/// The document's A.
pub fn a() -> Vertices {
    vec![(0, 0), (0, 10), (10, 10), (10, 0)]
}

/// The document's C.
pub fn c() -> Vertices {
    vec![(5, 5), (5, 25), (25, 25), (25, 5)]
}

/// The four rectangles of the document's outline 7.
pub fn four_round_a() -> Vec<Vertices> {
    vec![
        rectangle(-10, 0, -10, 40),
        rectangle(0, 10, 10, 40),
        rectangle(0, 10, -10, 0),
        rectangle(10, 40, -10, 40),
    ]
}

/// A rectangle, x by y, clockwise from its south-west corner.
pub fn rectangle(west: i32, east: i32, south: i32, north: i32) -> Vertices {
    vec![(west, south), (west, north), (east, north), (east, south)]
}

pub fn outline(rings: &[Vertices]) -> Outline {
    let rings: Vec<Vec<Point>> = rings
        .iter()
        .map(|ring| ring.iter().map(|&(x, y)| Point { x, y }).collect())
        .collect();
    Outline::of_rings(rings.iter().map(Vec::as_slice))
}

/// The outline of one ring.
pub fn single(ring: Vertices) -> Outline {
    outline(&[ring])
}

/// A region that need not keep rules 4 to 7.
pub fn region(rings: &[Vertices]) -> Region {
    let Outline { ends, coordinates } = outline(rings);
    Region::new(&ends, &coordinates)
}

/// The set of tiles or directions of some names.
pub fn set(names: &str) -> u16 {
    const BITS: [[&str; 2]; 9] = [
        ["NW", "NW"],
        ["N", "N"],
        ["NE", "NE"],
        ["W", "W"],
        ["B", "O"],
        ["E", "E"],
        ["SW", "SW"],
        ["S", "S"],
        ["SE", "SE"],
    ];
    let bit = |name| BITS.iter().position(|names| names.contains(&name));
    names
        .split(':')
        .map(|name| 1 << bit(name).expect("the name of a tile"))
        .sum()
}

/// The opposite of bit k is bit 8-k.
pub fn opposite(directions: u16) -> u16 {
    (0..9)
        .filter(|bit| directions >> bit & 1 == 1)
        .map(|bit| 1 << (8 - bit))
        .sum()
}

/// The numbers of a pair answer.
pub fn pair_numbers(first: &Outline, second: &Outline) -> [u16; NUMBERS] {
    numbers(&pair(first, second))
}

/// The number, region and ring of a pair answer.
pub fn verdict(first: &Outline, second: &Outline) -> [u16; 3] {
    let numbers = pair_numbers(first, second);
    [numbers[0], numbers[1], numbers[2]]
}

/// The number and the ring of an outline's refusal, 0 and 0 if it is accepted.
pub fn number_and_ring(outline: &Outline) -> (u16, usize) {
    check(outline)
        .err()
        .map_or((0, 0), |broken| (broken.rule.number(), broken.ring))
}

/// Pairs of accepted regions of all the kinds that are invented.
pub fn accepted_pairs(count: usize, seed: u64) -> Vec<(Region, Region)> {
    let mut random = Random::new(seed);
    let drawn = (0..2 * count).map(|_| independent::make::pairs::pair(&mut random));
    let accepted = drawn.filter_map(|(first, second)| check(&first).ok().zip(check(&second).ok()));
    let pairs: Vec<_> = accepted.take(count).collect();
    assert_eq!(pairs.len(), count, "more than half are accepted");
    pairs
}

/// The parts of a card of some parcels.
pub fn parts(parcels: &[(u16, Outline)]) -> Parts {
    let mut parts = Parts::default();
    for (slot, outline) in parcels {
        parts.add(*slot, outline);
    }
    parts
}

/// The parts of the document's card: A in slot 0 and C in slot 3.
pub fn a_and_c() -> Parts {
    parts(&[(0, single(a())), (3, single(c()))])
}

/// The desk's answers to some requests.
pub fn ask(requests: &[u8]) -> Vec<String> {
    let mut output = Vec::new();
    independent::desk::run(requests, &mut output).expect("memory takes any answer");
    let text = String::from_utf8(output).expect("answers are plain text");
    text.lines().map(str::to_owned).collect()
}
