//! Requests for the drawn matrix: pairs whose boxes share lines or touch in a
//! corner, one inside the other, one round the other; refused ones; and any.

use crate::make::pairs::{self, either_way};
use crate::make::random::Random;
use crate::make::regions::{self, small_region, Rings};
use crate::make::rings::{enlarge, shift};
use crate::make::text::drawn_request;
use crate::plane::{Bounds, Span};
use crate::region::Outline;

/// One request.
pub fn request(random: &mut Random) -> String {
    let (first, second) = pair(random);
    drawn_request(&first, &second)
}

fn pair(random: &mut Random) -> (Outline, Outline) {
    match random.below(100) {
        0..=39 => beside(random),
        40..=59 => inside(random),
        60..=74 => pairs::framed(random),
        75..=86 => pairs::faulty(random),
        _ => pairs::pair(random),
    }
}

/// Two regions of which one is moved until lines of the boxes fall together, in
/// one axis or in both: along a border, or in a corner.
fn beside(random: &mut Random) -> (Outline, Outline) {
    let first = small_region(random);
    let mut second = small_region(random);
    enlarge_all(&mut second, random.pick(&[1, 1, 1, 2, 3]));
    let (one, other) = (bounds(&first), bounds(&second));
    let (east, north) = (slide(random, one.x, other.x), slide(random, one.y, other.y));
    shift_all(&mut second, east, north);
    placed(random, first, second)
}

/// How far one box is moved along an axis, so that its lines fall on another's,
/// its middle does, or they stay where they are.
fn slide(random: &mut Random, one: Span, other: Span) -> i32 {
    let way = match random.below(7) {
        0 => one.low - other.low,
        1 => one.low - other.high,
        2 => one.high - other.low,
        3 => one.high - other.high,
        4 => (one.low + one.high - other.low - other.high) / 2,
        _ => 0,
    };
    way as i32
}

/// A region in the box of a larger one, at its lines or off them.
fn inside(random: &mut Random) -> (Outline, Outline) {
    let mut large = small_region(random);
    let factor = random.between(2, 9);
    enlarge_all(&mut large, factor);
    let mut small = small_region(random);
    let (one, other) = (bounds(&large), bounds(&small));
    let mut way = |one: Span, other: Span| {
        let rest = (one.high - one.low - other.high + other.low).max(0) as i32;
        let step = random.between(0, rest);
        random.pick(&[0, step, step, rest]) + (one.low - other.low) as i32
    };
    let (east, north) = (way(one.x, other.x), way(one.y, other.y));
    shift_all(&mut small, east, north);
    placed(random, large, small)
}

/// The outlines either way round, now and then stretched to the range's ends.
fn placed(random: &mut Random, mut one: Rings, mut other: Rings) -> (Outline, Outline) {
    if random.percent(10) {
        regions::stretch_to_range(random, &mut [&mut one, &mut other]);
    }
    either_way(random, &one, &other)
}

fn bounds(rings: &Rings) -> Bounds {
    Bounds::over(rings.iter().flatten())
}

fn enlarge_all(rings: &mut Rings, factor: i32) {
    rings.iter_mut().for_each(|ring| enlarge(ring, factor));
}

fn shift_all(rings: &mut Rings, east: i32, north: i32) {
    rings.iter_mut().for_each(|ring| shift(ring, east, north));
}
