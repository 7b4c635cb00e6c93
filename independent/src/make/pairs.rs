//! Requests for the pair call, and some for the count of tiles.

use crate::check::{MOST_RINGS, MOST_VERTICES, RANGE};
use crate::make::faults::outline_breaking;
use crate::make::random::Random;
use crate::make::regions::{self, Rings};
use crate::make::rings;
use crate::make::text::{pair_request, tiles_request};
use crate::region::Outline;

/// One request.
pub fn request(random: &mut Random) -> String {
    if random.percent(2) {
        return tiles_request(random.any_u16());
    }
    let (first, second) = pair(random);
    pair_request(&first, &second)
}

/// Two outlines, of which one is refused in about a third of the pairs.
pub fn pair(random: &mut Random) -> (Outline, Outline) {
    match random.below(100) {
        0..=11 => (scattered_outline(random), scattered_outline(random)),
        12..=59 => small(random),
        60..=69 => wide(random),
        70..=77 => framed(random),
        78..=82 => (limit_outline(random), limit_outline(random)),
        83 => sawn(random),
        _ => faulty(random),
    }
}

/// One or two rings on a tiny grid, good by luck alone.
fn scattered_outline(random: &mut Random) -> Outline {
    let rings = random.pick(&[1, 1, 1, 2]);
    let mut ring = || {
        let vertices = random.pick(&[3, 3, 3, 4, 4, 5, 6]);
        rings::scattered(random, vertices)
    };
    let rings: Rings = (0..rings).map(|_| ring()).collect();
    regions::outline(&rings)
}

/// Two good outlines near the origin, now and then the same.
fn small(random: &mut Random) -> (Outline, Outline) {
    let first = regions::small_region(random);
    let mut second = regions::small_region(random);
    if random.percent(5) {
        second.clone_from(&first);
    }
    (regions::outline(&first), regions::outline(&second))
}

/// Two good outlines anywhere in the range, up to its ends and sometimes one
/// past.
fn wide(random: &mut Random) -> (Outline, Outline) {
    let mut first = regions::small_region(random);
    let mut second = regions::small_region(random);
    match random.below(5) {
        0..=1 => {
            first = vec![rings::wide_triangle(random)];
            second = vec![rings::wide_triangle(random)];
        }
        2..=3 => regions::stretch_to_range(random, &mut [&mut first, &mut second]),
        _ => regions::warp(random, &mut [&mut first, &mut second]),
    }
    if random.percent(20) {
        step_over_end(random, &mut first);
        step_over_end(random, &mut second);
    }
    (regions::outline(&first), regions::outline(&second))
}

/// Moves a coordinate at an end of the range one past it, if there is one.
fn step_over_end(random: &mut Random, rings: &mut Rings) {
    let points = rings.iter_mut().flatten();
    let numbers = points.flat_map(|point| [&mut point.x, &mut point.y]);
    let ends: Vec<&mut i32> = numbers.filter(|number| number.abs() == RANGE).collect();
    if !ends.is_empty() {
        let place = random.below(ends.len());
        if let Some(number) = ends.into_iter().nth(place) {
            *number += number.signum();
        }
    }
}

/// A region and four rectangles round it, either way.
pub fn framed(random: &mut Random) -> (Outline, Outline) {
    let inner = regions::small_region(random);
    let frame = regions::frame(random, &inner);
    either_way(random, &frame, &inner)
}

/// Nearly as many pieces as there can be, up to the ends of the range.
fn sawn(random: &mut Random) -> (Outline, Outline) {
    let (mut saw, mut rectangle) = regions::saw_and_rectangle(random);
    if random.percent(50) {
        regions::stretch_to_range(random, &mut [&mut saw, &mut rectangle]);
    }
    either_way(random, &saw, &rectangle)
}

pub fn either_way(random: &mut Random, one: &Rings, other: &Rings) -> (Outline, Outline) {
    let (one, other) = (regions::outline(one), regions::outline(other));
    if random.percent(50) {
        (one, other)
    } else {
        (other, one)
    }
}

/// 64 vertices or one more, in 8 rings or one more.
fn limit_outline(random: &mut Random) -> Outline {
    let (rings, vertices) = random.pick(&[
        (1, MOST_VERTICES),
        (1, MOST_VERTICES),
        (3, MOST_VERTICES),
        (MOST_RINGS, MOST_VERTICES),
        (MOST_RINGS, 3 * MOST_RINGS),
        (1, MOST_VERTICES + 1),
        (MOST_RINGS, MOST_VERTICES + 1),
        (MOST_RINGS + 1, MOST_VERTICES),
        (MOST_RINGS + 1, 3 * (MOST_RINGS + 1)),
    ]);
    regions::full_outline(random, rings, vertices)
}

/// A broken outline in region 1, in region 2 or in both.
pub fn faulty(random: &mut Random) -> (Outline, Outline) {
    let rule = random.between(1, 7) as u16;
    let broken = outline_breaking(random, rule);
    let other_rule = random.between(1, 7) as u16;
    match random.below(3) {
        0 => (broken, regions::small_outline(random)),
        1 => (regions::small_outline(random), broken),
        _ => (broken, outline_breaking(random, other_rule)),
    }
}
