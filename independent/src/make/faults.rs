//! Outlines that break a chosen rule of document 01 and keep the lower ones,
//! with later rules broken too: the refusal must be the lowest number.

use crate::check::{MOST_RINGS, MOST_VERTICES, RANGE};
use crate::make::random::Random;
use crate::make::regions::{self, Rings};
use crate::make::rings::{enlarge, halfway, Vertices};
use crate::plane::Point;
use crate::region::Outline;

/// An outline whose lowest broken rule is this one, 1 to 7. All later rules are
/// broken too, or some, or none.
pub fn outline_breaking(random: &mut Random, rule: u16) -> Outline {
    let rules = rules_to_break(random, rule);
    let mut rings = regions::small_region(random);
    break_rings(random, &mut rings, &rules);
    let mut outline = regions::outline(&rings);
    for rule in (1..=3).rev().filter(|rule| rules.contains(rule)) {
        match rule {
            3 => break_vertex_count(random, &mut outline),
            2 => break_ring_length(random, &mut outline.ends),
            _ => break_ring_count(random, &mut outline.ends),
        }
    }
    outline
}

/// The rule and all, some or none of the later ones.
fn rules_to_break(random: &mut Random, rule: u16) -> Vec<u16> {
    let chance = random.pick(&[0, 50, 100]);
    let later = (rule + 1..=7).filter(|_| random.percent(chance));
    std::iter::once(rule).chain(later).collect()
}

/// Breaks those of rules 4 to 7 that are asked for, the latest first, each in
/// any ring.
fn break_rings(random: &mut Random, rings: &mut Rings, rules: &[u16]) {
    for rule in (4..=7).rev().filter(|rule| rules.contains(rule)) {
        let place = random.below(rings.len());
        let ring = &mut rings[place];
        match rule {
            7 => ring.reverse(),
            6 => touch_itself(random, ring),
            5 => repeat_vertex(random, ring),
            _ => leave_range(random, ring),
        }
    }
}

/// Rule 1: no ring, or more than 8.
fn break_ring_count(random: &mut Random, ends: &mut Vec<u16>) {
    if random.percent(50) {
        ends.clear();
        return;
    }
    let count = random.pick(&[MOST_RINGS + 1, MOST_RINGS + 1, 10, 64]);
    while ends.len() < count {
        let before = ends.last().map_or(0, |&end| end);
        ends.push(random.pick(&[before.saturating_add(3), before, 0, u16::MAX]));
    }
}

/// Rule 2: an end that stalls, falls, or comes too soon.
pub fn break_ring_length(random: &mut Random, ends: &mut [u16]) {
    let ring = random.below(ends.len());
    let before = ring.checked_sub(1).map_or(0, |before| ends[before]);
    ends[ring] = if random.percent(70) {
        before + random.below(3) as u16
    } else {
        random.below(usize::from(before) + 1) as u16
    };
}

/// Rule 3: a last end above 64, or coordinates that are not twice as many.
fn break_vertex_count(random: &mut Random, outline: &mut Outline) {
    let numbers = &mut outline.coordinates;
    match random.below(6) {
        0 => numbers.push(random.any_i32()),
        1 => numbers.truncate(numbers.len() - 1),
        2 => numbers.extend([random.any_i32(), random.any_i32()]),
        3 => numbers.clear(),
        _ => {
            break_last_end(random, &mut outline.ends);
            let vertices = outline.ends.last().map_or(0, |&end| usize::from(end));
            if vertices <= 100 {
                numbers.resize(2 * vertices, 7);
            }
        }
    }
}

/// The half of rule 3 that the ends decide.
pub fn break_last_end(random: &mut Random, ends: &mut [u16]) {
    let most = MOST_VERTICES as u16;
    if let Some(last) = ends.last_mut() {
        *last = random.pick(&[most + 1, most + 1, most + 2, 100, 1_000, u16::MAX]);
    }
}

/// Rule 4.
fn leave_range(random: &mut Random, ring: &mut Vertices) {
    let outside = random.pick(&[RANGE + 1, -RANGE - 1, i32::MAX, i32::MIN, 2 * RANGE]);
    let place = random.below(ring.len());
    if random.percent(50) {
        ring[place].x = outside;
    } else {
        ring[place].y = outside;
    }
}

/// Rule 5: a vertex repeated at once, or the first at the end.
fn repeat_vertex(random: &mut Random, ring: &mut Vertices) {
    let place = random.below(ring.len());
    if random.percent(30) {
        ring.push(ring[0]);
    } else {
        ring.insert(place, ring[place]);
    }
}

/// Rule 6, in one of the ways in which hands break it.
fn touch_itself(random: &mut Random, ring: &mut Vertices) {
    let place = random.below(ring.len());
    let vertex = ring[place];
    match random.below(5) {
        0 => {
            let (x, y) = random.pick(&[(1, 0), (0, 1), (-2, 3)]);
            let tip = Point {
                x: vertex.x + x,
                y: vertex.y + y,
            };
            ring.splice(place..place, [vertex, tip]);
        }
        1 => {
            // Between two vertices that are neither it nor follow it at once.
            let after = (place + 1 + random.below(ring.len() - 2)) % ring.len();
            ring.insert(after + 1, vertex);
        }
        2 => {
            enlarge(ring, 2);
            let middle = halfway(ring, place);
            let after = (place + 1 + random.below(ring.len() - 1)) % ring.len();
            ring.insert(after + 1, middle);
        }
        3 => *ring = named(&[(0, 0), (10, 10), (10, 0), (0, 10)]),
        _ => *ring = named(&[(0, 0), (5, 5), (10, 10)]),
    }
}

fn named(vertices: &[(i32, i32)]) -> Vertices {
    vertices.iter().map(|&(x, y)| Point { x, y }).collect()
}
