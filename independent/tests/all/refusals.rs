//! Rules 1 to 7: the lowest number, the region and the ring that are named.

use independent::check::check;
use independent::make::faults::outline_breaking;
use independent::make::random::Random;
use independent::make::regions::{self, full_outline, small_outline};
use independent::make::rings;
use independent::region::Outline;

use crate::common::{
    a, c, number_and_ring, outline, pair_numbers, rectangle, single, verdict, Vertices,
};

fn lists(ends: &[u16], coordinates: &[i32]) -> Outline {
    Outline {
        ends: ends.to_vec(),
        coordinates: coordinates.to_vec(),
    }
}

fn with_ring(ring: &[(i32, i32)]) -> (u16, usize) {
    number_and_ring(&single(ring.to_vec()))
}

#[test]
fn rules_1_to_3_look_at_the_lists() {
    let a_numbers = single(a()).coordinates;
    let expected = [
        (lists(&[], &[]), (1, 0)),
        (lists(&[], &[i32::MAX; 7]), (1, 0)),
        (lists(&[0; 9], &[]), (1, 0)),
        (lists(&[3, 6, 9, 12, 15, 18, 21, 24, 27], &[0; 54]), (1, 0)),
        (lists(&[2], &[0, 0, 0, 10]), (2, 0)),
        (lists(&[0], &[]), (2, 0)),
        (lists(&[4, 4], &a_numbers), (2, 1)),
        (lists(&[4, 3], &a_numbers), (2, 1)),
        (lists(&[4, 6, 8], &[0; 16]), (2, 1)),
        (lists(&[u16::MAX, 0], &[]), (2, 1)),
        (lists(&[u16::MAX, u16::MAX], &[]), (2, 1)),
        (lists(&[70, 2], &[]), (2, 1)),
        (lists(&[70], &[0; 140]), (3, 0)),
        (lists(&[u16::MAX], &[]), (3, 0)),
        (lists(&[3], &[0, 0, 0, 10, 10]), (3, 0)),
        (lists(&[3], &[0, 0, 0, 10, 10, 0, 5]), (3, 0)),
        (lists(&[3], &a_numbers), (3, 0)),
        (lists(&[5], &a_numbers), (3, 0)),
        (lists(&[4], &a_numbers), (0, 0)),
    ];
    for (outline, verdict) in expected {
        assert_eq!(number_and_ring(&outline), verdict, "{outline:?}");
    }
}

#[test]
fn rule_4_at_the_ends_of_the_range_and_of_the_type() {
    for end in [1_000_000, -1_000_000] {
        assert_eq!(with_ring(&[(0, 0), (0, end), (end, end)]), (0, 0));
    }
    for outside in [1_000_001, -1_000_001, i32::MAX, i32::MIN] {
        assert_eq!(with_ring(&[(0, 0), (0, 10), (outside, 10)]), (4, 0));
        assert_eq!(with_ring(&[(0, 0), (0, outside), (10, 10)]), (4, 0));
    }
}

#[test]
fn rule_5_looks_from_the_last_vertex_to_the_first_too() {
    assert_eq!(with_ring(&[(0, 0), (0, 10), (0, 10), (10, 0)]), (5, 0));
    assert_eq!(with_ring(&[(0, 0), (0, 10), (10, 0), (0, 0)]), (5, 0));
    assert_eq!(with_ring(&[(5, 5), (5, 5), (5, 5)]), (5, 0));
}

#[test]
fn rule_6_refuses_what_touches() {
    let refused: [&[(i32, i32)]; 6] = [
        // A vertex on another edge.
        &[(0, 0), (0, 10), (5, 0), (10, 10), (10, 0)],
        // A vertex visited twice.
        &[(0, 0), (0, 10), (5, 5), (10, 10), (10, 0), (5, 5)],
        // A spike outwards, and one inwards.
        &[(0, 0), (0, 20), (0, 10), (10, 10), (10, 0)],
        &[(0, 0), (0, 10), (10, 10), (5, 5), (10, 10), (10, 0)],
        // Two edges over the same stretch.
        &[(0, 0), (0, 10), (4, 10), (4, 0), (2, 0), (8, 0), (8, -2)],
        // The last edge back over the first.
        &[(0, 0), (0, 10), (0, 5)],
    ];
    for ring in refused {
        assert_eq!(with_ring(ring), (6, 0), "{ring:?}");
    }
}

#[test]
fn rule_6_accepts_vertices_that_go_straight_on() {
    assert_eq!(
        with_ring(&[(0, 0), (0, 5), (0, 10), (10, 10), (10, 0)]),
        (0, 0)
    );
    assert_eq!(
        with_ring(&[(5, 0), (0, 0), (0, 10), (10, 10), (10, 0)]),
        (0, 0)
    );
    assert_eq!(with_ring(&[(0, 0), (3, 4), (6, 8), (9, 0), (4, 0)]), (0, 0));
}

#[test]
fn different_rings_are_never_compared() {
    assert_eq!(number_and_ring(&outline(&[a(), a(), c()])), (0, 0));
}

#[test]
fn the_ring_named_is_the_first_that_breaks_that_number() {
    let turned: Vertices = a().into_iter().rev().collect();
    let repeated = vec![(0, 0), (0, 0), (0, 10), (10, 0)];
    let touching = vec![(0, 0), (10, 10), (10, 0), (0, 10)];
    let far = rectangle(0, 2_000_000, 0, 10);
    let expected: [(&[Vertices], (u16, usize)); 5] = [
        (&[turned.clone(), a(), repeated.clone()], (5, 2)),
        (&[a(), turned.clone(), a(), turned.clone()], (7, 1)),
        (
            &[turned.clone(), touching.clone(), touching.clone()],
            (6, 1),
        ),
        (&[turned, repeated.clone(), touching.clone(), far], (4, 3)),
        (&[touching, a(), repeated.clone(), repeated], (5, 2)),
    ];
    for (rings, verdict) in expected {
        assert_eq!(number_and_ring(&outline(rings)), verdict);
    }
}

#[test]
fn the_lowest_number_is_given_with_every_later_rule_broken_too() {
    // One outline after the other, each with one more of the low rules mended.
    let bad = [0, 0, 10, 10, 10, 0, 0, 10, 0, 0, 0, 0, 0, 0, 1_000_001, 0];
    let mut repeated = bad;
    repeated[14] = 0;
    let touching = &bad[..8];
    let cascade = [
        (lists(&[], &bad[1..]), 1),
        (lists(&[4, 5], &bad[1..]), 2),
        (lists(&[4, 70], &bad[1..]), 3),
        (lists(&[4, 8], &bad[1..]), 3),
        (lists(&[4, 8], &bad), 4),
        (lists(&[4, 8], &repeated), 5),
        (lists(&[4], touching), 6),
        (lists(&[4], &[0, 0, 10, 0, 10, 10, 0, 10]), 7),
        (lists(&[4], &[0, 10, 10, 10, 10, 0, 0, 0]), 0),
    ];
    for (outline, number) in cascade {
        assert_eq!(number_and_ring(&outline).0, number, "{outline:?}");
    }
}

#[test]
fn invented_faults_are_refused_by_the_number_asked_for() {
    let mut random = Random::new(11);
    for rule in 1..=7 {
        for _ in 0..400 {
            let broken = outline_breaking(&mut random, rule);
            assert_eq!(number_and_ring(&broken).0, rule, "{broken:?}");
        }
    }
}

#[test]
fn region_1_is_checked_wholly_first() {
    let mut random = Random::new(12);
    for first_rule in 1..=7 {
        for second_rule in 1..=7 {
            let first = outline_breaking(&mut random, first_rule);
            let second = outline_breaking(&mut random, second_rule);
            let good = small_outline(&mut random);
            let (first_ring, second_ring) = (
                number_and_ring(&first).1 as u16,
                number_and_ring(&second).1 as u16,
            );
            assert_eq!(verdict(&first, &second), [first_rule, 1, first_ring]);
            assert_eq!(verdict(&first, &good), [first_rule, 1, first_ring]);
            assert_eq!(verdict(&good, &second), [second_rule, 2, second_ring]);
            assert_eq!(pair_numbers(&first, &second)[3..], [0; 16]);
            assert_eq!(pair_numbers(&good, &second)[3..], [0; 16]);
        }
    }
}

fn assert_accepted(outline: &Outline) {
    assert_eq!(check(outline).err(), None, "{outline:?}");
}

#[test]
fn what_is_built_to_be_accepted_is_accepted() {
    let mut random = Random::new(13);
    for _ in 0..1_000 {
        assert_accepted(&small_outline(&mut random));
        assert_accepted(&regions::outline(&[rings::wide_triangle(&mut random)]));
        let mut region = regions::small_region(&mut random);
        assert_accepted(&regions::outline(&regions::frame(&mut random, &region)));
        regions::warp(&mut random, &mut [&mut region]);
        assert_accepted(&regions::outline(&region));
        let mut region = regions::small_region(&mut random);
        regions::stretch_to_range(&mut random, &mut [&mut region]);
        assert_accepted(&regions::outline(&region));
    }
    assert_accepted(&regions::outline(&[rings::saw()]));
    for (rings, vertices) in [(1, 64), (2, 64), (3, 64), (8, 64), (8, 24)] {
        for _ in 0..50 {
            let outline = full_outline(&mut random, rings, vertices);
            assert_eq!(outline.coordinates.len(), 2 * vertices);
            assert_accepted(&outline);
        }
    }
}

/// Rule 6 by the signs of turns, as textbooks have it: another method than the
/// program's.
mod by_turns {
    type Point = (i32, i32);

    fn turn(a: Point, b: Point, c: Point) -> i32 {
        ((b.0 - a.0) * (c.1 - a.1) - (b.1 - a.1) * (c.0 - a.0)).signum()
    }

    /// Whether a point is on an edge, ends included.
    fn is_on(point: Point, from: Point, to: Point) -> bool {
        turn(from, to, point) == 0
            && (from.0.min(to.0)..=from.0.max(to.0)).contains(&point.0)
            && (from.1.min(to.1)..=from.1.max(to.1)).contains(&point.1)
    }

    fn share_a_point(a: Point, b: Point, c: Point, d: Point) -> bool {
        let cross = turn(a, b, c) * turn(a, b, d) < 0 && turn(c, d, a) * turn(c, d, b) < 0;
        cross || is_on(c, a, b) || is_on(d, a, b) || is_on(a, c, d) || is_on(b, c, d)
    }

    pub fn breaks_rule_6(ring: &[Point]) -> bool {
        let count = ring.len();
        let at = |place: usize| ring[place % count];
        let fold_back = |place| {
            // Neighbours share more than their vertex when a far end of one is
            // on the other.
            let (before, vertex, after) = (at(place), at(place + 1), at(place + 2));
            is_on(before, vertex, after) || is_on(after, before, vertex)
        };
        let strangers = |i: usize, j: usize| {
            let are_neighbours = (i + 1) % count == j || (j + 1) % count == i;
            !are_neighbours && share_a_point(at(i), at(i + 1), at(j), at(j + 1))
        };
        (0..count).any(fold_back) || (0..count).any(|i| (0..i).any(|j| strangers(i, j)))
    }
}

#[test]
fn rule_6_on_every_ring_of_a_tiny_grid() {
    let grid: Vec<(i32, i32)> = (0..9).map(|place| (place % 3, place / 3)).collect();
    let mut counts = [0; 2];
    for vertices in 3..=5 {
        for code in 0..9_usize.pow(vertices) {
            let ring: Vertices = (0..vertices)
                .map(|place| grid[code / 9_usize.pow(place) % 9])
                .collect();
            let number = with_ring(&ring).0;
            if number == 5 {
                continue;
            }
            let breaks = by_turns::breaks_rule_6(&ring);
            assert_eq!(number == 6, breaks, "{ring:?}");
            counts[usize::from(breaks)] += 1;
        }
    }
    assert!(counts[0] > 1_000 && counts[1] > 1_000, "{counts:?}");
}
