//! "The card": its layout, its refusals in their order, loading and writing.

use independent::card::{self, Parts, LONGEST};
use independent::host;
use independent::listing::listing;
use independent::make::cards as make;
use independent::make::random::Random;
use independent::make::regions::{full_outline, small_outline};
use independent::refusal::number;
use independent::region::Outline;

use crate::common::{a, a_and_c, c, outline, parts, rectangle, single, Vertices};
use crate::lists::Lists;

fn load_number(card: &[u8]) -> u16 {
    number(&card::read(card))
}

#[test]
fn the_layout_byte_by_byte() {
    let expected = [
        [2, 0, 2, 0, 8, 0, 12, 0, 20, 0, 24, 0].as_slice(),
        &[0, 0, 1, 0, 3, 0, 1, 0],
        &[4, 0, 4, 0],
        &[0, 0, 0, 0, 0, 0, 0, 0, 0, 0, 0, 0, 10, 0, 0, 0],
        &[10, 0, 0, 0, 10, 0, 0, 0, 10, 0, 0, 0, 0, 0, 0, 0],
        &[5, 0, 0, 0, 5, 0, 0, 0, 5, 0, 0, 0, 25, 0, 0, 0],
        &[25, 0, 0, 0, 25, 0, 0, 0, 25, 0, 0, 0, 5, 0, 0, 0],
    ]
    .concat();
    assert_eq!(a_and_c().bytes(), expected);
    let mut lists = Lists::empty();
    assert_eq!(lists.put(3, &single(c())), 0);
    assert_eq!(lists.put(0, &single(a())), 0);
    let mut buffer = vec![0xA5; 90];
    assert_eq!(card::write(&lists.lend(), &mut buffer), Ok(88));
    assert_eq!(buffer[..88], expected);
    assert_eq!(buffer[88..], [0xA5, 0xA5]);
}

#[test]
fn negative_numbers_are_little_endian_too() {
    let card = parts(&[(31, single(rectangle(-2, -1, -1_000_000, 3)))]).bytes();
    assert_eq!(
        card[18..26],
        [0xFE, 0xFF, 0xFF, 0xFF, 0xC0, 0xBD, 0xF0, 0xFF]
    );
    assert_eq!(load_number(&card), 0);
}

#[test]
fn a_card_without_parcels_has_twelve_bytes() {
    let card = Parts::default().bytes();
    assert_eq!(card, [0, 0, 0, 0, 0, 0, 12, 0, 12, 0, 12, 0]);
    assert_eq!(load_number(&card), 0);
    let mut buffer = [0xA5; 12];
    assert_eq!(card::write(&Lists::empty().lend(), &mut buffer), Ok(12));
    assert_eq!(buffer, card.as_slice());
}

#[test]
fn written_cards_load_as_the_same_parcels() {
    let mut random = Random::new(41);
    for _ in 0..50 {
        let mut lists = Lists::empty();
        for _ in 0..random.below(12) {
            let slot = random.below(32) as u16;
            assert_eq!(lists.put(slot, &small_outline(&mut random)), 0);
        }
        let mut buffer = vec![0; LONGEST];
        let length = card::write(&lists.lend(), &mut buffer).expect("room for any card");
        let mut loaded = Lists::empty();
        loaded.write_outline(7, &single(a()));
        assert_eq!(
            number(&card::load(&mut loaded.lend(), &buffer[..length])),
            0
        );
        assert_eq!(loaded, lists);
    }
}

#[test]
fn the_longest_card() {
    let mut random = Random::new(42);
    let mut lists = Lists::empty();
    for slot in 0..32 {
        assert_eq!(lists.put(slot, &full_outline(&mut random, 8, 64)), 0);
    }
    let mut buffer = vec![0; LONGEST];
    assert_eq!(card::write(&lists.lend(), &mut buffer), Ok(17_036));
    let mut loaded = Lists::empty();
    assert_eq!(number(&card::load(&mut loaded.lend(), &buffer)), 0);
    assert_eq!(loaded, lists);
    let short = &mut buffer[..LONGEST - 1];
    assert_eq!(number(&card::write(&lists.lend(), short)), 10);
}

#[test]
fn a_buffer_too_short_stays_as_it_was() {
    let mut lists = Lists::empty();
    assert_eq!(lists.put(0, &single(a())), 0);
    for length in 0..50 {
        let mut buffer = vec![0xA5; length];
        assert_eq!(number(&card::write(&lists.lend(), &mut buffer)), 10);
        assert_eq!(buffer, vec![0xA5; length]);
    }
    assert_eq!(card::write(&lists.lend(), &mut [0; 50]), Ok(50));
}

/// A card of A and C, changed in its parts.
fn changed(change: impl Fn(&mut Parts)) -> Vec<u8> {
    let mut parts = a_and_c();
    change(&mut parts);
    parts.bytes()
}

/// A card of A and C with another number in its header.
fn with_header(place: usize, value: u16) -> Vec<u8> {
    let mut card = a_and_c().bytes();
    card[2 * place..2 * place + 2].copy_from_slice(&value.to_le_bytes());
    card
}

#[test]
fn number_14() {
    let good = a_and_c().bytes();
    for length in 0..good.len() {
        assert_eq!(load_number(&good[..length]), 14, "cut to {length}");
    }
    for more in 1..20 {
        let longer = [good.as_slice(), &vec![0; more]].concat();
        assert_eq!(load_number(&longer), 14, "{more} more");
    }
    for (place, right) in [2, 2, 8, 12, 20, 24].into_iter().enumerate() {
        for value in [0, right - 1, right + 1, 33, 257, 2_049, u16::MAX] {
            assert_eq!(load_number(&with_header(place, value)), 14);
        }
        assert_eq!(load_number(&with_header(place, right)), 0);
    }
}

#[test]
fn counts_above_the_limits_are_14_with_all_else_fitting() {
    let triangle = || single(vec![(0, 0), (0, 9), (9, 0)]);
    let many: Vec<(u16, Outline)> = (0..33).map(|slot| (slot, triangle())).collect();
    assert_eq!(load_number(&parts(&many).bytes()), 14);
    assert_eq!(load_number(&parts(&many[..32]).bytes()), 0);

    let full: Vec<Vertices> = vec![vec![(0, 0), (0, 9), (9, 0)]; 8];
    let full: Vec<(u16, Outline)> = (0..32).map(|slot| (slot, outline(&full))).collect();
    let mut rings = parts(&full);
    assert_eq!(load_number(&rings.bytes()), 0);
    rings.ends.push(3);
    assert_eq!(load_number(&rings.bytes()), 14);

    let mut vertices = a_and_c();
    vertices.coordinates.resize(2 * 2_048, 0);
    assert_eq!(load_number(&vertices.bytes()), 16);
    vertices.coordinates.extend([0, 0]);
    assert_eq!(load_number(&vertices.bytes()), 14);
}

#[test]
fn number_15() {
    // Each breaks 2 or 3, 16 and rules 4 to 7 as well: 15 comes first.
    let spoil = |parts: &mut Parts| {
        parts.ends[0] = 1;
        parts.coordinates.truncate(6);
        parts.coordinates[0] = i32::MIN;
    };
    let changes: [fn(&mut Parts); 8] = [
        |parts| parts.entries[1].slot = 0,
        |parts| parts.entries[0].slot = 4,
        |parts| parts.entries[1].slot = 32,
        |parts| parts.entries[1].slot = u16::MAX,
        |parts| parts.entries[0].rings = 0,
        |parts| parts.entries[0].rings = 9,
        |parts| parts.entries[1].rings = 2,
        |parts| parts.ends.push(9),
    ];
    for change in changes {
        assert_eq!(load_number(&changed(change)), 15);
        let worse = |parts: &mut Parts| {
            change(parts);
            spoil(parts);
        };
        assert_eq!(load_number(&changed(worse)), 15);
    }
    let no_parcels = Parts {
        ends: vec![3; 5],
        ..Parts::default()
    };
    assert_eq!(load_number(&no_parcels.bytes()), 15);
    // A ring count of 0 is refused though the sum fits, and so is one above 8.
    let uneven = |first, second| {
        changed(move |parts| {
            parts.entries[0].rings = first;
            parts.entries[1].rings = second;
        })
    };
    assert_eq!(load_number(&uneven(0, 2)), 15);
    let nine = changed(|parts| {
        parts.ends.extend([7; 8]);
        parts.entries[1].rings = 9;
    });
    assert_eq!(load_number(&nine), 15);
}

#[test]
fn numbers_2_and_3_parcel_by_parcel_then_16() {
    let ends = |first, second| {
        changed(move |parts| {
            parts.ends = vec![first, second];
            parts.coordinates[0] = i32::MAX;
        })
    };
    assert_eq!(load_number(&ends(2, 4)), 2);
    assert_eq!(load_number(&ends(0, 65)), 2);
    assert_eq!(load_number(&ends(65, 2)), 3, "parcel 0 first");
    assert_eq!(load_number(&ends(4, 2)), 2);
    assert_eq!(load_number(&ends(4, u16::MAX)), 3);
    assert_eq!(load_number(&ends(4, 5)), 16);
    assert_eq!(load_number(&ends(3, 4)), 16);
    assert_eq!(load_number(&ends(64, 64)), 16);
    assert_eq!(load_number(&ends(5, 3)), 4, "the sum fits");
    let stalling = parts(&[(0, outline(&[a(), a()]))]);
    for second_end in [4, 3, 0] {
        let mut card = stalling.clone();
        card.ends[1] = second_end;
        assert_eq!(load_number(&card.bytes()), 2);
    }
    let no_parcels = Parts {
        coordinates: vec![0; 6],
        ..Parts::default()
    };
    assert_eq!(load_number(&no_parcels.bytes()), 16);
}

#[test]
fn numbers_4_to_7_parcel_by_parcel() {
    let turned: Vertices = a().into_iter().rev().collect();
    let touching = vec![(0, 0), (10, 10), (10, 0), (0, 10)];
    let repeated = vec![(0, 0), (0, 0), (0, 10), (10, 0)];
    let far = rectangle(0, 1_000_001, 0, 10);
    let bad = [(far, 4), (repeated, 5), (touching, 6), (turned, 7)];
    for (first, first_number) in &bad {
        for (second, second_number) in &bad {
            let two = |one: &Vertices, other: &Vertices| {
                parts(&[(0, single(one.clone())), (1, single(other.clone()))]).bytes()
            };
            assert_eq!(load_number(&two(first, second)), *first_number);
            assert_eq!(load_number(&two(&a(), second)), *second_number);
            let one_parcel = parts(&[(9, outline(&[first.clone(), second.clone()]))]);
            let lowest = (*first_number).min(*second_number);
            assert_eq!(load_number(&one_parcel.bytes()), lowest);
        }
    }
}

#[test]
fn a_refused_load_changes_nothing_and_a_good_one_replaces_all() {
    let mut random = Random::new(43);
    let mut lists = Lists::empty();
    let mut counts = [0; 2];
    for _ in 0..400 {
        let bytes = make::card(&mut random);
        let before = lists.clone();
        let outcome = card::load(&mut lists.lend(), &bytes);
        counts[usize::from(outcome.is_ok())] += 1;
        if outcome.is_err() {
            assert_eq!(lists, before);
        } else {
            let mut buffer = vec![0; LONGEST];
            let length = card::write(&lists.lend(), &mut buffer).expect("room for any card");
            assert_eq!(
                buffer[..length],
                bytes,
                "a good card is written again as it was"
            );
        }
    }
    assert!(counts.iter().all(|&count| count > 50), "{counts:?}");
}

#[test]
fn every_change_of_one_byte_has_an_answer() {
    let triangle = single(vec![(0, 0), (0, 10), (10, 0)]);
    let good = parts(&[(0, single(a())), (3, triangle)]).bytes();
    let mut times = [0; 18];
    for place in 0..good.len() {
        for change in 1..=255 {
            let mut card = good.clone();
            card[place] ^= change;
            let answer = load_number(&card);
            times[usize::from(answer)] += 1;
            assert_eq!(listing(&card).starts_with("refused "), answer != 0);
            let reported = host::report(&card, &mut [0; host::REPORT]);
            assert_eq!(number(&reported), answer);
        }
    }
    for number in [0, 2, 3, 4, 5, 6, 7, 14, 15, 16] {
        assert!(times[number] > 0, "number {number} came out");
    }
}
