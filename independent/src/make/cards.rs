//! Cards, good and bad, and requests that load, write and report them.

use crate::card::{Parts, LONGEST};
use crate::check::{MOST_RINGS, MOST_VERTICES};
use crate::host::REPORT;
use crate::make::faults::{break_last_end, break_ring_length, outline_breaking};
use crate::make::random::Random;
use crate::make::regions;
use crate::make::text::{host_request, load_request};
use crate::region::Outline;
use crate::sheet::{COORDINATES, RECORDS, RELATIONS, SLOTS};

/// A card, and requests about it.
pub fn requests(random: &mut Random) -> Vec<String> {
    let card = card(random);
    let mut lines = Vec::new();
    let wrong_lengths = random.percent(3);
    if wrong_lengths {
        lines.push(format!("lend {COORDINATES} {} {RELATIONS}", RECORDS + 1));
    }
    lines.push(load_request(&card));
    if random.percent(50) {
        lines.push("sheet".to_owned());
    }
    if random.percent(60) {
        let length = random.pick(&[card.len().saturating_sub(1), card.len(), card.len() + 1, 0]);
        lines.push(format!("write {}", length.min(LONGEST + 1)));
    }
    for length in [REPORT, REPORT - 1, 100] {
        if random.percent(50) {
            lines.push(host_request(length, &card));
        }
    }
    if wrong_lengths {
        lines.push(format!("lend {COORDINATES} {RECORDS} {RELATIONS}"));
    }
    lines
}

/// A card of 0 to 40 random bytes, every length in turn, and requests about it.
pub fn short_requests(item: u64, random: &mut Random) -> Vec<String> {
    let length = item % 41;
    let card: Vec<u8> = (0..length).map(|_| random.any_byte()).collect();
    questions(&card)
}

/// Requests about every card that is the start of this one, without its end,
/// and every one that differs from it in one byte.
pub fn spoiled_requests(card: &[u8]) -> impl Iterator<Item = String> + '_ {
    let cuts = (0..card.len()).map(|length| card[..length].to_vec());
    let changes = (0..card.len()).flat_map(move |place| {
        (1..=255).map(move |change| {
            let mut other = card.to_vec();
            other[place] ^= change;
            other
        })
    });
    cuts.chain(changes).flat_map(|other| questions(&other))
}

/// What every call on a card's bytes has to say of them.
fn questions(card: &[u8]) -> Vec<String> {
    vec![
        load_request(card),
        "sheet".to_owned(),
        host_request(REPORT, card),
    ]
}

/// One card: good, broken in its numbers, or changed in its bytes.
pub fn card(random: &mut Random) -> Vec<u8> {
    match random.below(100) {
        0..=39 => good(random).bytes(),
        40..=79 => broken(random),
        80..=87 => {
            let mut card = good(random).bytes();
            let place = random.below(card.len());
            card[place] ^= random.between(1, 255) as u8;
            card
        }
        88..=91 => {
            let mut card = good(random).bytes();
            card.truncate(random.below(card.len()));
            card
        }
        92..=93 => beyond_limit(random),
        94..=96 => {
            let mut card = good(random).bytes();
            let more = random.pick(&[1, 2, 8, 40]);
            card.extend((0..more).map(|_| random.any_byte()));
            card
        }
        _ => {
            let length = random.below(41);
            (0..length).map(|_| random.any_byte()).collect()
        }
    }
}

/// A good card: of two parcels mostly, of none up to 32.
fn good(random: &mut Random) -> Parts {
    let count = match random.below(100) {
        0..=4 => 0,
        5..=14 => 1,
        15..=74 => 2,
        75..=96 => random.below(6) + 1,
        97..=98 => SLOTS,
        _ => return full(random),
    };
    let parcels: Vec<Outline> = (0..count).map(|_| regions::small_outline(random)).collect();
    parts(random, &parcels)
}

/// The longest card.
fn full(random: &mut Random) -> Parts {
    let parcel = |_| regions::full_outline(random, MOST_RINGS, MOST_VERTICES);
    let parcels: Vec<Outline> = (0..SLOTS).map(parcel).collect();
    parts(random, &parcels)
}

/// The parts of some parcels, in any slots.
fn parts(random: &mut Random, parcels: &[Outline]) -> Parts {
    let mut slots: Vec<u16> = (0..SLOTS as u16).collect();
    while slots.len() > parcels.len() {
        slots.remove(random.below(slots.len()));
    }
    let mut parts = Parts::default();
    for (slot, parcel) in slots.into_iter().zip(parcels) {
        parts.add(slot, parcel);
    }
    parts
}

/// A card that breaks one of the steps in which it is checked, and all, some or
/// none of the later ones.
fn broken(random: &mut Random) -> Vec<u8> {
    let lowest = random.pick(&[0, 1, 2, 2, 3, 4, 4, 4]);
    let chance = random.pick(&[0, 50, 100]);
    let [header, entries, ends, vertices, rings] =
        [0, 1, 2, 3, 4].map(|step| step == lowest || (step > lowest && random.percent(chance)));
    let count = random.pick(&[1, 2, 2, 2, 3, 4]);
    let mut parcels: Vec<Outline> = (0..count).map(|_| regions::small_outline(random)).collect();
    if rings {
        for _ in 0..random.pick(&[1, 1, 2]) {
            let rule = random.between(4, 7) as u16;
            let parcel = random.below(count);
            parcels[parcel] = outline_breaking(random, rule);
        }
    }
    if ends {
        for _ in 0..random.pick(&[1, 1, 2]) {
            let parcel = random.below(count);
            break_ends(random, &mut parcels[parcel].ends);
        }
    }
    let mut parts = parts(random, &parcels);
    if vertices {
        break_vertices(random, &mut parts.coordinates);
    }
    if entries {
        break_entries(random, &mut parts);
    }
    let mut card = parts.bytes();
    if header {
        break_header(random, &mut card);
    }
    card
}

/// Number 14 by a count alone: one parcel, ring or vertex more than a card has.
fn beyond_limit(random: &mut Random) -> Vec<u8> {
    let mut parts = full(random);
    match random.below(3) {
        0 => parts.add(SLOTS as u16, &Outline::default()),
        1 => parts.ends.push(MOST_VERTICES as u16),
        _ => parts.coordinates.extend([0, 0]),
    }
    parts.bytes()
}

/// Rule 2 or 3 within a parcel.
fn break_ends(random: &mut Random, ends: &mut [u16]) {
    if random.percent(70) {
        break_ring_length(random, ends);
    } else {
        break_last_end(random, ends);
    }
}

/// Number 16: more vertices than the ends say, or fewer.
fn break_vertices(random: &mut Random, coordinates: &mut Vec<i32>) {
    if random.percent(50) {
        coordinates.extend([random.any_i32(), random.any_i32()]);
    } else {
        coordinates.truncate(coordinates.len() - 2 * (1 + random.below(3)));
    }
}

/// Number 15, in one of its ways.
fn break_entries(random: &mut Random, parts: &mut Parts) {
    let place = random.below(parts.entries.len());
    let slot_before = place
        .checked_sub(1)
        .map(|before| parts.entries[before].slot);
    let entry = &mut parts.entries[place];
    match random.below(6) {
        0 => entry.slot = random.pick(&[32, 33, u16::MAX]),
        1 => entry.slot = slot_before.unwrap_or(32),
        2 => entry.rings = 0,
        3 => entry.rings = random.pick(&[9, 10, u16::MAX]),
        4 => entry.rings += 1,
        _ => parts.ends.push(random.any_u16()),
    }
}

/// Number 14: a count or an offset other than it was, or a header too short.
fn break_header(random: &mut Random, card: &mut Vec<u8>) {
    if random.percent(15) {
        card.truncate(random.below(12));
        return;
    }
    let place = 2 * random.below(6);
    let number = u16::from_le_bytes([card[place], card[place + 1]]);
    let other = match random.below(4) {
        0 => number.wrapping_add(1),
        1 => number.wrapping_sub(1),
        2 => number ^ 256,
        _ => number ^ (1 << random.below(16)),
    };
    card[place..place + 2].copy_from_slice(&other.to_le_bytes());
}
