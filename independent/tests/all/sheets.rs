//! "The sheet", and the third condition of the tender: any run of calls leaves
//! the sheet that the parcels now standing give.

use std::collections::BTreeMap;

use independent::card;
use independent::make::cards;
use independent::make::faults::outline_breaking;
use independent::make::random::Random;
use independent::make::regions::small_outline;
use independent::refusal::number;
use independent::region::Outline;

use crate::common::{a, c, set, single};
use crate::lists::Lists;

#[test]
fn any_run_of_calls_leaves_what_a_fresh_sheet_has() {
    for seed in 0..20 {
        let mut random = Random::new(seed);
        let mut lists = Lists::empty();
        let mut standing: BTreeMap<u16, Outline> = BTreeMap::new();
        for _ in 0..60 {
            let slot = random.pick(&[0, 1, 7, 31, 32]);
            let before = lists.clone();
            let number = match random.below(10) {
                0..=4 => {
                    let outline = small_outline(&mut random);
                    let number = lists.put(slot, &outline);
                    if number == 0 {
                        standing.insert(slot, outline);
                    }
                    number
                }
                5 => {
                    let rule = random.between(1, 7) as u16;
                    let number = lists.put(slot, &outline_breaking(&mut random, rule));
                    assert_eq!(number, if slot > 31 { 8 } else { rule });
                    number
                }
                6..=7 => {
                    let number = lists.remove(slot);
                    let expected = match standing.remove(&slot) {
                        Some(_) => 0,
                        None if slot > 31 => 8,
                        None => 9,
                    };
                    assert_eq!(number, expected);
                    number
                }
                8 => {
                    let bytes = cards::card(&mut random);
                    let number = number(&card::load(&mut lists.lend(), &bytes));
                    if number == 0 {
                        let parcels = card::read(&bytes).expect("a card that was loaded");
                        standing = parcels
                            .iter()
                            .map(|(&slot, parcel)| (slot as u16, parcel.outline()))
                            .collect();
                    }
                    number
                }
                _ if random.percent(20) => {
                    standing.clear();
                    number(&lists.lend().clear())
                }
                _ => continue,
            };
            if number != 0 {
                assert_eq!(lists, before, "a refusal changes nothing");
            }
            assert_eq!(lists, Lists::fresh(&standing));
        }
    }
}

#[test]
fn every_cell_is_the_relation_or_0() {
    let mut lists = Lists::empty();
    assert_eq!(lists.put(0, &single(a())), 0);
    assert_eq!(lists.put(3, &single(c())), 0);
    let mut expected = vec![0; 1_024];
    expected[3] = set("W:B:SW:S");
    expected[32 * 3] = set("N:NE:B:E");
    assert_eq!(lists.relations, expected);
    assert_eq!(lists.records[..10], [1, 4, 0, 0, 0, 0, 0, 0, 0, 0]);
    assert_eq!(lists.records[27..30], [1, 4, 0]);
    assert_eq!(lists.coordinates[..9], [0, 0, 0, 10, 10, 10, 10, 0, 0]);
    assert_eq!(lists.coordinates[384..393], [5, 5, 5, 25, 25, 25, 25, 5, 0]);
    assert_eq!(lists.row(3), Ok(&expected[96..128]));
    assert_eq!(lists.row(4), Err(9));
    assert_eq!(lists.cell(3, 0), Ok(set("N:NE:B:E")));
}

/// What an office counts in a row: a cell that is not 0 for each other parcel,
/// whatever has been put and taken out before.
#[test]
fn a_row_counts_the_other_parcels() {
    for seed in 0..20 {
        let mut random = Random::new(seed);
        let mut lists = Lists::empty();
        for _ in 0..40 {
            let slot = random.below(32) as u16;
            if random.percent(70) {
                lists.put(slot, &small_outline(&mut random));
            } else {
                lists.remove(slot);
            }
        }
        let standing = (0..32).filter(|slot| lists.records[9 * slot] != 0);
        let standing: Vec<u16> = standing.map(|slot| slot as u16).collect();
        for &slot in &standing {
            let row = lists.row(slot).expect("a parcel stands there");
            let filled = row.iter().filter(|&&cell| cell != 0).count();
            assert_eq!(filled, standing.len() - 1);
            assert_eq!(lists.cell(slot, slot), Ok(0));
        }
    }
}

/// Lists full of numbers that are nobody's, with what stands undamaged.
fn sheet_of_others(random: &mut Random) -> Lists {
    let mut lists = Lists::empty();
    lists.coordinates.fill_with(|| random.any_i32());
    lists.records.fill_with(|| random.any_u16());
    lists.relations.fill_with(|| random.any_u16());
    for slot in 0..32 {
        lists.records[9 * slot] = 0;
        if random.percent(50) {
            lists.write_outline(slot, &small_outline(random));
        }
    }
    lists
}

/// Asserts that two sheets differ only in a slot's room, row and column.
fn assert_own_places_only(before: &Lists, after: &Lists, slot: usize) {
    for (place, pair) in before
        .coordinates
        .iter()
        .zip(&after.coordinates)
        .enumerate()
    {
        assert!(place / 128 == slot || pair.0 == pair.1);
    }
    for (place, pair) in before.records.iter().zip(&after.records).enumerate() {
        assert!(place / 9 == slot || pair.0 == pair.1);
    }
    for (place, pair) in before.relations.iter().zip(&after.relations).enumerate() {
        let is_own = place / 32 == slot || place % 32 == slot;
        assert!(is_own || pair.0 == pair.1);
    }
}

#[test]
fn on_a_sheet_of_others_a_put_writes_all_of_its_own_places_and_no_other() {
    let mut random = Random::new(31);
    for _ in 0..20 {
        let before = sheet_of_others(&mut random);
        let slot = random.below(32);
        let outline = small_outline(&mut random);
        let mut after = before.clone();
        assert_eq!(after.put(slot as u16, &outline), 0);
        assert_own_places_only(&before, &after, slot);

        let mut room = outline.coordinates.clone();
        room.resize(128, 0);
        assert_eq!(after.coordinates[128 * slot..][..128], room);
        let mut record = vec![outline.ends.len() as u16];
        record.extend(&outline.ends);
        record.resize(9, 0);
        assert_eq!(after.records[9 * slot..][..9], record);
        for other in 0..32 {
            let is_empty = after.records[9 * other] == 0;
            let cells = [32 * slot + other, 32 * other + slot];
            for cell in cells.map(|place| after.relations[place]) {
                let has_tile = !is_empty && other != slot;
                assert_eq!(cell != 0, has_tile, "every parcel here has a tile");
            }
        }

        let put = after.clone();
        assert_eq!(after.remove(slot as u16), 0);
        assert_own_places_only(&put, &after, slot);
        assert!(after.coordinates[128 * slot..][..128]
            .iter()
            .all(|&number| number == 0));
        assert!(after.records[9 * slot..][..9]
            .iter()
            .all(|&number| number == 0));
        for other in 0..32 {
            let cells = [32 * slot + other, 32 * other + slot];
            assert_eq!(cells.map(|place| after.relations[place]), [0, 0]);
        }
    }
}

/// The ways of rule 12.
fn damages() -> Vec<fn(&mut Lists)> {
    vec![
        |lists| lists.records[9 * 31] = 9,
        |lists| lists.records[9 * 31] = u16::MAX,
        |lists| lists.records[1] = 2,
        |lists| lists.records[0] = 2,
        |lists| lists.records[1] = 65,
        |lists| lists.coordinates[7] = 1_000_001,
        |lists| lists.coordinates[0] = i32::MIN,
    ]
}

#[test]
fn a_damaged_sheet_is_refused_until_it_is_cleared_or_loaded() {
    for damage in damages() {
        let mut lists = Lists::empty();
        assert_eq!(lists.put(0, &single(a())), 0);
        assert_eq!(lists.put(1, &single(c())), 0);
        damage(&mut lists);
        let before = lists.clone();
        assert_eq!(lists.put(0, &single(a())), 12);
        assert_eq!(lists.put(5, &single(vec![])), 12, "12 before 2");
        assert_eq!(lists.put(32, &single(a())), 8, "8 before 12");
        assert_eq!(lists.remove(0), 12);
        assert_eq!(lists.remove(9), 12, "12 before 9");
        let mut buffer = [0xA5; 200];
        let written = card::write(&lists.lend(), &mut buffer);
        assert_eq!(number(&written), 12);
        assert_eq!(buffer, [0xA5; 200]);
        assert_eq!(
            lists.cell(0, 1),
            Ok(set("W:B:SW:S")),
            "12 is not looked for"
        );
        assert_eq!(lists.row(1).map(<[u16]>::len), Ok(32));
        assert_eq!(lists, before);

        let mut loaded = lists.clone();
        let empty_card = [0, 0, 0, 0, 0, 0, 12, 0, 12, 0, 12, 0];
        assert_eq!(number(&card::load(&mut loaded.lend(), &empty_card)), 0);
        assert_eq!(loaded, Lists::empty());
        assert_eq!(number(&lists.lend().clear()), 0);
        assert_eq!(lists, Lists::empty());
    }
}

#[test]
fn rule_12_does_not_look_at_places_that_are_not_in_use() {
    let mut lists = Lists::empty();
    assert_eq!(lists.put(0, &single(a())), 0);
    lists.coordinates[8] = i32::MAX;
    lists.coordinates[4_095] = i32::MIN;
    lists.records[2] = 1;
    lists.records[9 * 30 + 1] = 1;
    lists.relations[1_023] = u16::MAX;
    let before = lists.clone();
    assert_eq!(lists.put(1, &single(c())), 0);
    assert_own_places_only(&before, &lists, 1);
}

#[test]
fn a_ring_count_above_eight_is_occupied_for_a_reading() {
    let mut lists = Lists::empty();
    lists.records[9 * 2] = 40_000;
    lists.relations[32 * 2 + 2] = 60_000;
    assert_eq!(lists.cell(2, 2), Ok(60_000));
    assert_eq!(lists.row(2).map(|row| row[2]), Ok(60_000));
}

#[test]
fn readings_look_at_11_then_8_then_9() {
    let mut lists = Lists::empty();
    assert_eq!(lists.put(0, &single(a())), 0);
    let expected = [
        ((0, 0), Ok(0)),
        ((0, 1), Err(9)),
        ((1, 0), Err(9)),
        ((1, 32), Err(8)),
        ((32, 1), Err(8)),
        ((u16::MAX, 0), Err(8)),
    ];
    for ((primary, reference), answer) in expected {
        assert_eq!(lists.cell(primary, reference), answer);
    }
    assert_eq!(lists.row(32), Err(8));
    lists.coordinates.clear();
    assert_eq!(
        lists.cell(0, 0),
        Ok(0),
        "a reading is not lent that list"
    );
    lists.relations.push(0);
    assert_eq!(lists.cell(32, 32), Err(11));
    assert_eq!(lists.row(32), Err(11));
    lists.relations.pop();
    lists.records.pop();
    assert_eq!(lists.cell(0, 0), Err(11));
    assert_eq!(lists.row(0), Err(11));
}

#[test]
fn every_other_call_wants_three_lists_of_the_right_length() {
    let changes: [fn(&mut Lists); 7] = [
        |lists| lists.coordinates.push(0),
        |lists| lists.records.push(0),
        |lists| lists.relations.push(0),
        |lists| lists.coordinates.truncate(4_095),
        |lists| lists.records.truncate(287),
        |lists| lists.relations.truncate(1_023),
        |lists| lists.coordinates.clear(),
    ];
    for change in changes {
        let mut lists = Lists::empty();
        // Damaged too: 11 comes before 12, and before 8 and 14.
        lists.records[0] = 9;
        change(&mut lists);
        let before = lists.clone();
        assert_eq!(lists.put(32, &single(a())), 11);
        assert_eq!(lists.remove(32), 11);
        assert_eq!(number(&lists.lend().clear()), 11);
        assert_eq!(number(&card::load(&mut lists.lend(), &[])), 11);
        assert_eq!(number(&card::write(&lists.lend(), &mut [])), 11);
        assert_eq!(lists, before);
    }
}
