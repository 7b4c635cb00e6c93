//! Runs of calls on a sheet that starts empty, half of them with writes from
//! outside between the calls.

use crate::card::LONGEST;
use crate::check::{MOST_RINGS, MOST_VERTICES};
use crate::make::cards;
use crate::make::faults::outline_breaking;
use crate::make::random::Random;
use crate::make::regions;
use crate::make::rings;
use crate::make::text::{cells_request, load_request, put_request, tiles_request};
use crate::region::Outline;
use crate::sheet::{COORDINATES, COORDINATES_A_SLOT, RECORD, RECORDS, RELATIONS, SLOTS};

/// The most numbers that a list of pairs may have at the desk.
const MOST_LISTED: usize = 1_024;

/// One run: a reset, 20 to 200 calls, and a look at the whole sheet.
pub fn run(random: &mut Random) -> Vec<String> {
    lines_of_run(random, false)
}

/// The same, where a third of the calls ask for a list of pairs.
pub fn run_with_lists(random: &mut Random) -> Vec<String> {
    lines_of_run(random, true)
}

fn lines_of_run(random: &mut Random, lists: bool) -> Vec<String> {
    let mut run = Run {
        slots: slots_of_run(random),
        foreign: random.percent(50),
        lists,
        lines: reset(),
        random,
    };
    for _ in 0..run.random.between(20, 200) {
        if run.foreign && run.random.percent(15) {
            run.write_from_outside();
        }
        run.call();
    }
    run.lines.push("sheet".to_owned());
    run.lines
}

struct Run<'a> {
    random: &'a mut Random,
    /// The slots of most calls: few, so that they are put again and again.
    slots: Vec<u16>,
    /// Whether others write on the sheet too.
    foreign: bool,
    /// Whether lists of pairs are asked for.
    lists: bool,
    lines: Vec<String>,
}

/// Few slots, now and then all.
fn slots_of_run(random: &mut Random) -> Vec<u16> {
    let all = 0..SLOTS as u16;
    if random.percent(10) {
        return all.collect();
    }
    let count = random.between(2, 6);
    (0..count).map(|_| random.below(SLOTS) as u16).collect()
}

/// Lists of the right lengths, with 0 in every place, the spare ones included.
fn reset() -> Vec<String> {
    vec![
        lend(COORDINATES, RECORDS, RELATIONS),
        "clear".to_owned(),
        format!("poke 0 {COORDINATES} 0"),
        format!("poke 1 {RECORDS} 0"),
        format!("poke 2 {RELATIONS} 0"),
    ]
}

fn lend(coordinates: usize, records: usize, relations: usize) -> String {
    format!("lend {coordinates} {records} {relations}")
}

impl Run<'_> {
    fn slot(&mut self) -> u16 {
        match self.random.below(40) {
            0 => self.random.pick(&[32, 33, u16::MAX]),
            1 => self.random.pick(&[0, 31]),
            _ => self.random.pick(&self.slots),
        }
    }

    fn call(&mut self) {
        if self.lists && self.random.percent(33) {
            let line = self.cells();
            self.lines.push(line);
            return;
        }
        let line = match self.random.below(100) {
            0..=44 => self.put(),
            45..=58 => format!("remove {}", self.slot()),
            59..=79 => format!("cell {} {}", self.slot(), self.slot()),
            80..=88 => format!("row {}", self.slot()),
            89..=91 => tiles_request(self.random.any_u16()),
            92..=93 => "clear".to_owned(),
            94 => load_request(&cards::card(self.random)),
            95..=97 => format!(
                "write {}",
                self.random.pick(&[0, 11, 12, 100, 500, LONGEST])
            ),
            _ => "sheet".to_owned(),
        };
        self.lines.push(line);
    }

    /// Few pairs mostly, now and then none or as many as there may be; now and
    /// then a number too many, and fewer results than pairs, or more.
    fn cells(&mut self) -> String {
        let count = match self.random.below(40) {
            0..=3 => 0,
            4 => MOST_LISTED / 2,
            5..=7 => self.random.below(100),
            _ => 1 + self.random.below(8),
        };
        let mut pairs: Vec<u16> = (0..2 * count).map(|_| self.slot_of_pair()).collect();
        if self.random.percent(12) {
            pairs.pop();
        } else if self.random.percent(4) {
            pairs.push(self.slot());
        }
        pairs.truncate(MOST_LISTED);
        let whole = pairs.len() / 2;
        let results = match self.random.below(8) {
            0 => whole.saturating_sub(1),
            1 => self.random.below(whole + 1),
            2..=3 => whole + 1 + self.random.below(4),
            _ => whole,
        };
        cells_request(&pairs, results)
    }

    /// A slot of a pair: numbers 8 and 9 in one pair are to meet.
    fn slot_of_pair(&mut self) -> u16 {
        match self.random.below(10) {
            0 => self.random.pick(&[32, 33, 63, u16::MAX]),
            1 => self.random.below(SLOTS) as u16,
            _ => self.slot(),
        }
    }

    /// A good outline mostly, short ones after long ones as it comes.
    fn put(&mut self) -> String {
        let slot = self.slot();
        let outline = match self.random.below(100) {
            0..=19 => {
                let rule = self.random.between(1, 7) as u16;
                outline_breaking(self.random, rule)
            }
            20..=22 => {
                let rings = self.random.pick(&[1, MOST_RINGS]);
                regions::full_outline(self.random, rings, MOST_VERTICES)
            }
            _ => regions::small_outline(self.random),
        };
        put_request(slot, &outline)
    }

    /// Something that others do to the sheet; what damages it, or lends lists
    /// of a wrong length, is mostly mended after a few calls.
    fn write_from_outside(&mut self) {
        let slot = usize::from(self.random.pick(&self.slots));
        match self.random.below(10) {
            0..=1 => self.foreign_outline(slot),
            2 => self.stale_numbers(slot),
            3..=4 => self.random_poke(),
            5 => self.moved_vertex(slot),
            6..=7 => self.damage(slot),
            _ => self.wrong_lengths(),
        }
    }

    fn poke_coordinate(&mut self, place: usize, value: i32) {
        self.lines.push(format!("poke 0 {place} {value}"));
    }

    fn poke_record(&mut self, place: usize, value: u16) {
        self.lines.push(format!("poke 1 {place} {value}"));
    }

    /// An outline that keeps rules 1 to 4 and need keep no other.
    fn foreign_outline(&mut self, slot: usize) {
        let outline = foreign(self.random);
        let ends = std::iter::once(outline.ends.len() as u16).chain(outline.ends.iter().copied());
        for (place, value) in (RECORD * slot..).zip(ends) {
            self.poke_record(place, value);
        }
        for (place, &value) in (COORDINATES_A_SLOT * slot..).zip(&outline.coordinates) {
            self.poke_coordinate(place, value);
        }
    }

    /// Numbers in the last places of a slot's room, which few parcels use.
    fn stale_numbers(&mut self, slot: usize) {
        let place = COORDINATES_A_SLOT * (slot + 1) - 1 - self.random.below(20);
        let value = self.random.any_i32();
        self.poke_coordinate(place, value);
        let place = RECORD * (slot + 1) - 1 - self.random.below(3);
        let value = self.random.any_u16();
        self.poke_record(place, value);
    }

    /// Any number in any place, relations more often.
    fn random_poke(&mut self) {
        let line = match self.random.below(6) {
            0 => format!(
                "poke 0 {} {}",
                self.random.below(COORDINATES + 1),
                self.random.any_i32()
            ),
            1 => format!(
                "poke 1 {} {}",
                self.random.below(RECORDS + 1),
                self.random.any_u16()
            ),
            _ => format!(
                "poke 2 {} {}",
                self.random.below(RELATIONS + 1),
                self.random.any_u16()
            ),
        };
        self.lines.push(line);
    }

    /// One of a slot's first coordinates, within the range.
    fn moved_vertex(&mut self, slot: usize) {
        let place = COORDINATES_A_SLOT * slot + self.random.below(8);
        let value = self.random.between(-6, 6);
        self.poke_coordinate(place, value);
    }

    /// Rule 12 broken in one of its ways, a few calls, and mostly the mending.
    fn damage(&mut self, slot: usize) {
        let record = RECORD * slot;
        match self.random.below(4) {
            0 => {
                let count = self.random.pick(&[9, 10, 255, u16::MAX]);
                self.poke_record(record, count);
            }
            1 => {
                let count = self.random.between(1, 8) as u16;
                self.poke_record(record, count);
                let end = self.random.pick(&[0, 1, 2, 64, 65, 66, u16::MAX]);
                self.poke_record(record + usize::from(count), end);
            }
            2 => {
                let value = self
                    .random
                    .pick(&[1_000_001, -1_000_001, i32::MIN, i32::MAX]);
                let place = COORDINATES_A_SLOT * slot + self.random.below(6);
                self.poke_coordinate(place, value);
            }
            _ => {
                let end = self.random.any_u16();
                self.poke_record(record + 1, end);
            }
        }
        for _ in 0..self.random.between(1, 6) {
            self.call();
        }
        match self.random.below(4) {
            0 => {}
            1 => self.lines.push("clear".to_owned()),
            2 => self.foreign_outline(slot),
            _ => self.poke_record(record, 0),
        }
    }

    /// Lists lent too short or too long, a few calls, and the right lengths.
    fn wrong_lengths(&mut self) {
        let rights = [COORDINATES, RECORDS, RELATIONS];
        let mut lengths = rights;
        let list = self.random.below(lengths.len());
        lengths[list] = match self.random.below(3) {
            0 => rights[list] + 1,
            1 => rights[list] - 1,
            _ => self.random.below(rights[list]),
        };
        if self.random.percent(20) {
            lengths = rights.map(|right| self.random.below(right + 2));
        }
        self.lines.push(lend(lengths[0], lengths[1], lengths[2]));
        for _ in 0..self.random.between(1, 6) {
            self.call();
        }
        self.lines.push(lend(COORDINATES, RECORDS, RELATIONS));
    }
}

/// An outline as others might write it: turned, flat, a single point, crossing
/// itself, with vertices repeated.
fn foreign(random: &mut Random) -> Outline {
    let mut rings = match random.below(3) {
        0 => regions::small_region(random),
        _ => {
            let vertices = random.between(3, 7) as usize;
            vec![rings::scattered(random, vertices)]
        }
    };
    let flat = random.below(6);
    for vertex in rings.iter_mut().flatten() {
        if flat == 0 || flat == 2 {
            vertex.x = 2;
        }
        if flat == 1 || flat == 2 {
            vertex.y = 3;
        }
    }
    if random.percent(30) {
        for ring in &mut rings {
            ring.reverse();
        }
    }
    regions::outline(&rings)
}
