//! The desk's sheet, and the line of answer to each request.

use super::request::{Poke, Request, ROOM};
use crate::card;
use crate::check;
use crate::drawn;
use crate::hex;
use crate::host;
use crate::matrix;
use crate::pair;
use crate::plane::{Bounds, Edge, Point, Span};
use crate::refusal::number;
use crate::relation;
use crate::sheet::{self, Sheet};
use crate::tile;

/// What a buffer holds before a call writes into it.
const BEFORE: u8 = 0xA5;
/// What a list of results holds before.
const BEFORE_NUMBER: u16 = 0xA5A5;

/// One sheet, empty at the start, in lists with room to spare, and how much of
/// each list the sheet's calls are lent.
pub struct Desk {
    coordinates: Vec<i32>,
    records: Vec<u16>,
    relations: Vec<u16>,
    lent: [usize; 3],
}

impl Desk {
    pub fn new() -> Self {
        Self {
            coordinates: vec![0; ROOM[0]],
            records: vec![0; ROOM[1]],
            relations: vec![0; ROOM[2]],
            lent: [sheet::COORDINATES, sheet::RECORDS, sheet::RELATIONS],
        }
    }

    /// The line of answer, without its line feed.
    pub fn answer(&mut self, request: Request) -> String {
        match request {
            Request::Pair(first, second) => pair_answer(&pair::pair(&first, &second)),
            Request::Drawn(first, second) => {
                let answer = drawn::drawn_pair(&first, &second);
                spaced(drawn::numbers(&answer).into_iter())
            }
            Request::Put(slot, outline) => number(&self.sheet().put(slot, &outline)).to_string(),
            Request::Remove(slot) => number(&self.sheet().remove(slot)).to_string(),
            Request::Clear => number(&self.sheet().clear()).to_string(),
            Request::Cell(primary, reference) => self.cell(primary, reference),
            Request::Cells(pairs, results) => self.cells(&pairs, results),
            Request::Row(slot) => self.row(slot),
            Request::Tiles(relation) => tile::count(relation).to_string(),
            Request::Edge(ends, lines) => edge_answer(ends, lines),
            Request::Directions(cells) => matrix::directions(cells).to_string(),
            Request::Load(bytes) => number(&card::load(&mut self.sheet(), &bytes)).to_string(),
            Request::Write(length) => self.write(length),
            Request::Host(length, bytes) => host_answer(length, &bytes),
            Request::Lend(lengths) => {
                self.lent = lengths;
                "ok".to_owned()
            }
            Request::Poke(poke) => {
                self.poke(&poke);
                "ok".to_owned()
            }
            Request::Sheet => self.numbers(),
        }
    }

    fn sheet(&mut self) -> Sheet<'_> {
        let [coordinates, records, relations] = self.lent;
        Sheet {
            coordinates: &mut self.coordinates[..coordinates],
            records: &mut self.records[..records],
            relations: &mut self.relations[..relations],
        }
    }

    /// The two lists that a reading is lent.
    fn reading(&self) -> (&[u16], &[u16]) {
        let [_, records, relations] = self.lent;
        (&self.records[..records], &self.relations[..relations])
    }

    fn cell(&self, primary: u16, reference: u16) -> String {
        let (records, relations) = self.reading();
        let cell = sheet::cell(records, relations, primary, reference);
        format!("{} {}", number(&cell), cell.unwrap_or(0))
    }

    fn cells(&self, pairs: &[u16], length: usize) -> String {
        let (records, relations) = self.reading();
        let mut results = vec![BEFORE_NUMBER; length];
        let outcome = sheet::cells(records, relations, pairs, &mut results);
        spaced(std::iter::once(number(&outcome)).chain(results))
    }

    fn row(&self, slot: u16) -> String {
        let (records, relations) = self.reading();
        let part = sheet::row(records, relations, slot).unwrap_or(&[]);
        let cells = part.iter().map(|&cell| usize::from(cell));
        spaced(std::iter::once(part.len()).chain(cells))
    }

    fn write(&mut self, length: usize) -> String {
        let mut buffer = vec![BEFORE; length];
        let written = card::write(&self.sheet(), &mut buffer);
        format!(
            "{} {} {}",
            number(&written),
            written.unwrap_or(0),
            hex::text(&buffer)
        )
    }

    fn poke(&mut self, poke: &Poke) {
        match *poke {
            Poke::Coordinate(place, value) => self.coordinates[place] = value,
            Poke::Record(place, value) => self.records[place] = value,
            Poke::Relation(place, value) => self.relations[place] = value,
        }
    }

    /// Every number that is not 0, over the whole room.
    fn numbers(&self) -> String {
        let words = [
            nonzero(0, &self.coordinates),
            nonzero(1, &self.records),
            nonzero(2, &self.relations),
        ];
        words.concat().join(" ")
    }
}

/// The numbers of a list that are not 0, each as `L:I=V`.
fn nonzero(list: usize, numbers: &[impl Copy + Into<i32>]) -> Vec<String> {
    let numbers = numbers.iter().map(|&number| number.into()).enumerate();
    numbers
        .filter(|&(_, number)| number != 0)
        .map(|(place, number)| format!("{list}:{place}={number}"))
        .collect()
}

fn pair_answer(answer: &Result<pair::Comparison, pair::PairRefusal>) -> String {
    let around = u16::from(pair::around(answer));
    spaced(pair::numbers(answer).into_iter().chain([around]))
}

/// How many tiles an edge has, and the bit number of each in order of travel;
/// `-` where a coordinate is out of range, the ends are equal, or the lines are
/// those of no box.
fn edge_answer([ax, ay, bx, by]: [i32; 4], [west, south, east, north]: [i32; 4]) -> String {
    let numbers = [ax, ay, bx, by, west, south, east, north];
    let in_range = |number: &i32| (-check::RANGE..=check::RANGE).contains(number);
    let is_box = west <= east && south <= north;
    if !numbers.iter().all(in_range) || (ax, ay) == (bx, by) || !is_box {
        return "-".to_owned();
    }
    let edge = Edge {
        from: Point { x: ax, y: ay },
        to: Point { x: bx, y: by },
    };
    let span = |low: i32, high: i32| Span {
        low: low.into(),
        high: high.into(),
    };
    let lines = Bounds {
        x: span(west, east),
        y: span(south, north),
    };
    let tiles = relation::edge_tiles(&edge, &lines);
    let bits = tiles.iter().map(|&tile| tile::bit(tile) as usize);
    spaced(std::iter::once(tiles.len()).chain(bits))
}

fn host_answer(length: usize, card: &[u8]) -> String {
    let mut buffer = vec![BEFORE; length];
    let outcome = host::report(card, &mut buffer);
    format!("{} {}", number(&outcome), hex::text(&buffer))
}

/// Words with one space between.
fn spaced(words: impl Iterator<Item = impl ToString>) -> String {
    let words: Vec<String> = words.map(|word| word.to_string()).collect();
    words.join(" ")
}
