//! The requests of the desk, read from a line.

use std::str::FromStr;

use crate::hex;
use crate::matrix::Cells;
use crate::region::Outline;
use crate::sheet;

/// The room of the desk's three lists, one place more than a sheet needs.
pub const ROOM: [usize; 3] = [
    sheet::COORDINATES + 1,
    sheet::RECORDS + 1,
    sheet::RELATIONS + 1,
];

const MOST_ENDS: usize = 64;
const MOST_COORDINATES: usize = 1_024;
const MOST_PAIR_NUMBERS: usize = 1_024;
const MOST_RESULTS: usize = 1_024;
const LONGEST_CARD_BUFFER: usize = 20_000;
const LONGEST_REPORT_BUFFER: usize = 100;

/// What a line asks for.
#[derive(Debug, PartialEq, Eq)]
pub enum Request {
    Pair(Outline, Outline),
    Drawn(Outline, Outline),
    Put(u16, Outline),
    Remove(u16),
    Clear,
    Cell(u16, u16),
    /// A list of pairs, and how many results there are.
    Cells(Vec<u16>, usize),
    Row(u16),
    Tiles(u16),
    /// An edge, x and y of its start and its end, and a box, west, south, east
    /// and north.
    Edge([i32; 4], [i32; 4]),
    Directions(Cells),
    Load(Vec<u8>),
    Write(usize),
    Host(usize, Vec<u8>),
    Lend([usize; 3]),
    Poke(Poke),
    Sheet,
}

/// A place of the lists, and what is written there.
#[derive(Debug, PartialEq, Eq)]
pub enum Poke {
    Coordinate(usize, i32),
    Record(usize, u16),
    Relation(usize, u16),
}

/// The request of a line; none where it is not of the forms.
pub fn parse(line: &[u8]) -> Option<Request> {
    let mut words = Words::of(line);
    let request = match words.next()? {
        b"pair" => Request::Pair(words.outline()?, words.outline()?),
        b"drawn" => Request::Drawn(words.outline()?, words.outline()?),
        b"put" => Request::Put(words.number()?, words.outline()?),
        b"remove" => Request::Remove(words.number()?),
        b"clear" => Request::Clear,
        b"cell" => Request::Cell(words.number()?, words.number()?),
        b"cells" => Request::Cells(words.list(MOST_PAIR_NUMBERS)?, words.count(MOST_RESULTS)?),
        b"row" => Request::Row(words.number()?),
        b"tiles" => Request::Tiles(words.number()?),
        b"edge" => Request::Edge(words.four()?, words.four()?),
        b"directions" => Request::Directions(words.cells()?),
        b"load" => Request::Load(words.bytes()?),
        b"write" => Request::Write(words.count(LONGEST_CARD_BUFFER)?),
        b"host" => Request::Host(words.count(LONGEST_REPORT_BUFFER)?, words.bytes()?),
        b"lend" => Request::Lend([
            words.count(ROOM[0])?,
            words.count(ROOM[1])?,
            words.count(ROOM[2])?,
        ]),
        b"poke" => Request::Poke(words.poke()?),
        b"sheet" => Request::Sheet,
        _ => return None,
    };
    words.next().is_none().then_some(request)
}

/// The words of a line that are still to be read.
struct Words<'a> {
    rest: std::slice::Split<'a, u8, fn(&u8) -> bool>,
}

impl<'a> Words<'a> {
    fn of(line: &'a [u8]) -> Self {
        Self {
            rest: line.split(|&byte| byte == b' '),
        }
    }

    fn next(&mut self) -> Option<&'a [u8]> {
        self.rest.find(|word| !word.is_empty())
    }

    /// A number of some type: digits, and a `-` before them where the type has
    /// numbers below 0.
    fn number<T: FromStr>(&mut self) -> Option<T> {
        let word = std::str::from_utf8(self.next()?).ok()?;
        if word.starts_with('+') {
            return None;
        }
        word.parse().ok()
    }

    /// A number that is no more than a limit.
    fn count(&mut self, most: usize) -> Option<usize> {
        self.number().filter(|&count| count <= most)
    }

    /// A count of numbers, then the numbers.
    fn list<T: FromStr>(&mut self, most: usize) -> Option<Vec<T>> {
        let count = self.count(most)?;
        (0..count).map(|_| self.number()).collect()
    }

    fn outline(&mut self) -> Option<Outline> {
        Some(Outline {
            ends: self.list(MOST_ENDS)?,
            coordinates: self.list(MOST_COORDINATES)?,
        })
    }

    /// Nine numbers of a byte each, row by row.
    fn cells(&mut self) -> Option<Cells> {
        let mut cells = Cells::default();
        for cell in cells.iter_mut().flatten() {
            *cell = self.number()?;
        }
        Some(cells)
    }

    fn four(&mut self) -> Option<[i32; 4]> {
        Some([
            self.number()?,
            self.number()?,
            self.number()?,
            self.number()?,
        ])
    }

    fn bytes(&mut self) -> Option<Vec<u8>> {
        hex::read(self.next()?)
    }

    fn poke(&mut self) -> Option<Poke> {
        let list = self.count(ROOM.len() - 1)?;
        let place = self.count(ROOM[list] - 1)?;
        Some(match list {
            0 => Poke::Coordinate(place, self.number()?),
            1 => Poke::Record(place, self.number()?),
            _ => Poke::Relation(place, self.number()?),
        })
    }
}

#[cfg(test)]
mod tests {
    use super::*;

    fn is_request(line: &str) -> bool {
        parse(line.as_bytes()).is_some()
    }

    #[test]
    fn numbers_are_digits_with_a_sign_where_the_type_has_one() {
        assert_eq!(parse(b"tiles 007"), Some(Request::Tiles(7)));
        let zeros = format!("tiles {}7", "0".repeat(1_000));
        assert_eq!(parse(zeros.as_bytes()), Some(Request::Tiles(7)));
        let poke = Request::Poke(Poke::Coordinate(0, 0));
        assert_eq!(parse(b"poke 0 0 -0"), Some(poke));
        for bad in [
            "+7", "-0", "-1", "65536", "1e1", "0x1", "7.", "-", "\u{663}",
        ] {
            assert!(!is_request(&format!("tiles {bad}")), "{bad}");
        }
        assert!(!is_request(&format!("tiles {}", "9".repeat(1_000))));
    }

    #[test]
    fn numbers_have_the_bounds_of_their_type() {
        for value in ["2147483647", "-2147483648", "-000000000000001"] {
            assert!(is_request(&format!("poke 0 4096 {value}")), "{value}");
        }
        for value in ["2147483648", "-2147483649", "--1", "+1"] {
            assert!(!is_request(&format!("poke 0 4096 {value}")), "{value}");
        }
        assert!(is_request("poke 1 288 65535"));
        assert!(is_request("poke 2 1024 65535"));
        for line in ["poke 1 288 65536", "poke 2 1024 -1", "poke 3 0 0"] {
            assert!(!is_request(line), "{line}");
        }
        for line in ["poke 0 4097 0", "poke 1 289 0", "poke 2 1025 0"] {
            assert!(!is_request(line), "{line}");
        }
    }

    #[test]
    fn limits_of_lists_and_buffers() {
        for line in [
            "lend 4097 289 1025",
            "write 20000",
            "host 100 -",
            "cells 0 0",
            "cells 0 1024",
            "cells 3 0 65535 7 0",
            "lend 0 0 0",
        ] {
            assert!(is_request(line), "{line}");
        }
        for line in [
            "lend 4098 288 1024",
            "lend 4096 290 1024",
            "lend 4096 288 1026",
            "lend 1 1",
            "write 20001",
            "host 101 -",
            "host 38",
            "cells",
            "cells 0",
            "cells 2 0 1",
            "cells 2 0 1 2 3",
            "cells 0 1025",
            "cells 1025 0",
            "cells 1 -1 0",
            "cells 1 65536 0",
            "load",
            "load 1",
            "load - -",
        ] {
            assert!(!is_request(line), "{line}");
        }
    }

    #[test]
    fn limits_of_an_outline() {
        let outline = |ends: usize, coordinates: usize| {
            let (ends_text, numbers) = (" 3".repeat(ends), " -5".repeat(coordinates));
            format!("put 0 {ends}{ends_text} {coordinates}{numbers}")
        };
        for (ends, coordinates, expected) in [
            (0, 0, true),
            (64, 1_024, true),
            (65, 0, false),
            (0, 1_025, false),
        ] {
            assert_eq!(is_request(&outline(ends, coordinates)), expected);
        }
        assert!(!is_request(&format!("{} 1", outline(1, 6))));
        assert!(!is_request("put 0 1 3 6 0 0 0 1 1"));
        assert!(!is_request("put 0 1 -3 0"));
    }

    #[test]
    fn a_matrix_is_nine_bytes_by_row() {
        let cells = [[0, 2, 2], [1, 3, 2], [1, 1, 255]];
        let request = parse(b"directions 0 2 2 1 3 2 1 1 255");
        assert_eq!(request, Some(Request::Directions(cells)));
        for line in [
            "directions 0 2 2 1 3 2 1 1",
            "directions 0 2 2 1 3 2 1 1 0 0",
            "directions 0 2 2 1 3 2 1 1 256",
            "directions 0 2 2 1 3 2 1 1 -0",
            "direction 0 2 2 1 3 2 1 1 0",
        ] {
            assert!(!is_request(line), "{line}");
        }
    }

    #[test]
    fn an_edge_and_a_box_are_eight_coordinates() {
        let request = parse(b"edge 0 -1 2 3 4 5 6 -2147483648");
        let expected = Request::Edge([0, -1, 2, 3], [4, 5, 6, i32::MIN]);
        assert_eq!(request, Some(expected));
        for line in [
            "edge 0 0 10 10 5 5 25",
            "edge 0 0 10 10 5 5 25 25 0",
            "edge 0 0 10 10 5 5 25 2147483648",
            "edge 0 0 10 10 5 5 25 +25",
            "edges 0 0 10 10 5 5 25 25",
        ] {
            assert!(!is_request(line), "{line}");
        }
    }

    #[test]
    fn words_are_exact() {
        for line in [
            "Clear", "clear 0", "clea", "clearx", "sheets", "cell 0", "row",
        ] {
            assert!(!is_request(line), "{line}");
        }
        assert!(is_request(" clear "));
    }
}
