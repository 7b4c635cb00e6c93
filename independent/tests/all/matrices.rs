//! The matrices that occur, one row each of data/matrices.tsv: matrix, both
//! relations, directions, and two regions that show them. And the directions
//! of any matrix by differences, as document 02 has them taught.

use independent::matrix::{directions, Cells};
use independent::tile;

use crate::common::{opposite, outline, pair_numbers, Vertices};

const ROWS: &str = include_str!("../data/matrices.tsv");

/// A list of lists of whole numbers, to any depth.
#[derive(Debug)]
enum Value {
    Number(i32),
    List(Vec<Value>),
}

impl Value {
    fn parse(text: &str) -> Self {
        let (value, rest) = Self::parse_front(text);
        assert_eq!(rest, "", "nothing behind the list");
        value
    }

    /// The value at the front of a text, and what is behind it.
    fn parse_front(text: &str) -> (Self, &str) {
        match text.strip_prefix('[') {
            Some(rest) => Self::parse_items(rest),
            None => {
                let end = text.find([',', ']']).unwrap_or(text.len());
                let number = text[..end].parse().expect("a whole number");
                (Self::Number(number), &text[end..])
            }
        }
    }

    /// The list whose first item is at the front of a text, and what is behind.
    fn parse_items(mut rest: &str) -> (Self, &str) {
        let mut items = Vec::new();
        loop {
            let (item, behind) = Self::parse_front(rest);
            items.push(item);
            if let Some(behind) = behind.strip_prefix(']') {
                return (Self::List(items), behind);
            }
            rest = behind.strip_prefix(", ").expect("a comma between items");
        }
    }

    fn number(&self) -> i32 {
        match self {
            Self::Number(number) => *number,
            Self::List(_) => panic!("a list in the place of a number"),
        }
    }

    fn items(&self) -> &[Value] {
        match self {
            Self::Number(_) => panic!("a number in the place of a list"),
            Self::List(items) => items,
        }
    }
}

fn rings(value: &Value) -> Vec<Vertices> {
    let vertex = |point: &Value| match point.items() {
        [x, y] => (x.number(), y.number()),
        _ => panic!("a vertex of other than two numbers"),
    };
    let ring = |ring: &Value| ring.items().iter().map(vertex).collect();
    value.items().iter().map(ring).collect()
}

fn check_row(row: &str) {
    let fields: Vec<&str> = row.split('\t').collect();
    let fields: [&str; 7] = fields.try_into().expect("a row of seven fields");
    let [_, matrix, relation, relation_back, directions, first, second] = fields;
    let first = outline(&rings(&Value::parse(first)));
    let second = outline(&rings(&Value::parse(second)));
    let matrix = Value::parse(matrix);
    let rows = matrix.items();
    let mut cells = [0; 9];
    for (place, row) in rows.iter().enumerate() {
        for (cell, value) in cells[3 * place..].iter_mut().zip(row.items()) {
            *cell = value.number() as u16;
        }
    }
    let number = |text: &str| text.parse::<u16>().expect("a number of tiles");
    let size = [rows.len() as u16, rows[0].items().len() as u16];

    let answer = pair_numbers(&first, &second);
    assert_eq!(answer[..3], [0, 0, 0], "{row}");
    assert_eq!(
        answer[3..5],
        [number(relation), number(relation_back)],
        "{row}"
    );
    assert_eq!(answer[5..7], size, "{row}");
    assert_eq!(answer[7..16], cells, "{row}");
    assert_eq!(answer[16], number(directions), "{row}");

    let back = pair_numbers(&second, &first);
    assert_eq!(
        back[3..5],
        [number(relation_back), number(relation)],
        "{row}"
    );
    assert_eq!(
        back[7..16],
        cells.map(|cell| [0, 2, 1, 3][usize::from(cell)]),
        "{row}"
    );
    assert_eq!(back[16], opposite(number(directions)), "{row}");
}

#[test]
fn every_row_is_answered_as_it_says() {
    let mut lines = ROWS.lines();
    let header = "#no\tmatrix\trel12\trel21\tdirs12\tregion1\tregion2";
    assert_eq!(lines.next(), Some(header));
    let rows: Vec<&str> = lines.collect();
    assert_eq!(rows.len(), 839);
    rows.into_iter().for_each(check_row);
}

/// Whether some cell of the first region stands so many rows further south
/// and columns further east than a cell of the second.
fn occurs(cells: Cells, rows: isize, columns: isize) -> bool {
    (0..3).any(|row| {
        (0..3).any(|column| {
            let is_first = [1, 3].contains(&cells[row as usize][column as usize]);
            let partner = (row - rows, column - columns);
            let is_within = (0..3).contains(&partner.0) && (0..3).contains(&partner.1);
            is_first && is_within && [2, 3].contains(&cells[partner.0 as usize][partner.1 as usize])
        })
    })
}

/// The places, by their signs, of the differences in rows and columns that
/// occur.
fn by_differences(cells: Cells) -> u16 {
    let mut places = 0;
    for rows in -2..=2_isize {
        for columns in -2..=2_isize {
            if occurs(cells, rows, columns) {
                let place = |difference: isize| (difference.signum() + 1) as usize;
                places |= tile::at(place(rows), place(columns));
            }
        }
    }
    places
}

#[test]
fn every_matrix_has_the_directions_of_its_differences() {
    for number in 0..4_usize.pow(9) {
        let mut cells = Cells::default();
        for (place, cell) in cells.iter_mut().flatten().enumerate() {
            *cell = (number >> (2 * place) & 3) as u8;
        }
        assert_eq!(directions(cells), by_differences(cells), "{cells:?}");
    }
}

#[test]
fn a_cell_of_any_other_number_is_nobodys() {
    for other in 4..=u8::MAX {
        let cells = [[1, other, 0], [other, 2, other], [other, other, other]];
        assert_eq!(directions(cells), 1);
        assert_eq!(by_differences(cells), 1);
    }
}
