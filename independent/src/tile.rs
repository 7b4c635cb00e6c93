//! The nine tiles as bits, their names and their number. Document 01, "The
//! nine tiles": "NW 0, N 1, NE 2, W 3, B 4, E 5, SW 6, S 7, SE 8".

/// The tile of the box itself; in directions, the same place.
pub const B: u16 = 1 << 4;

/// All nine tiles.
pub const ALL: u16 = (1 << NAMES.len()) - 1;

const NAMES: [&str; 9] = ["NW", "N", "NE", "W", "B", "E", "SW", "S", "SE"];

/// The tile in a row from the north and a column from the west, 0 to 2 each.
pub fn at(row: usize, column: usize) -> u16 {
    1 << (3 * row + column)
}

/// The tile of two ranges of a box, numbered from the west and the south.
pub fn of_ranges(from_west: usize, from_south: usize) -> u16 {
    at(2 - from_south, from_west)
}

/// How many tiles a relation has; bits above 8 are not counted.
pub fn count(relation: u16) -> usize {
    (0..NAMES.len())
        .filter(|bit| relation >> bit & 1 == 1)
        .count()
}

/// The bit number of a tile.
pub fn bit(tile: u16) -> u32 {
    tile.trailing_zeros()
}

/// A relation in words, in bit order.
pub fn relation_text(relation: u16) -> String {
    text(relation, "B")
}

/// Directions in words, in bit order: bit 4 is written O.
pub fn directions_text(directions: u16) -> String {
    text(directions, "O")
}

fn text(set: u16, centre: &str) -> String {
    let names: Vec<&str> = (0..NAMES.len())
        .filter(|bit| set >> bit & 1 == 1)
        .map(|bit| if 1 << bit == B { centre } else { NAMES[bit] })
        .collect();
    names.join(":")
}

#[cfg(test)]
mod tests {
    use super::*;

    #[test]
    fn bits_above_eight_are_not_counted() {
        assert_eq!(count(0), 0);
        assert_eq!(count(ALL), 9);
        assert_eq!(count(0xFFFF), 9);
        assert_eq!(count(512), 0);
        assert_eq!(count(512 + 216), 4);
    }

    #[test]
    fn words_are_in_bit_order() {
        assert_eq!(relation_text(ALL), "NW:N:NE:W:B:E:SW:S:SE");
        assert_eq!(directions_text(ALL), "NW:N:NE:W:O:E:SW:S:SE");
        assert_eq!(relation_text(0), "");
    }

    #[test]
    fn ranges_count_from_west_and_south() {
        assert_eq!(relation_text(of_ranges(0, 2)), "NW");
        assert_eq!(relation_text(of_ranges(2, 1)), "E");
        assert_eq!(relation_text(of_ranges(1, 0)), "S");
    }
}
