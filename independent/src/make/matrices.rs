//! Requests for the directions of a matrix.

use crate::make::random::Random;

const CELLS: usize = 9;

/// One request: nine numbers from 0 to 3, as a matrix of two regions has them,
/// few or many of them 0; in some a few others of a byte. One in thirty is no
/// request: a number is missing, is one too many, or is no byte.
pub fn request(random: &mut Random) -> String {
    let has_others = random.percent(20);
    let empty = random.pick(&[0, 40, 60, 75]);
    let mut cell = || match random.percent(empty) {
        true => 0,
        false => random.below(4) as u16,
    };
    let mut cells: Vec<u16> = (0..CELLS).map(|_| cell()).collect();
    if has_others {
        for cell in &mut cells {
            if random.percent(30) {
                *cell = random.any_byte().into();
            }
        }
    }
    match random.below(90) {
        0 => drop(cells.pop()),
        1 => cells.push(0),
        2 => cells[random.below(CELLS)] = 256 + random.any_u16() % 1_000,
        _ => {}
    }
    let words: Vec<String> = cells.iter().map(u16::to_string).collect();
    format!("directions {}", words.join(" "))
}
