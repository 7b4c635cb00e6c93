//! Requests for the tiles of one edge.

use crate::check::RANGE;
use crate::make::random::Random;

/// One request: an edge and a box on a small grid, on a large one, or over the
/// whole range, so that edges run along lines, through corners and across
/// boxes. Some have equal ends, a box that is flat or is none, or a number out
/// of range; one in thirty is no request.
pub fn request(random: &mut Random) -> String {
    let most = random.pick(&[2, 4, 6, 1_000, RANGE]);
    let mut numbers: Vec<i64> = (0..8).map(|_| random.between(-most, most).into()).collect();
    if random.percent(90) {
        upright(&mut numbers);
    }
    if random.percent(20) {
        onto_a_line(&mut numbers, random);
    }
    if random.percent(6) {
        let place = random.below(8);
        let beyond = i64::from(RANGE) + 1;
        numbers[place] = random.pick(&[beyond, -beyond, i32::MAX.into(), i32::MIN.into()]);
    }
    match random.below(90) {
        0 => drop(numbers.pop()),
        1 => numbers.push(0),
        2 => numbers[random.below(8)] = random.pick(&[1 << 31, -(1 << 31) - 1]),
        _ => {}
    }
    let words: Vec<String> = numbers.iter().map(i64::to_string).collect();
    format!("edge {}", words.join(" "))
}

/// Makes the last four numbers west, south, east and north of a box.
fn upright(numbers: &mut [i64]) {
    for low in [4, 5] {
        if numbers[low + 2] < numbers[low] {
            numbers.swap(low, low + 2);
        }
    }
}

/// Lays both ends of the edge onto one line of the box.
fn onto_a_line(numbers: &mut [i64], random: &mut Random) {
    let line = random.below(4);
    let axis = line % 2;
    numbers[axis] = numbers[4 + line];
    numbers[axis + 2] = numbers[4 + line];
}
