//! Requests as lines of the desk's language.

use crate::hex;
use crate::region::Outline;

pub fn pair_request(first: &Outline, second: &Outline) -> String {
    format!("pair {} {}", outline(first), outline(second))
}

pub fn drawn_request(first: &Outline, second: &Outline) -> String {
    format!("drawn {} {}", outline(first), outline(second))
}

pub fn put_request(slot: u16, parcel: &Outline) -> String {
    format!("put {slot} {}", outline(parcel))
}

pub fn cells_request(pairs: &[u16], results: usize) -> String {
    let pairs: Vec<String> = std::iter::once(pairs.len().to_string())
        .chain(pairs.iter().map(u16::to_string))
        .collect();
    format!("cells {} {results}", pairs.join(" "))
}

pub fn tiles_request(relation: u16) -> String {
    format!("tiles {relation}")
}

pub fn load_request(card: &[u8]) -> String {
    format!("load {}", hex::text(card))
}

pub fn host_request(length: usize, card: &[u8]) -> String {
    format!("host {length} {}", hex::text(card))
}

fn outline(outline: &Outline) -> String {
    let counted = |numbers: Vec<String>| format!("{} {}", numbers.len(), numbers.join(" "));
    let ends = outline.ends.iter().map(u16::to_string).collect();
    let coordinates = outline.coordinates.iter().map(i32::to_string).collect();
    let text = format!("{} {}", counted(ends), counted(coordinates));
    text.trim_end().to_owned()
}
