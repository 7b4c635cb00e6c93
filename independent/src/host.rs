//! The C host's call. Document 01, "The card", second paragraph; of the order
//! there request L10 of document 02 takes the last number away.

use crate::card;
use crate::pair;
use crate::refusal::Refusal;

/// The length of a report: a pair answer in u16.
pub const REPORT: usize = 2 * pair::NUMBERS;

/// Reports where the two parcels of a card lie from each other, at the front
/// of a buffer.
pub fn report(card: &[u8], buffer: &mut [u8]) -> Result<(), Refusal> {
    let front = buffer.get_mut(..REPORT).ok_or(Refusal::BufferTooShort)?;
    let parcels = card::read(card)?;
    let regions: Vec<_> = parcels.values().collect();
    let numbers = match regions.as_slice() {
        [first, second] => pair::numbers(&Ok(pair::compare(first, second))),
        _ => return Err(Refusal::NotTwoParcels),
    };
    for (place, number) in front.chunks_exact_mut(2).zip(numbers) {
        place.copy_from_slice(&number.to_le_bytes());
    }
    Ok(())
}
