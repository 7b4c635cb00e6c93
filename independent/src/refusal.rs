//! The numbers of refusals. Document 01, the table in "Outlines that are
//! accepted", without its row 13: request L10 of document 02 takes that out,
//! and gives the number to nothing else. From 18 on document 02 has them.

/// Why a call is refused; each case has its number.
#[derive(Clone, Copy, Debug, PartialEq, Eq)]
pub enum Refusal {
    RingCount = 1,
    ShortRing = 2,
    VertexCount = 3,
    OutOfRange = 4,
    RepeatedVertex = 5,
    TouchesItself = 6,
    NotClockwise = 7,
    SlotTooHigh = 8,
    SlotEmpty = 9,
    BufferTooShort = 10,
    ListLength = 11,
    SheetDamaged = 12,
    CardHeader = 14,
    CardEntries = 15,
    CardVertices = 16,
    NotTwoParcels = 17,
    OddPairs = 18,
}

impl Refusal {
    /// The number that is answered.
    pub fn number(self) -> u16 {
        self as u16
    }
}

/// What a call answers for its outcome: the refusal's number, or 0.
pub fn number<T>(outcome: &Result<T, Refusal>) -> u16 {
    outcome.as_ref().err().map_or(0, |refusal| refusal.number())
}

#[cfg(test)]
mod tests {
    use super::*;

    #[test]
    fn no_refusal_has_number_13() {
        let before = [
            Refusal::RingCount,
            Refusal::ShortRing,
            Refusal::VertexCount,
            Refusal::OutOfRange,
            Refusal::RepeatedVertex,
            Refusal::TouchesItself,
            Refusal::NotClockwise,
            Refusal::SlotTooHigh,
            Refusal::SlotEmpty,
            Refusal::BufferTooShort,
            Refusal::ListLength,
            Refusal::SheetDamaged,
        ];
        let after = [
            Refusal::CardHeader,
            Refusal::CardEntries,
            Refusal::CardVertices,
            Refusal::NotTwoParcels,
        ];
        assert!(before.map(Refusal::number).into_iter().eq(1..=12));
        assert!(after.map(Refusal::number).into_iter().eq(14..=17));
    }
}
