//! The sheet of 32 parcels with all relations kept. Document 01, "The sheet".
//! Every call works out what stands, and writes its own slot from that.

use std::collections::BTreeMap;

use crate::check::{check, check_ends, is_out_of_range, last, MOST_RINGS, MOST_VERTICES};
use crate::refusal::Refusal;
use crate::region::{Outline, Region};
use crate::relation::relation;

/// How many parcels a sheet holds.
pub const SLOTS: usize = 32;
/// How many coordinates a slot has room for.
pub const COORDINATES_A_SLOT: usize = 2 * MOST_VERTICES;
/// How many numbers a slot's record has: its ring count, then the ends.
pub const RECORD: usize = 1 + MOST_RINGS;
/// The lengths of the three lists.
pub const COORDINATES: usize = SLOTS * COORDINATES_A_SLOT;
pub const RECORDS: usize = SLOTS * RECORD;
pub const RELATIONS: usize = SLOTS * SLOTS;

/// The parcels that stand, by slot. They keep rules 1 to 4 at least.
pub type Standing = BTreeMap<usize, Region>;

/// The three lists of a sheet as they are lent to a call, of any length and
/// with anything in them.
pub struct Sheet<'a> {
    pub coordinates: &'a mut [i32],
    pub records: &'a mut [u16],
    pub relations: &'a mut [u16],
}

impl Sheet<'_> {
    /// Puts an outline in a slot, in place of what stands there.
    pub fn put(&mut self, slot: u16, outline: &Outline) -> Result<(), Refusal> {
        self.check_lengths()?;
        let slot = checked_slot(slot)?;
        let mut standing = self.standing()?;
        let region = check(outline)?;
        standing.insert(slot, region);
        self.write_slot(slot, &standing);
        Ok(())
    }

    /// Takes the parcel out of a slot.
    pub fn remove(&mut self, slot: u16) -> Result<(), Refusal> {
        self.check_lengths()?;
        let slot = checked_slot(slot)?;
        let mut standing = self.standing()?;
        standing.remove(&slot).ok_or(Refusal::SlotEmpty)?;
        self.write_slot(slot, &standing);
        Ok(())
    }

    /// Sets every number to 0.
    pub fn clear(&mut self) -> Result<(), Refusal> {
        self.check_lengths()?;
        self.coordinates.fill(0);
        self.records.fill(0);
        self.relations.fill(0);
        Ok(())
    }

    /// Number 11.
    pub fn check_lengths(&self) -> Result<(), Refusal> {
        let lengths = (
            self.coordinates.len(),
            self.records.len(),
            self.relations.len(),
        );
        if lengths == (COORDINATES, RECORDS, RELATIONS) {
            Ok(())
        } else {
            Err(Refusal::ListLength)
        }
    }

    /// What stands on a sheet of the right lengths, if it is not damaged.
    /// Places that are not in use, and the relations, are not looked at.
    pub fn standing(&self) -> Result<Standing, Refusal> {
        let mut standing = Standing::new();
        let records = self.records.chunks_exact(RECORD);
        let rooms = self.coordinates.chunks_exact(COORDINATES_A_SLOT);
        for (slot, (record, room)) in records.zip(rooms).enumerate() {
            let rings = usize::from(record[0]);
            if rings > MOST_RINGS {
                return Err(Refusal::SheetDamaged);
            }
            if rings > 0 {
                standing.insert(slot, parcel(&record[1..=rings], room)?);
            }
        }
        Ok(standing)
    }

    /// Writes the whole sheet anew.
    pub fn replace(&mut self, standing: &Standing) {
        for slot in 0..SLOTS {
            self.write_slot(slot, standing);
        }
    }

    /// Writes all that belongs to one slot: its outline room, its row and its
    /// column, zeros included.
    fn write_slot(&mut self, slot: usize, standing: &Standing) {
        let room = &mut self.coordinates[COORDINATES_A_SLOT * slot..][..COORDINATES_A_SLOT];
        let record = &mut self.records[RECORD * slot..][..RECORD];
        let Outline { ends, coordinates } = standing
            .get(&slot)
            .map_or_else(Outline::default, Region::outline);
        room.fill(0);
        room[..coordinates.len()].copy_from_slice(&coordinates);
        record.fill(0);
        record[0] = ends.len() as u16;
        record[1..=ends.len()].copy_from_slice(&ends);
        for other in 0..SLOTS {
            self.relations[cell_index(slot, other)] = cell_value(standing, slot, other);
            self.relations[cell_index(other, slot)] = cell_value(standing, other, slot);
        }
    }
}

/// Reads the cell of a primary and a reference slot. A sheet that is damaged is
/// read as it stands.
pub fn cell(
    records: &[u16],
    relations: &[u16],
    primary: u16,
    reference: u16,
) -> Result<u16, Refusal> {
    check_reading_lengths(records, relations)?;
    let primary = checked_slot(primary)?;
    let reference = checked_slot(reference)?;
    check_occupied(records, primary)?;
    check_occupied(records, reference)?;
    Ok(relations[cell_index(primary, reference)])
}

/// What is added to the number of a pair that is refused.
const REFUSED: u16 = 1_000;

/// Reads the cells of a list of pairs, primary and reference in turn, into a
/// list of results: the relation, or 1000 plus the number. A pair that is
/// refused is answered like any other. Document 02, L4.
pub fn cells(
    records: &[u16],
    relations: &[u16],
    pairs: &[u16],
    results: &mut [u16],
) -> Result<(), Refusal> {
    check_reading_lengths(records, relations)?;
    if pairs.len() % 2 != 0 {
        return Err(Refusal::OddPairs);
    }
    if results.len() < pairs.len() / 2 {
        return Err(Refusal::BufferTooShort);
    }
    for (pair, result) in pairs.chunks_exact(2).zip(results) {
        *result = match cell(records, relations, pair[0], pair[1]) {
            Ok(relation) => relation,
            Err(refusal) => REFUSED + refusal.number(),
        };
    }
    Ok(())
}

/// Hands out a slot's row as that part of the lent relations.
pub fn row<'a>(records: &[u16], relations: &'a [u16], slot: u16) -> Result<&'a [u16], Refusal> {
    check_reading_lengths(records, relations)?;
    let slot = checked_slot(slot)?;
    check_occupied(records, slot)?;
    Ok(&relations[cell_index(slot, 0)..][..SLOTS])
}

/// Number 11 for a reading, which is lent two of the lists.
fn check_reading_lengths(records: &[u16], relations: &[u16]) -> Result<(), Refusal> {
    if (records.len(), relations.len()) == (RECORDS, RELATIONS) {
        Ok(())
    } else {
        Err(Refusal::ListLength)
    }
}

/// Number 8.
fn checked_slot(slot: u16) -> Result<usize, Refusal> {
    let slot = usize::from(slot);
    if slot < SLOTS {
        Ok(slot)
    } else {
        Err(Refusal::SlotTooHigh)
    }
}

/// Number 9: "Ring count 0 means empty".
fn check_occupied(records: &[u16], slot: usize) -> Result<(), Refusal> {
    if records[RECORD * slot] == 0 {
        Err(Refusal::SlotEmpty)
    } else {
        Ok(())
    }
}

/// The parcel of a slot that is not empty, if it keeps rules 2, 3 (last end)
/// and 4.
fn parcel(ends: &[u16], room: &[i32]) -> Result<Region, Refusal> {
    check_ends(ends).map_err(|_| Refusal::SheetDamaged)?;
    let region = Region::new(ends, &room[..2 * last(ends)]);
    if region.rings.iter().any(is_out_of_range) {
        return Err(Refusal::SheetDamaged);
    }
    Ok(region)
}

fn cell_index(primary: usize, reference: usize) -> usize {
    SLOTS * primary + reference
}

/// A cell of two different occupied slots holds the relation, any other cell 0:
/// by document 02, L5, also that of a parcel with itself.
fn cell_value(standing: &Standing, primary: usize, reference: usize) -> u16 {
    match (standing.get(&primary), standing.get(&reference)) {
        (Some(first), Some(second)) if primary != reference => relation(first, &second.bounds()),
        _ => 0,
    }
}
