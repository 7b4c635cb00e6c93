//! Cards: bytes to parcels and back, loading and writing. Document 01, "The
//! card", first paragraph.

use crate::check::{check_ends, check_rings, last, MOST_RINGS, MOST_VERTICES};
use crate::refusal::Refusal;
use crate::region::{Outline, Region};
use crate::sheet::{Sheet, Standing, SLOTS};

const HEADER: usize = 12;
const PARCEL_ENTRY: usize = 4;
const RING_ENTRY: usize = 2;
const VERTEX: usize = 8;

/// The length of a card with all the parcels, rings and vertices it may have.
pub const LONGEST: usize = Layout::MOST.length();

/// Loads a card: it replaces the whole sheet, damaged or not.
pub fn load(sheet: &mut Sheet, card: &[u8]) -> Result<(), Refusal> {
    sheet.check_lengths()?;
    sheet.replace(&read(card)?);
    Ok(())
}

/// Writes the sheet as a card at the front of a buffer, and answers the card's
/// length.
pub fn write(sheet: &Sheet, buffer: &mut [u8]) -> Result<usize, Refusal> {
    sheet.check_lengths()?;
    let card = Parts::of_parcels(&sheet.standing()?).bytes();
    let front = buffer
        .get_mut(..card.len())
        .ok_or(Refusal::BufferTooShort)?;
    front.copy_from_slice(&card);
    Ok(card.len())
}

/// The parcels of a card.
pub fn read(card: &[u8]) -> Result<Standing, Refusal> {
    Parts::of_bytes(card)?.parcels()
}

/// The numbers of a card's three parts, whatever they are.
#[derive(Clone, Debug, Default, PartialEq, Eq)]
pub struct Parts {
    pub entries: Vec<Entry>,
    pub ends: Vec<u16>,
    pub coordinates: Vec<i32>,
}

/// A parcel entry.
#[derive(Clone, Copy, Debug, PartialEq, Eq)]
pub struct Entry {
    pub slot: u16,
    pub rings: u16,
}

impl Parts {
    /// The parts of a card, or number 14.
    fn of_bytes(card: &[u8]) -> Result<Self, Refusal> {
        let header = card.get(..HEADER).ok_or(Refusal::CardHeader)?;
        let header = u16_numbers(header);
        let layout = Layout {
            parcels: header[0].into(),
            rings: header[1].into(),
            vertices: header[2].into(),
        };
        let is_kept =
            layout.keeps_limits() && header == layout.header() && card.len() == layout.length();
        if !is_kept {
            return Err(Refusal::CardHeader);
        }
        let (rings_at, vertices_at) = (layout.rings_at(), layout.vertices_at());
        Ok(Self {
            entries: u16_numbers(&card[HEADER..rings_at])
                .chunks_exact(2)
                .map(|entry| Entry {
                    slot: entry[0],
                    rings: entry[1],
                })
                .collect(),
            ends: u16_numbers(&card[rings_at..vertices_at]),
            coordinates: i32_numbers(&card[vertices_at..]),
        })
    }

    /// The card of these parts, with the header that fits their lengths.
    pub fn bytes(&self) -> Vec<u8> {
        let layout = Layout {
            parcels: self.entries.len(),
            rings: self.ends.len(),
            vertices: self.coordinates.len() / 2,
        };
        let entries = self.entries.iter();
        let entries = entries.flat_map(|entry| [entry.slot, entry.rings]);
        let header = layout.header().into_iter();
        let numbers = header.chain(entries).chain(self.ends.iter().copied());
        let mut card: Vec<u8> = numbers.flat_map(u16::to_le_bytes).collect();
        card.extend(
            self.coordinates
                .iter()
                .flat_map(|number| number.to_le_bytes()),
        );
        card
    }

    /// The parts of the card of some parcels.
    fn of_parcels(parcels: &Standing) -> Self {
        let mut parts = Self::default();
        for (&slot, parcel) in parcels {
            parts.add(slot as u16, &parcel.outline());
        }
        parts
    }

    /// Adds a parcel behind the others.
    pub fn add(&mut self, slot: u16, outline: &Outline) {
        self.entries.push(Entry {
            slot,
            rings: outline.ends.len() as u16,
        });
        self.ends.extend(&outline.ends);
        self.coordinates.extend(&outline.coordinates);
    }

    /// The parcels: 15, then 2 and 3 parcel by parcel, 16, then 4 to 7 parcel
    /// by parcel.
    fn parcels(&self) -> Result<Standing, Refusal> {
        self.check_entries()?;
        let mut ends = self.ends.as_slice();
        let mut outlines = Vec::new();
        for entry in &self.entries {
            let (own, others) = ends.split_at(entry.rings.into());
            check_ends(own)?;
            outlines.push((entry.slot, own));
            ends = others;
        }
        let vertices: usize = outlines.iter().map(|(_, ends)| last(ends)).sum();
        if 2 * vertices != self.coordinates.len() {
            return Err(Refusal::CardVertices);
        }
        let mut coordinates = self.coordinates.as_slice();
        let mut parcels = Standing::new();
        for (slot, ends) in outlines {
            let (own, others) = coordinates.split_at(2 * last(ends));
            let region = Region::new(ends, own);
            check_rings(&region)?;
            parcels.insert(slot.into(), region);
            coordinates = others;
        }
        Ok(parcels)
    }

    /// Number 15.
    fn check_entries(&self) -> Result<(), Refusal> {
        let entries = &self.entries;
        let slots_rise = entries.windows(2).all(|two| two[0].slot < two[1].slot);
        let each_is_good = entries.iter().all(|entry| {
            usize::from(entry.slot) < SLOTS && (1..=MOST_RINGS).contains(&entry.rings.into())
        });
        let rings: usize = entries.iter().map(|entry| usize::from(entry.rings)).sum();
        if slots_rise && each_is_good && rings == self.ends.len() {
            Ok(())
        } else {
            Err(Refusal::CardEntries)
        }
    }
}

/// How many parcels, rings and vertices a card has, and so where its three
/// parts begin.
struct Layout {
    parcels: usize,
    rings: usize,
    vertices: usize,
}

impl Layout {
    const MOST: Self = Self {
        parcels: SLOTS,
        rings: SLOTS * MOST_RINGS,
        vertices: SLOTS * MOST_VERTICES,
    };

    const fn rings_at(&self) -> usize {
        HEADER + PARCEL_ENTRY * self.parcels
    }

    const fn vertices_at(&self) -> usize {
        self.rings_at() + RING_ENTRY * self.rings
    }

    const fn length(&self) -> usize {
        self.vertices_at() + VERTEX * self.vertices
    }

    /// The header of a card so laid out.
    fn header(&self) -> [u16; 6] {
        [
            self.parcels,
            self.rings,
            self.vertices,
            HEADER,
            self.rings_at(),
            self.vertices_at(),
        ]
        .map(|number| number as u16)
    }

    fn keeps_limits(&self) -> bool {
        self.parcels <= Self::MOST.parcels
            && self.rings <= Self::MOST.rings
            && self.vertices <= Self::MOST.vertices
    }
}

fn u16_numbers(bytes: &[u8]) -> Vec<u16> {
    let pairs = bytes.chunks_exact(2);
    pairs
        .map(|two| u16::from_le_bytes([two[0], two[1]]))
        .collect()
}

fn i32_numbers(bytes: &[u8]) -> Vec<i32> {
    let fours = bytes.chunks_exact(4);
    fours
        .map(|four| i32::from_le_bytes([four[0], four[1], four[2], four[3]]))
        .collect()
}
