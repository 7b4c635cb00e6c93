//! A sheet's lists, to be lent to calls.

use std::collections::BTreeMap;

use independent::refusal::number;
use independent::region::Outline;
use independent::sheet::{cell, row, Sheet};

/// The three lists of a sheet.
#[derive(Clone, Debug, PartialEq)]
pub struct Lists {
    pub coordinates: Vec<i32>,
    pub records: Vec<u16>,
    pub relations: Vec<u16>,
}

impl Lists {
    pub fn empty() -> Self {
        Self {
            coordinates: vec![0; 4_096],
            records: vec![0; 288],
            relations: vec![0; 1_024],
        }
    }

    /// A fresh sheet with some parcels, put once each in rising slot order.
    pub fn fresh(parcels: &BTreeMap<u16, Outline>) -> Self {
        let mut lists = Self::empty();
        for (&slot, outline) in parcels {
            assert_eq!(lists.put(slot, outline), 0);
        }
        lists
    }

    pub fn lend(&mut self) -> Sheet<'_> {
        Sheet {
            coordinates: &mut self.coordinates,
            records: &mut self.records,
            relations: &mut self.relations,
        }
    }

    pub fn put(&mut self, slot: u16, outline: &Outline) -> u16 {
        number(&self.lend().put(slot, outline))
    }

    pub fn remove(&mut self, slot: u16) -> u16 {
        number(&self.lend().remove(slot))
    }

    pub fn cell(&self, primary: u16, reference: u16) -> Result<u16, u16> {
        let cell = cell(&self.records, &self.relations, primary, reference);
        cell.map_err(|refusal| refusal.number())
    }

    pub fn row(&self, slot: u16) -> Result<&[u16], u16> {
        let row = row(&self.records, &self.relations, slot);
        row.map_err(|refusal| refusal.number())
    }

    /// Writes an outline as others might: no relation is renewed.
    pub fn write_outline(&mut self, slot: usize, outline: &Outline) {
        self.records[9 * slot] = outline.ends.len() as u16;
        self.records[9 * slot + 1..][..outline.ends.len()].copy_from_slice(&outline.ends);
        self.coordinates[128 * slot..][..outline.coordinates.len()]
            .copy_from_slice(&outline.coordinates);
    }
}
