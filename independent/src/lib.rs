//! The independent program: the direction part of document 01, written a second
//! time from the document alone, in exact fractions. Where the proved program
//! and this one answer differently, one of them is wrong.
//!
//! From the ground up: `fraction`, `plane`, `tile` and `refusal` are the words;
//! `region`, `meet` and `check` say which outlines are accepted; `relation`,
//! `matrix`, `drawn` and `pair` say where one lies from another; `sheet`, `card`, `host`
//! and `listing` are the calls on parcels; `desk` asks them all at a keyboard,
//! and `make` invents requests and cards for it.

#![forbid(unsafe_code)]

pub mod card;
pub mod check;
pub mod desk;
pub mod drawn;
pub mod fraction;
pub mod hex;
pub mod host;
pub mod listing;
pub mod make;
pub mod matrix;
pub mod meet;
pub mod pair;
pub mod plane;
pub mod refusal;
pub mod region;
pub mod relation;
pub mod sheet;
pub mod tile;
