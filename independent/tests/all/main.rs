//! Document 01 as tests: everything it says of its outlines, what its open
//! points are read as, and what must hold of any outlines, sheets and cards.

mod area;
mod cards;
mod commands;
mod common;
mod desk;
mod foreign;
mod lists;
mod matrices;
mod outlines;
mod pins;
mod properties;
mod refusals;
mod reports;
mod sheets;
mod travel;
