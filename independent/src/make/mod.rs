//! Invented requests and cards for the desk and the listing program, good and
//! bad, which depend on a seed alone. They are what the proved program and this
//! one are compared on (document 01: "everything else is run and compared with
//! an independent program").

pub mod cards;
mod drawn;
mod edges;
pub mod faults;
mod matrices;
pub mod pairs;
pub mod random;
pub mod regions;
pub mod rings;
mod sheets;
mod text;

use std::fs;
use std::io::{self, Write};
use std::path::Path;

use random::Random;

/// What a batch is about.
#[derive(Clone, Copy, Debug, PartialEq, Eq)]
pub enum Kind {
    /// Requests for the pair call.
    Pairs,
    /// Requests for the drawn matrix.
    Drawn,
    /// Runs of calls on a sheet.
    Sheets,
    /// The same, with lists of pairs among them.
    Cells,
    /// Cards, each with requests about it.
    Cards,
    /// Edges, each with a box.
    Edges,
    /// Matrices whose directions are read.
    Matrices,
    /// Cards of 0 to 40 random bytes, each with requests about it.
    Short,
}

/// Writes a batch of so many items of a kind, one request a line.
pub fn batch(kind: Kind, items: u64, seed: u64, output: &mut impl Write) -> io::Result<()> {
    for item in 0..items {
        let mut random = Random::for_item(seed, item);
        let lines = match kind {
            Kind::Pairs => vec![pairs::request(&mut random)],
            Kind::Drawn => vec![drawn::request(&mut random)],
            Kind::Sheets => sheets::run(&mut random),
            Kind::Cells => sheets::run_with_lists(&mut random),
            Kind::Cards => cards::requests(&mut random),
            Kind::Edges => vec![edges::request(&mut random)],
            Kind::Matrices => vec![matrices::request(&mut random)],
            Kind::Short => cards::short_requests(item, &mut random),
        };
        for line in lines {
            writeln!(output, "{line}")?;
        }
    }
    output.flush()
}

/// Writes requests about every cut and every one-byte change of a card.
pub fn spoiled(card: &[u8], output: &mut impl Write) -> io::Result<()> {
    for line in cards::spoiled_requests(card) {
        writeln!(output, "{line}")?;
    }
    output.flush()
}

/// Writes the cards of a batch as files 0001.card and so on.
pub fn card_files(items: u64, seed: u64, directory: &Path) -> io::Result<()> {
    fs::create_dir_all(directory)?;
    for item in 0..items {
        let card = cards::card(&mut Random::for_item(seed, item));
        fs::write(directory.join(format!("{:04}.card", item + 1)), card)?;
    }
    Ok(())
}
