//! The commands of the independent program.

#![forbid(unsafe_code)]

use std::env;
use std::ffi::OsString;
use std::io::{self, BufWriter, ErrorKind, Read, Write};
use std::path::PathBuf;
use std::process::ExitCode;

use independent::card;
use independent::desk;
use independent::listing::listing;
use independent::make::{self, Kind};

const USAGE: &str =
    "usage: independent desk | list | make pairs|drawn|sheets|cells|cards|edges|matrices|short N SEED | spoil | cards N SEED DIR";

/// What is asked for on the command line.
enum Command {
    Desk,
    List,
    Make(Kind, u64, u64),
    Spoil,
    Cards(u64, u64, PathBuf),
}

fn main() -> ExitCode {
    let words: Vec<OsString> = env::args_os().skip(1).collect();
    let command = match parse(&words) {
        Ok(command) => command,
        Err(reason) => {
            eprintln!("independent: {reason}; {USAGE}");
            return ExitCode::from(2);
        }
    };
    match run(command) {
        Ok(()) => ExitCode::SUCCESS,
        // Whoever reads the answers has read enough.
        Err(error) if error.kind() == ErrorKind::BrokenPipe => ExitCode::SUCCESS,
        Err(error) => {
            eprintln!("independent: {error}");
            ExitCode::FAILURE
        }
    }
}

fn run(command: Command) -> io::Result<()> {
    let mut output = BufWriter::new(io::stdout().lock());
    match command {
        Command::Desk => desk::run(io::stdin().lock(), &mut output),
        Command::List => {
            output.write_all(listing(&card_on_input()?).as_bytes())?;
            output.flush()
        }
        Command::Make(kind, items, seed) => make::batch(kind, items, seed, &mut output),
        Command::Spoil => make::spoiled(&card_on_input()?, &mut output),
        Command::Cards(items, seed, directory) => make::card_files(items, seed, &directory),
    }
}

/// The bytes on standard input. One byte more than the longest card shows that
/// they are no card.
fn card_on_input() -> io::Result<Vec<u8>> {
    let mut bytes = Vec::new();
    let input = io::stdin().lock();
    input
        .take(card::LONGEST as u64 + 1)
        .read_to_end(&mut bytes)?;
    Ok(bytes)
}

fn parse(words: &[OsString]) -> Result<Command, String> {
    let (command, rest) = words.split_first().ok_or("no command")?;
    match (command.to_str(), rest) {
        (Some("desk"), []) => Ok(Command::Desk),
        (Some("list"), []) => Ok(Command::List),
        (Some("spoil"), []) => Ok(Command::Spoil),
        (Some("make"), [kind, items, seed]) => Ok(Command::Make(
            parse_kind(kind)?,
            number(items)?,
            number(seed)?,
        )),
        (Some("cards"), [items, seed, directory]) => Ok(Command::Cards(
            number(items)?,
            number(seed)?,
            directory.into(),
        )),
        (Some("desk" | "list" | "make" | "spoil" | "cards"), _) => Err(format!(
            "wrong number of words after {}",
            command.to_string_lossy()
        )),
        _ => Err(format!("unknown command {}", command.to_string_lossy())),
    }
}

fn parse_kind(word: &OsString) -> Result<Kind, String> {
    match word.to_str() {
        Some("pairs") => Ok(Kind::Pairs),
        Some("drawn") => Ok(Kind::Drawn),
        Some("sheets") => Ok(Kind::Sheets),
        Some("cells") => Ok(Kind::Cells),
        Some("cards") => Ok(Kind::Cards),
        Some("edges") => Ok(Kind::Edges),
        Some("matrices") => Ok(Kind::Matrices),
        Some("short") => Ok(Kind::Short),
        _ => Err(format!("unknown kind {}", word.to_string_lossy())),
    }
}

fn number(word: &OsString) -> Result<u64, String> {
    let digits = word.to_str().filter(|text| !text.starts_with('+'));
    digits
        .and_then(|text| text.parse().ok())
        .ok_or_else(|| format!("{} is not a number from 0", word.to_string_lossy()))
}
