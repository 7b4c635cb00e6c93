//! The program as it is called.

use std::collections::HashSet;
use std::fs;
use std::io::{Read, Write};
use std::path::PathBuf;
use std::process::{Command, Output, Stdio};

use independent::listing::listing;

fn independent(words: &[&str]) -> Command {
    let mut command = Command::new(env!("CARGO_BIN_EXE_independent"));
    command.args(words);
    command
}

/// Runs a command on some input.
fn run(words: &[&str], input: &[u8]) -> Output {
    let mut child = independent(words)
        .stdin(Stdio::piped())
        .stdout(Stdio::piped())
        .stderr(Stdio::piped())
        .spawn()
        .expect("the program starts");
    let mut stdin = child.stdin.take().expect("its input is ours");
    let input = input.to_vec();
    // It may stop reading before the end, so an error here is no failure.
    let writer = std::thread::spawn(move || stdin.write_all(&input).is_ok());
    let output = child.wait_with_output().expect("the program ends");
    writer.join().expect("writing does not panic");
    output
}

#[test]
fn wrong_calls_are_told_so() {
    let wrong: [&[&str]; 16] = [
        &[],
        &["help"],
        &["Desk"],
        &["desk", "x"],
        &["list", "x"],
        &["make"],
        &["make", "pairs"],
        &["make", "pairs", "1"],
        &["make", "outlines", "1", "1"],
        &["make", "pairs", "-1", "1"],
        &["make", "pairs", "1", "x"],
        &["make", "pairs", "+1", "1"],
        &["make", "pairs", "1", "99999999999999999999"],
        &["make", "pairs", "1", "1", "1"],
        &["cards", "1", "1"],
        &["cards", "1", "", "x"],
    ];
    for words in wrong {
        let output = run(words, b"");
        assert_eq!(output.status.code(), Some(2), "{words:?}");
        assert!(output.stdout.is_empty());
        let message = String::from_utf8(output.stderr).expect("plain text");
        assert!(message.starts_with("independent: "), "{message}");
        assert_eq!(message.lines().count(), 1, "{message}");
    }
}

#[test]
fn the_desk_answers_what_is_made_for_it() {
    let requests = run(&["make", "pairs", "50", "3"], b"").stdout;
    let output = run(&["desk"], &requests);
    assert!(output.status.success() && output.stderr.is_empty());
    let answers = String::from_utf8(output.stdout).expect("plain text");
    assert_eq!(answers.lines().count(), 50);
    assert!(answers.lines().any(|answer| answer.starts_with("0 0 0 ")));
}

#[test]
fn the_desk_answers_before_its_input_ends() {
    let mut child = independent(&["desk"])
        .stdin(Stdio::piped())
        .stdout(Stdio::piped())
        .spawn()
        .expect("the program starts");
    let mut stdin = child.stdin.take().expect("its input is ours");
    let mut stdout = child.stdout.take().expect("its output is ours");
    for (request, expected) in [("tiles 7\n", b"3\n"), ("clear\n", b"0\n")] {
        stdin.write_all(request.as_bytes()).expect("it reads");
        let mut answer = [0; 2];
        stdout.read_exact(&mut answer).expect("it answers");
        assert_eq!(&answer, expected);
    }
    drop(stdin);
    assert!(child.wait().expect("the program ends").success());
}

#[test]
fn a_reader_that_leaves_is_no_error() {
    let mut child = independent(&["make", "pairs", "20000", "1"])
        .stdout(Stdio::piped())
        .stderr(Stdio::piped())
        .spawn()
        .expect("the program starts");
    let mut first = [0; 4];
    let mut stdout = child.stdout.take().expect("its output is ours");
    stdout.read_exact(&mut first).expect("a first request");
    drop(stdout);
    let output = child.wait_with_output().expect("the program ends");
    assert!(output.status.success());
    assert!(output.stderr.is_empty(), "{:?}", output.stderr);
}

#[test]
fn the_listing_reads_one_byte_more_than_the_longest_card() {
    assert_eq!(run(&["list"], b"").stdout, b"refused 14\n");
    assert_eq!(run(&["list"], &[0; 1_000_000]).stdout, b"refused 14\n");
    let card = [0, 0, 0, 0, 0, 0, 12, 0, 12, 0, 12, 0];
    assert_eq!(run(&["list"], &card).stdout, b"parcels 0\n");
}

#[test]
fn card_files_are_the_cards_of_the_batch() {
    let directory = PathBuf::from(env!("CARGO_TARGET_TMPDIR")).join("cards");
    let path = directory.to_str().expect("a plain path");
    let output = run(&["cards", "25", "4", path], b"");
    assert!(output.status.success() && output.stdout.is_empty());
    let requests = run(&["make", "cards", "25", "4"], b"").stdout;
    let requests = String::from_utf8(requests).expect("plain text");
    let loads = requests
        .lines()
        .filter_map(|line| line.strip_prefix("load "));
    for (number, load) in (1..=25).zip(loads) {
        let file = directory.join(format!("{number:04}.card"));
        let card = fs::read(&file).expect("a card file");
        assert_eq!(independent::hex::read(load.as_bytes()), Some(card.clone()));
        let printed = run(&["list"], &card).stdout;
        assert_eq!(printed, listing(&card).as_bytes());
    }
    fs::remove_dir_all(&directory).expect("the files were ours");
}

#[test]
fn a_directory_that_cannot_be_is_an_error_in_words() {
    let output = run(&["cards", "1", "1", "/dev/null/cards"], b"");
    assert_eq!(output.status.code(), Some(1));
    assert!(output.stderr.starts_with(b"independent: "));
}

#[test]
fn a_card_is_spoiled_in_every_place_and_cut_at_every_length() {
    let card = [0, 0, 0, 0, 0, 0, 12, 0, 12, 0, 12, 0];
    let requests = run(&["spoil"], &card).stdout;
    let requests = String::from_utf8(requests).expect("plain text");
    let loads = requests
        .lines()
        .filter_map(|line| line.strip_prefix("load "))
        .filter_map(|word| independent::hex::read(word.as_bytes()));
    let cards: HashSet<Vec<u8>> = loads.collect();
    assert_eq!(cards.len(), 12 + 12 * 255);
    assert!(!cards.contains(&card[..]));
    for other in &cards {
        let differing = other.iter().zip(&card).filter(|(a, b)| a != b).count();
        assert!(differing + card.len() - other.len() == 1 || differing == 0);
    }
}

#[test]
fn short_cards_have_every_length() {
    let requests = run(&["make", "short", "82", "1"], b"").stdout;
    let requests = String::from_utf8(requests).expect("plain text");
    let loads = requests
        .lines()
        .filter_map(|line| line.strip_prefix("load "));
    let lengths: Vec<usize> = loads
        .map(|word| {
            independent::hex::read(word.as_bytes())
                .expect("bytes")
                .len()
        })
        .collect();
    assert_eq!(lengths, (0..41).chain(0..41).collect::<Vec<usize>>());
}

#[test]
fn matrices_show_every_direction_and_some_are_no_matrix() {
    let requests = run(&["make", "matrices", "2000", "1"], b"").stdout;
    let answers = run(&["desk"], &requests).stdout;
    let answers = String::from_utf8(answers).expect("plain text");
    assert_eq!(answers.lines().count(), 2_000);
    let refused = answers.lines().filter(|&answer| answer == "?").count();
    assert!((30..200).contains(&refused), "{refused}");
    let sets: HashSet<u16> = answers.lines().filter_map(|set| set.parse().ok()).collect();
    assert!(sets.contains(&0) && sets.contains(&511));
    for bit in 0..9 {
        assert!(sets.contains(&(1 << bit)), "{bit} alone");
    }
    let words = String::from_utf8(requests).expect("plain text");
    let is_other = |word: &str| word.parse::<u8>().map_or(false, |number| number > 3);
    assert!(words.split_whitespace().any(is_other));
}

#[test]
fn edges_show_every_tile_and_every_length() {
    let requests = run(&["make", "edges", "2000", "1"], b"").stdout;
    let answers = run(&["desk"], &requests).stdout;
    let answers = String::from_utf8(answers).expect("plain text");
    assert_eq!(answers.lines().count(), 2_000);
    for (answer, least, most) in [("?", 30, 150), ("-", 200, 600)] {
        let count = answers.lines().filter(|&line| line == answer).count();
        assert!((least..most).contains(&count), "{answer}: {count}");
    }
    let lists: HashSet<&str> = answers.lines().collect();
    for bit in 0..9 {
        assert!(lists.contains(format!("1 {bit}").as_str()), "{bit} alone");
    }
    for length in 1..6 {
        let begin = format!("{length} ");
        assert!(
            lists.iter().any(|list| list.starts_with(&begin)),
            "{length}"
        );
    }
}
