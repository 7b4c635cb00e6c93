//! The desk: every request, any bytes, and the batches made for it.

use std::collections::BTreeSet;

use independent::make::random::Random;
use independent::make::{batch, Kind};

use crate::common::ask;

fn made(kind: Kind, items: u64, seed: u64) -> Vec<u8> {
    let mut text = Vec::new();
    batch(kind, items, seed, &mut text).expect("memory takes any batch");
    text
}

#[test]
fn the_example_of_the_request_language() {
    let request = b"pair 1 4 8 0 0 0 10 10 10 10 0 1 4 8 5 5 5 25 25 25 25 5";
    let answer = "0 0 0 216 54 3 3 0 2 2 1 3 2 1 1 0 216 8 8 0";
    assert_eq!(ask(request), [answer]);
}

#[test]
fn the_numbers_of_a_pair_in_their_order() {
    let conversation = [
        // Outline 5, either way: the piece counts and the relations differ.
        (
            "pair 1 3 6 0 0 0 10 10 0 1 4 8 5 5 5 15 15 15 15 5",
            "0 0 0 200 54 3 3 0 2 2 1 2 2 1 1 0 200 6 8 0",
        ),
        (
            "pair 1 4 8 5 5 5 15 15 15 15 5 1 3 6 0 0 0 10 10 0",
            "0 0 0 54 200 3 3 0 1 1 2 1 1 2 2 0 38 8 6 0",
        ),
        // Outline 2: rows and columns differ.
        (
            "pair 1 4 8 0 0 0 10 10 10 10 0 1 4 8 10 0 10 10 20 10 20 0",
            "0 0 0 8 32 1 2 1 2 0 0 0 0 0 0 0 8 4 4 0",
        ),
        // Outline 7: around; with its two regions exchanged it is not.
        (
            "pair 4 4 8 12 16 32 -10 -10 -10 40 0 40 0 -10 0 10 0 40 10 40 10 10 \
             0 -10 0 0 10 0 10 -10 10 -10 10 40 40 40 40 -10 1 4 8 0 0 0 10 10 10 10 0",
            "0 0 0 495 16 3 3 1 1 1 1 2 1 1 1 1 495 24 4 1",
        ),
        (
            "pair 1 4 8 0 0 0 10 10 10 10 0 4 4 8 12 16 32 -10 -10 -10 40 0 40 0 -10 \
             0 10 0 40 10 40 10 10 0 -10 0 0 10 0 10 -10 10 -10 10 40 40 40 40 -10",
            "0 0 0 16 495 3 3 2 2 2 2 1 2 2 2 2 495 4 24 0",
        ),
        // A reversed as ring 1 of region 2; then no ring at all.
        (
            "pair 1 3 6 0 0 0 1 1 0 2 4 8 16 0 0 0 10 10 10 10 0 10 0 10 10 0 10 0 0",
            "7 2 1 0 0 0 0 0 0 0 0 0 0 0 0 0 0 0 0 0",
        ),
        ("pair 0 0 0 0", "1 1 0 0 0 0 0 0 0 0 0 0 0 0 0 0 0 0 0 0"),
    ];
    for (request, answer) in conversation {
        assert_eq!(ask(request.as_bytes()), [answer]);
    }
}

#[test]
fn every_request_has_its_line() {
    let conversation = [
        ("sheet", ""),
        ("put 0 1 4 8 0 0 0 10 10 10 10 0", "0"),
        ("put 3 1 4 8 5 5 5 25 25 25 25 5", "0"),
        ("put 3 1 2 4 0 0 1 1", "2"),
        ("cell 0 3", "0 216"),
        ("cell 3 1", "9 0"),
        ("cell 3 32", "8 0"),
        ("row 1", "0"),
        ("cell 0 0", "0 0"),
        ("cells 8 0 3 0 0 5 3 32 5 5", "0 216 0 1009 1008 42405"),
        ("cells 3 0 3 0 0", "18"),
        ("cells 4 0 3 0 0 1", "10 42405"),
        ("row 0", "32 0 0 0 216 0 0 0 0 0 0 0 0 0 0 0 0 0 0 0 0 0 0 0 0 0 0 0 0 0 0 0 0"),
        (
            "drawn 1 4 8 0 0 0 10 10 10 10 0 1 4 8 5 5 5 25 25 25 25 5",
            "0 0 0 3 3 0 2 2 1 3 2 1 1 0",
        ),
        (
            "drawn 1 4 8 0 0 0 10 10 10 10 0 1 2 4 0 0 1 1",
            "2 2 0 0 0 0 0 0 0 0 0 0 0 0",
        ),
        ("drawn 1 4 8 0 0 0 10 10 10 10 0", "?"),
        ("tiles 216", "4"),
        ("tiles 65535", "9"),
        ("remove 0", "0"),
        ("remove 0", "9"),
        ("sheet", "0:384=5 0:385=5 0:386=5 0:387=25 0:388=25 0:389=25 0:390=25 0:391=5 1:27=1 1:28=4"),
        ("write 13", "10 0 a5a5a5a5a5a5a5a5a5a5a5a5a5"),
        ("write 0", "10 0 -"),
        ("clear", "0"),
        ("write 13", "0 12 0000000000000c000c000c00a5"),
        ("load 0000000000000C000c000c00", "0"),
        ("load -", "14"),
        ("host 38 -", "14 a5a5a5a5a5a5a5a5a5a5a5a5a5a5a5a5a5a5a5a5a5a5a5a5a5a5a5a5a5a5a5a5a5a5a5a5a5a5"),
        ("host 3 0000000000000c000c000c00", "10 a5a5a5"),
        ("host 0 -", "10 -"),
        ("poke 0 4096 -7", "ok"),
        ("poke 1 288 8", "ok"),
        ("poke 2 1024 9", "ok"),
        ("sheet", "0:4096=-7 1:288=8 2:1024=9"),
        ("lend 4097 288 1024", "ok"),
        ("clear", "11"),
        ("cell 0 0", "9 0"),
        ("lend 4096 289 1024", "ok"),
        ("cell 0 0", "11 0"),
        ("row 0", "0"),
        ("lend 4096 288 1025", "ok"),
        ("cell 0 0", "11 0"),
        ("load -", "11"),
        ("write 12", "11 0 a5a5a5a5a5a5a5a5a5a5a5a5"),
        ("lend 4096 288 1024", "ok"),
        ("clear", "0"),
        ("sheet", "0:4096=-7 1:288=8 2:1024=9"),
        ("poke 1 0 9", "ok"),
        ("put 5 0 0", "12"),
        ("lend 9 9", "?"),
    ];
    let requests: Vec<&str> = conversation.iter().map(|(request, _)| *request).collect();
    let answers = ask(requests.join("\n").as_bytes());
    assert_eq!(answers.len(), conversation.len());
    for ((request, expected), answer) in conversation.iter().zip(&answers) {
        assert_eq!(answer, expected, "{request}");
    }
}

#[test]
fn a_line_that_is_no_request_changes_nothing() {
    let answers = ask(b"poke 0 0 5\npoke 0 0 6 7\nlend 1 1 1 1\nclear 1\nput 0\nsheet\nremove 0\n");
    assert_eq!(answers, ["ok", "?", "?", "?", "?", "0:0=5", "9"]);
}

/// How many lines want an answer.
fn lines_to_answer(input: &[u8]) -> usize {
    let lines = input.split(|&byte| byte == b'\n');
    let is_blank = |line: &[u8]| line.iter().all(|&byte| byte == b' ');
    lines
        .filter(|line| line.len() > 65_535 || !(is_blank(line) || line.starts_with(b"#")))
        .count()
}

#[test]
fn any_bytes_get_one_answer_a_line() {
    let mut random = Random::new(51);
    for _ in 0..200 {
        let length = random.below(3_000);
        let alphabet = random.pick(&[
            b"\n #0123456789-+abcdefxputclearsheet\t\r".as_slice(),
            b"\n #\x00\xff",
        ]);
        let any = random.percent(50);
        let byte = |_| {
            if any {
                random.any_byte()
            } else {
                random.pick(alphabet)
            }
        };
        let input: Vec<u8> = (0..length).map(byte).collect();
        assert_eq!(ask(&input).len(), lines_to_answer(&input));
    }
}

#[test]
fn requests_with_bytes_changed_get_one_answer_a_line() {
    let mut random = Random::new(52);
    for kind in [Kind::Pairs, Kind::Drawn, Kind::Sheets, Kind::Cells, Kind::Cards] {
        let mut input = made(kind, 20, 53);
        for _ in 0..input.len() / 100 {
            let place = random.below(input.len());
            input[place] = random.pick(b"\n #09-a\xff");
        }
        let answers = ask(&input);
        assert_eq!(answers.len(), lines_to_answer(&input));
        assert!(answers.iter().any(|answer| answer == "?"));
        assert!(answers.iter().any(|answer| answer != "?"));
    }
}

/// The first numbers of the answers to requests that answer a number.
fn numbers_given(requests: &[u8]) -> BTreeSet<u16> {
    let words = [
        "pair", "put", "remove", "clear", "cell", "cells", "load", "write", "host",
    ];
    numbers_given_to(&words, requests)
}

/// The first numbers of the answers to requests with one of these words.
fn numbers_given_to(words: &[&str], requests: &[u8]) -> BTreeSet<u16> {
    let text = String::from_utf8(requests.to_vec()).expect("requests are plain text");
    let mut numbers = BTreeSet::new();
    for (request, answer) in text.lines().zip(ask(requests)) {
        assert_ne!(answer, "?", "{request}");
        let word = request.split(' ').next().unwrap_or_default();
        if words.contains(&word) {
            let number = answer.split(' ').next().unwrap_or_default();
            numbers.insert(number.parse().expect("a number in front"));
        }
    }
    numbers
}

#[test]
fn batches_depend_on_their_seed_alone() {
    for kind in [Kind::Pairs, Kind::Drawn, Kind::Sheets, Kind::Cells, Kind::Cards] {
        assert_eq!(made(kind, 30, 5), made(kind, 30, 5));
        assert_ne!(made(kind, 30, 5), made(kind, 30, 6));
        let (few, many) = (made(kind, 10, 5), made(kind, 30, 5));
        assert_eq!(
            many[..few.len()],
            few,
            "a longer batch begins as a shorter one"
        );
    }
}

#[test]
fn batches_are_of_the_size_asked_for() {
    let lines = |text: &[u8]| text.iter().filter(|&&byte| byte == b'\n').count();
    assert_eq!(lines(&made(Kind::Pairs, 500, 9)), 500);
    let count = |kind, line: &str| {
        let text = String::from_utf8(made(kind, 40, 9)).expect("requests are plain text");
        text.lines()
            .filter(|request| request.starts_with(line))
            .count()
    };
    assert!(count(Kind::Sheets, "poke 0 4096 0") >= 40);
    assert_eq!(count(Kind::Cards, "load "), 40);
    assert_eq!(made(Kind::Pairs, 0, 9), b"");
}

#[test]
fn a_batch_of_pairs_has_every_number() {
    let batch = made(Kind::Pairs, 1_000, 1);
    assert_eq!(numbers_given(&batch), (0..=7).collect());
    let answers = ask(&batch);
    let pairs: Vec<_> = answers
        .iter()
        .filter(|answer| answer.contains(' '))
        .collect();
    let refused = pairs
        .iter()
        .filter(|answer| !answer.starts_with("0 "))
        .count();
    let share = 100 * refused / pairs.len();
    assert!((25..=42).contains(&share), "{share} in a hundred refused");
    for region in ["1", "2"] {
        for number in 1..=7 {
            let start = format!("{number} {region} ");
            assert!(
                pairs.iter().any(|answer| answer.starts_with(&start)),
                "{start}"
            );
        }
    }
}

/// The numbers of an answer.
fn numbers_of(answer: &str) -> Vec<u16> {
    let number = |word: &str| word.parse().expect("an answer of numbers");
    answer.split(' ').map(number).collect()
}

#[test]
fn a_batch_of_drawn_pairs_has_every_refusal_and_agrees_with_the_pair_call() {
    let batch = made(Kind::Drawn, 4_000, 1);
    let text = String::from_utf8(batch).expect("requests are plain text");
    let as_pairs = text.replace("drawn ", "pair ");
    let (mut refused, mut sizes, mut shared) = (BTreeSet::new(), BTreeSet::new(), 0);
    let answers = ask(text.as_bytes()).into_iter();
    for (drawn, pair) in answers.zip(ask(as_pairs.as_bytes())) {
        let (drawn, pair) = (numbers_of(&drawn), numbers_of(&pair));
        assert_eq!(drawn.len(), 14);
        assert_eq!(drawn[..3], pair[..3]);
        assert_eq!(drawn[3..], pair[5..16]);
        if drawn[0] > 0 {
            refused.insert((drawn[0], drawn[1]));
        } else {
            sizes.insert((drawn[3], drawn[4]));
            shared += usize::from(drawn[3] < 3 || drawn[4] < 3);
        }
    }
    let all: BTreeSet<_> = (1..=7).flat_map(|n| [(n, 1), (n, 2)]).collect();
    assert_eq!(refused, all);
    assert_eq!(sizes.len(), 9, "grids of every size");
    assert!(shared > 1_500, "{shared} pairs share a line");
}

#[test]
fn a_batch_of_sheets_has_every_number() {
    let numbers = numbers_given(&made(Kind::Sheets, 60, 1));
    for number in [0, 1, 2, 3, 4, 5, 6, 7, 8, 9, 11, 12] {
        assert!(numbers.contains(&number), "{number} in {numbers:?}");
    }
}

/// The list of pairs and the number of results of a request `cells`.
fn asked(request: &str) -> Option<(Vec<u16>, usize)> {
    let mut words = request.strip_prefix("cells ")?.split(' ');
    let mut next = || words.next().expect("a number").parse::<usize>();
    let count = next().expect("a number");
    let pairs = (0..count)
        .map(|_| next().expect("a number") as u16)
        .collect();
    Some((pairs, next().expect("a number")))
}

/// A list of pairs is answered as its cells are one by one; a refused call
/// leaves its results, and every refusal and every order of two is met.
#[test]
fn a_batch_of_lists_is_answered_as_its_cells_one_by_one() {
    let batch = made(Kind::Cells, 60, 1);
    let text = String::from_utf8(batch).expect("requests are plain text");
    let mut input = String::new();
    for line in text.lines() {
        input.push_str(&format!("{line}\n"));
        for pair in asked(line)
            .into_iter()
            .flat_map(|(pairs, _)| pairs_of(&pairs))
        {
            input.push_str(&format!("cell {} {}\n", pair.0, pair.1));
        }
    }
    let mut answers = ask(input.as_bytes()).into_iter();
    let mut met = BTreeSet::new();
    for line in text.lines() {
        let answer = answers.next().expect("an answer a line");
        let (pairs, length) = match asked(line) {
            Some(request) => request,
            None => continue,
        };
        let numbers: Vec<u16> = answer
            .split(' ')
            .map(|word| word.parse().expect("a number"))
            .collect();
        let cells: Vec<(u16, u16)> = pairs_of(&pairs)
            .iter()
            .map(|_| answers.next().expect("an answer a line"))
            .map(|cell| {
                let (number, value) = cell.split_once(' ').expect("two numbers");
                (
                    number.parse().expect("a number"),
                    value.parse().expect("a number"),
                )
            })
            .collect();
        let is_odd = pairs.len() % 2 == 1;
        let is_short = length < pairs.len() / 2;
        met.insert((numbers[0], is_odd, is_short));
        assert_eq!(numbers.len(), length + 1);
        let mut expected = vec![42_405; length];
        if numbers[0] == 0 {
            for (result, &(number, value)) in expected.iter_mut().zip(&cells) {
                *result = if number == 0 { value } else { 1_000 + number };
            }
            met.extend(
                cells
                    .iter()
                    .map(|&(number, _)| (1_000 + number, false, false)),
            );
        }
        assert_eq!(numbers[1..], expected, "{line}");
    }
    for case in [
        (0, false, false),
        (10, false, true),
        (11, false, false),
        (11, false, true),
        (11, true, false),
        (18, true, false),
        (18, true, true),
        (1_000, false, false),
        (1_008, false, false),
        (1_009, false, false),
    ] {
        assert!(met.contains(&case), "{case:?} in {met:?}");
    }
}

fn pairs_of(pairs: &[u16]) -> Vec<(u16, u16)> {
    pairs
        .chunks_exact(2)
        .map(|pair| (pair[0], pair[1]))
        .collect()
}

#[test]
fn a_batch_of_cards_has_every_number() {
    let numbers = numbers_given(&made(Kind::Cards, 400, 1));
    for number in [0, 2, 3, 4, 5, 6, 7, 10, 11, 14, 15, 16, 17] {
        assert!(numbers.contains(&number), "{number} in {numbers:?}");
    }
}

#[test]
fn pair_and_host_give_these_numbers_and_no_others() {
    let pairs = made(Kind::Pairs, 4_000, 2);
    assert_eq!(numbers_given_to(&["pair"], &pairs), (0..=7).collect());
    let cards = made(Kind::Cards, 1_000, 2);
    let numbers = [0, 10, 14, 15, 2, 3, 16, 4, 5, 6, 7, 17];
    assert_eq!(numbers_given_to(&["host"], &cards), numbers.into());
}
