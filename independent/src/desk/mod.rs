//! The desk: every call of document 01 at a keyboard, one request a line and
//! one line of answer for each, in the request language of the desk.

mod answer;
mod request;

use std::io::{self, BufRead, BufReader, Read, Write};

use answer::Desk;

/// The most bytes a line may have, its line feed not counted.
const LONGEST_LINE: usize = 65_535;

/// The answer to a line that is no request.
const NOT_A_REQUEST: &str = "?";

/// Answers requests from an input, of any bytes and any length, until it ends.
pub fn run(input: impl Read, mut output: impl Write) -> io::Result<()> {
    let mut input = BufReader::with_capacity(1 << 16, input);
    let mut desk = Desk::new();
    let mut line = Vec::new();
    loop {
        // What is answered is shown before there is a wait for more.
        if !input.buffer().contains(&b'\n') {
            output.flush()?;
        }
        let is_whole = match read_line(&mut input, &mut line)? {
            Some(is_whole) => is_whole,
            None => return output.flush(),
        };
        if is_whole && is_passed_over(&line) {
            continue;
        }
        let request = if is_whole {
            request::parse(&line)
        } else {
            None
        };
        let answer =
            request.map_or_else(|| NOT_A_REQUEST.to_owned(), |request| desk.answer(request));
        writeln!(output, "{answer}")?;
    }
}

/// Whether a line has no answer: it begins with `#`, or has nothing but spaces.
fn is_passed_over(line: &[u8]) -> bool {
    line.first() == Some(&b'#') || line.iter().all(|&byte| byte == b' ')
}

/// Reads the next line, without its line feed, and whether it is whole; no more
/// than its first bytes are kept of one that is too long. None at the end.
fn read_line(input: &mut impl BufRead, line: &mut Vec<u8>) -> io::Result<Option<bool>> {
    line.clear();
    let limit = LONGEST_LINE as u64 + 1;
    if input.by_ref().take(limit).read_until(b'\n', line)? == 0 {
        return Ok(None);
    }
    if line.last() == Some(&b'\n') {
        line.pop();
        return Ok(Some(true));
    }
    if line.len() <= LONGEST_LINE {
        return Ok(Some(true));
    }
    pass_rest_of_line(input)?;
    Ok(Some(false))
}

/// Passes over what is left of a line, its line feed too, some bytes at a time.
fn pass_rest_of_line(input: &mut impl BufRead) -> io::Result<()> {
    let mut some = Vec::new();
    loop {
        some.clear();
        let count = input.by_ref().take(1 << 16).read_until(b'\n', &mut some)?;
        if count == 0 || some.last() == Some(&b'\n') {
            return Ok(());
        }
    }
}

#[cfg(test)]
mod tests {
    use super::*;

    fn answers(input: &[u8]) -> String {
        let mut output = Vec::new();
        run(input, &mut output).expect("memory takes any answer");
        String::from_utf8(output).expect("answers are plain text")
    }

    #[test]
    fn blank_lines_have_no_answer() {
        assert_eq!(answers(b""), "");
        assert_eq!(answers(b"\n   \n\n  "), "");
        assert_eq!(answers(b"tiles 3\n\n  tiles   7  "), "2\n3\n");
    }

    #[test]
    fn lines_that_begin_with_a_hash_have_no_answer() {
        assert_eq!(answers(b"#\n#tiles 3\n# tiles 3\n##"), "");
        assert_eq!(
            answers(b"tiles 3\n# remark\n #\ntiles 3 #\ntiles 7"),
            "2\n?\n?\n3\n"
        );
        let mut longest = vec![b'#'; 65_535];
        assert_eq!(answers(&longest), "");
        longest.push(b'#');
        assert_eq!(answers(&longest), "?\n");
    }

    #[test]
    fn only_the_space_is_a_space() {
        assert_eq!(
            answers(b"tiles\t3\ntiles 3\r\n\r\n\t\n\0\n"),
            "?\n?\n?\n?\n?\n"
        );
    }

    #[test]
    fn the_longest_line_is_read_and_one_byte_more_is_not() {
        for (length, answer) in [(65_535, "2\n3\n"), (65_536, "?\n3\n"), (200_000, "?\n3\n")] {
            let mut input = b"tiles 3".to_vec();
            input.resize(length, b' ');
            input.extend(b"\ntiles 7");
            assert_eq!(answers(&input), answer, "{length}");
        }
    }

    #[test]
    fn a_last_line_may_be_too_long() {
        assert_eq!(answers(&vec![b'x'; 65_536]), "?\n");
        assert_eq!(answers(&vec![b' '; 65_536]), "?\n");
        assert_eq!(answers(&vec![b' '; 65_535]), "");
    }
}
