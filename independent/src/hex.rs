//! Bytes as one word of hexadecimal digits; `-` stands for no bytes. The
//! request language of the desk.

const DIGITS: &[u8; 16] = b"0123456789abcdef";

/// The bytes of a word, if it is one of this form.
pub fn read(word: &[u8]) -> Option<Vec<u8>> {
    if word == b"-" {
        return Some(Vec::new());
    }
    if word.is_empty() || word.len() % 2 == 1 {
        return None;
    }
    word.chunks_exact(2)
        .map(|two| Some(digit(two[0])? << 4 | digit(two[1])?))
        .collect()
}

/// The word of some bytes, in lower case.
pub fn text(bytes: &[u8]) -> String {
    if bytes.is_empty() {
        return "-".to_owned();
    }
    bytes
        .iter()
        .flat_map(|byte| [byte >> 4, byte & 15])
        .map(|digit| char::from(DIGITS[usize::from(digit)]))
        .collect()
}

fn digit(byte: u8) -> Option<u8> {
    let value = char::from(byte).to_digit(16)?;
    u8::try_from(value).ok()
}

#[cfg(test)]
mod tests {
    use super::{read, text};

    #[test]
    fn every_byte_reads_back() {
        let bytes: Vec<u8> = (0..=255).collect();
        assert_eq!(read(text(&bytes).as_bytes()), Some(bytes.clone()));
        assert_eq!(read(text(&bytes).to_uppercase().as_bytes()), Some(bytes));
        assert_eq!(read(text(&[]).as_bytes()), Some(Vec::new()));
    }

    #[test]
    fn other_words_are_not_bytes() {
        for word in ["", "0", "0g", "--", "-0", "0x", "a b", "\u{e9}"] {
            assert_eq!(read(word.as_bytes()), None, "{word}");
        }
    }
}
