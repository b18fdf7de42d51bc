//! A list of numbers as text.

use crate::spaced;
use text::{shown, unless_flawed, Flaw, MOST_FLAWS};

/// The numbers of the text, or each word that is none from 0 to 65,535. `#` starts a
/// comment.
pub fn numbers(text: &[u8]) -> Result<Vec<u16>, Vec<Flaw>> {
    let (mut numbers, mut flaws) = (Vec::new(), Vec::new());
    for (line, text) in (1..).zip(text.split(|&byte| byte == b'\n')) {
        if flaws.len() > MOST_FLAWS {
            break;
        }
        for (at, word) in spaced::words(line, text) {
            match number(word) {
                Some(number) => numbers.push(number),
                None if flaws.len() > MOST_FLAWS => break,
                None => {
                    let what = format!("'{}' isn't a number from 0 to 65535", shown(word));
                    flaws.push(Flaw { at, what });
                }
            }
        }
    }
    unless_flawed(numbers, flaws)
}

/// Choices in a line, as they are read.
pub fn line(choices: &[u16]) -> String {
    let pairs = choices.as_chunks().0.iter();
    let texts: Vec<String> = pairs
        .map(|[thread, partner]| format!("{thread} {partner}"))
        .collect();
    texts.join("  ")
}

fn number(word: &[u8]) -> Option<u16> {
    let digits = word.iter().all(u8::is_ascii_digit);
    let text = std::str::from_utf8(word).ok().filter(|_| digits)?;
    text.parse().ok()
}

#[cfg(test)]
mod tests {
    use super::*;

    #[test]
    fn numbers_comments_and_white_space() {
        assert_eq!(numbers(b""), Ok(vec![]));
        assert_eq!(numbers(b"# none\n\n"), Ok(vec![]));
        let text = b"1 2\t3\r\n0#4 x\n  007 65535\n# 9";
        assert_eq!(numbers(text), Ok(vec![1, 2, 3, 0, 7, 65535]));
    }

    #[test]
    fn a_line_is_read_again() {
        assert_eq!(line(&[]), "");
        assert_eq!(line(&[1, 0, 12, 3]), "1 0  12 3");
        assert_eq!(numbers(b"1 0  12 3"), Ok(vec![1, 0, 12, 3]));
    }

    #[test]
    fn words_that_are_no_numbers() {
        let flaws = numbers(b"1 0\n65536 0\n\n 2 x").unwrap_err();
        let places: Vec<_> = flaws
            .iter()
            .map(|flaw| (flaw.at.line, flaw.at.column))
            .collect();
        assert_eq!(places, [(2, 1), (4, 4)]);
        let flawed = |text: &[u8]| numbers(text).unwrap_err()[0].what.clone();
        let due = |word: &str| format!("'{word}' isn't a number from 0 to 65535");
        for word in [
            "-1",
            "+1",
            "1.5",
            "0x1",
            "1,2",
            "eins",
            "99999999999999999999",
        ] {
            assert_eq!(flawed(word.as_bytes()), due(word));
        }
        assert_eq!(flawed(b"\x00\xff"), due("\\x00\\xff"));
        assert_eq!(flawed(&[b'x'; 100]), due(&"x".repeat(40)));
    }
}
