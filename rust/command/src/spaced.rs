//! The words of a line that white space parts, and where they stand.

use text::At;

/// The words of a line, up to its comment.
pub fn words(line: usize, text: &[u8]) -> Vec<(At, &[u8])> {
    let told = text.split(|&byte| byte == b'#').next().unwrap_or_default();
    let mut column = 1;
    let mut words = Vec::new();
    for word in told.split(u8::is_ascii_whitespace) {
        let width = String::from_utf8_lossy(word).chars().count();
        if width > 0 {
            let at = At {
                line,
                column,
                width,
            };
            words.push((at, word));
        }
        column += width + 1;
    }
    words
}

/// The stretch from the first of some words to the last.
pub fn over(words: &[(At, &[u8])]) -> At {
    let first = words.first().map_or(At::default(), |&(at, _)| at);
    let last = words.last().map_or(first, |&(at, _)| at);
    At {
        width: last.column + last.width - first.column,
        ..first
    }
}

#[cfg(test)]
mod tests {
    use super::*;

    #[test]
    fn words_and_places() {
        let found = words(3, "  role\t\u{e4}b 1 # 2".as_bytes());
        let at = |column, width| At {
            line: 3,
            column,
            width,
        };
        let due = [
            (at(3, 4), &b"role"[..]),
            (at(8, 2), "\u{e4}b".as_bytes()),
            (at(11, 1), b"1"),
        ];
        assert_eq!(found, due);
        assert_eq!(over(&found), at(3, 9));
        assert_eq!(words(1, b" # x"), []);
    }
}
