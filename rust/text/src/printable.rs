//! Writes out what would not show in a message, or would show as something else.

use std::borrow::Cow;

/// Words in a message. Control characters are written `\n` or `\x1b`, other characters
/// that don't show or turn the line round `\u{202e}`, bytes that are no characters `\xff`,
/// and a backslash `\\`.
///
/// ```
/// assert_eq!(text::printable("ward 3, \u{e9}tage 2.txt"), "ward 3, \u{e9}tage 2.txt");
/// assert_eq!(text::printable(b"a\n\x1b[2J\xff"), "a\\n\\x1b[2J\\xff");
/// assert_eq!(text::printable("\u{202e}txt.b\\"), "\\u{202e}txt.b\\\\");
/// ```
pub fn printable(words: impl AsRef<[u8]>) -> String {
    units(words.as_ref(), 0).collect()
}

/// A line of a text as a terminal may print it: as in a message, but tabs and backslashes
/// stay.
///
/// ```
/// assert_eq!(text::printable_line("\ta\\b \u{2066}"), "\ta\\b \\u{2066}");
/// ```
pub fn printable_line(line: &str) -> Cow<'_, str> {
    let is_itself = |c: char| matches!(c, '\t' | '\\') || shows(c);
    if is_plain(line) || line.chars().all(is_itself) {
        return line.into();
    }
    let mut printed = String::with_capacity(line.len());
    for c in line.chars() {
        match is_itself(c) {
            true => printed.push(c),
            false => printed += &written(c),
        }
    }
    printed.into()
}

/// Each character, or stretch of bytes that is none, as it stands in a message, but for the
/// first, which are skipped.
pub fn units(words: &[u8], mut skipped: usize) -> impl Iterator<Item = String> + '_ {
    words.utf8_chunks().flat_map(move |chunk| {
        let (valid, invalid) = (chunk.valid(), chunk.invalid());
        let skips = skipped.min(valid.chars().count());
        skipped -= skips;
        let mut chars = valid.chars();
        if let Some(last) = skips.checked_sub(1) {
            chars.nth(last);
        }
        let skips = skipped.min(usize::from(!invalid.is_empty()));
        skipped -= skips;
        let others = (skips == 0 && !invalid.is_empty()).then(|| {
            let bytes = invalid.iter();
            bytes.map(|byte| format!("\\x{byte:02x}")).collect()
        });
        chars.map(written).chain(others)
    })
}

/// Whether all of it is printed as it is, seen at a glance.
pub fn is_plain(words: &str) -> bool {
    words
        .bytes()
        .all(|byte| matches!(byte, b' '..=b'[' | b']'..=b'~'))
}

fn written(c: char) -> String {
    match c {
        '\n' => "\\n".to_string(),
        '\r' => "\\r".to_string(),
        '\t' => "\\t".to_string(),
        '\\' => "\\\\".to_string(),
        _ if c.is_ascii_control() => format!("\\x{:02x}", u32::from(c)),
        _ if shows(c) => c.to_string(),
        _ => c.escape_unicode().to_string(),
    }
}

/// Whether a character shows as itself, by the standard library's table; an accent does,
/// over the letter before it.
fn shows(c: char) -> bool {
    matches!(c, ' '..='~')
        || c.escape_debug().eq([c])
        || format!("a{c}").escape_debug().skip(1).eq([c])
}

#[cfg(test)]
mod tests {
    use super::printable;

    #[test]
    fn what_shows_stays() {
        let all = "Bed 4 of Ana's \"north\" wing: \u{fc}\u{df} \u{65e5}\u{672c} e\u{301} \u{1f6cf}";
        assert_eq!(printable(all), all);
        let printed: String = (' '..='~').filter(|c| *c != '\\').collect();
        assert_eq!(printable(&printed), printed);
    }

    #[test]
    fn what_does_not_show_is_written_out() {
        for (words, due) in [
            (&b"\0\x07\x7f"[..], "\\x00\\x07\\x7f"),
            (b"a\tb\r\n", "a\\tb\\r\\n"),
            ("\u{85}\u{9b}".as_bytes(), "\\u{85}\\u{9b}"),
            (
                "\u{200b}\u{2028}\u{feff}".as_bytes(),
                "\\u{200b}\\u{2028}\\u{feff}",
            ),
            (
                "\u{202a}\u{202e}\u{2066}\u{2069}".as_bytes(),
                "\\u{202a}\\u{202e}\\u{2066}\\u{2069}",
            ),
            (b"\xc3(\xe2\x82 \xff\xfe", "\\xc3(\\xe2\\x82 \\xff\\xfe"),
        ] {
            assert_eq!(printable(words), due);
        }
    }

    /// No control character comes through, whatever the bytes.
    #[test]
    fn any_bytes() {
        for first in 0..=255u8 {
            for second in 0..=255 {
                let shown = printable([first, second, 0x80, second]);
                assert!(!shown.contains(char::is_control), "{first} {second}");
            }
        }
    }
}
