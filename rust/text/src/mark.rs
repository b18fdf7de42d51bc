//! Tells texts from bytes, and shows places in texts.

use crate::line::{At, Flaw, MOST_FLAWS};
use crate::pack::pack;
use crate::printable::units;
use std::collections::HashSet;

/// Whether these bytes are a text by its first word, `clinic`; comments and blank lines
/// may stand before it. No binary file begins so: its second byte is 0.
pub fn is_text(bytes: &[u8]) -> bool {
    first_word(bytes) == b"clinic"
}

/// The first word of a text, or of bytes taken for one.
fn first_word(bytes: &[u8]) -> &[u8] {
    let bytes = without_mark(bytes);
    for line in bytes.split(|&byte| byte == b'\n') {
        let line = line.trim_ascii();
        if !line.is_empty() && line[0] != b'#' {
            let end = line.iter().position(|byte| !byte.is_ascii_alphanumeric());
            return &line[..end.unwrap_or(line.len())];
        }
    }
    &[]
}

/// Without a mark of the byte order.
fn without_mark(bytes: &[u8]) -> &[u8] {
    bytes.strip_prefix(b"\xef\xbb\xbf").unwrap_or(bytes)
}

/// The characters of a text, without a mark of the byte order.
pub fn decoded(bytes: &[u8]) -> Result<&str, Flaw> {
    characters(without_mark(bytes))
}

/// All flaws of a text that can't be decoded: in each line the first byte that is no
/// character, or what else can't be understood in it.
pub fn undecoded(bytes: &[u8]) -> Vec<Flaw> {
    let (mut text, mut flaws) = (String::new(), Vec::new());
    for (number, line) in (1..).zip(without_mark(bytes).split(|&byte| byte == b'\n')) {
        if let Err(mut flaw) = characters(line) {
            if flaws.len() < MOST_FLAWS {
                flaw.at.line = number;
                flaws.push(flaw);
            }
        }
        // Such bytes are mostly letters of Latin-1. Read as such, names stay names, and
        // other lines get no false messages.
        for chunk in line.utf8_chunks() {
            text += chunk.valid();
            text.extend(chunk.invalid().first().map(|&byte| char::from(byte)));
        }
        text.push('\n');
    }
    let told: HashSet<usize> = flaws.iter().map(|flaw| flaw.at.line).collect();
    let others = pack(&text).err().unwrap_or_default().into_iter();
    flaws.extend(others.filter(|flaw| !told.contains(&flaw.at.line)));
    flaws.sort_by_key(|flaw| (flaw.at.line, flaw.at.column));
    flaws.truncate(MOST_FLAWS);
    flaws
}

fn characters(bytes: &[u8]) -> Result<&str, Flaw> {
    std::str::from_utf8(bytes).map_err(|error| {
        let before = String::from_utf8_lossy(&bytes[..error.valid_up_to()]);
        let (line, last) = (1..).zip(before.split('\n')).last().unwrap_or((1, ""));
        Flaw {
            at: At {
                line,
                column: last.chars().count() + 1,
                width: 1,
            },
            what: "a byte that is no character: a text is written in UTF-8".to_string(),
        }
    })
}

/// How many characters before a place are shown at most.
const BEFORE: usize = 60;

/// How many characters of a line are shown at most.
const SHOWN: usize = 100;

/// A message about a place in a text: the file's name, line and column, what there is
/// to say, and the line itself with a mark below it.
pub fn told(file: &str, text: impl AsRef<[u8]>, at: At, what: &str) -> String {
    let text = without_mark(text.as_ref());
    let mut lines = text.split(|&byte| byte == b'\n');
    let whole = lines.nth(at.line.saturating_sub(1)).unwrap_or_default();
    told_of_line(file, whole, at, what)
}

/// The messages about the first flaws of a text, at most so many. Its lines are gone through
/// once if the flaws are in their order.
pub fn told_first(file: &str, text: impl AsRef<[u8]>, flaws: &[Flaw], most: usize) -> Vec<String> {
    let text = without_mark(text.as_ref());
    let numbered = || (1..).zip(text.split(|&byte| byte == b'\n'));
    let (mut lines, mut found) = (numbered(), (0, &[][..]));
    let flaws = flaws.iter().take(most);
    flaws
        .map(|Flaw { at, what }| {
            if at.line < found.0 {
                (lines, found) = (numbered(), (0, &[][..]));
            }
            if found.0 < at.line {
                let line = lines.find(|(number, _)| *number == at.line);
                found = line.unwrap_or((at.line, &[]));
            }
            told_of_line(file, found.1, *at, what)
        })
        .collect()
}

fn told_of_line(file: &str, whole: &[u8], at: At, what: &str) -> String {
    let At {
        line,
        column,
        width,
    } = at;
    let skipped = match column > BEFORE {
        true => column - 1 - BEFORE / 3,
        false => 0,
    };
    let shown = units(whole.trim_ascii_end(), skipped).take(SHOWN);
    let shown: Vec<String> = shown.collect();
    let lead = if skipped > 0 { "... " } else { "" };
    let first = column.saturating_sub(1) - skipped;
    let (before, behind) = shown.split_at(first.min(shown.len()));
    let marked = &behind[..width.min(behind.len())];
    // The mark may stand past the end of the line.
    let room = width.clamp(1, SHOWN.saturating_sub(first).max(1));
    let before = lead.len() + wide(before) + first - before.len();
    let mark = wide(marked) + room.saturating_sub(marked.len());
    format!(
        "{file}:{line}:{column}: {what}\n{line:6} | {lead}{}\n       | {}{}",
        shown.concat(),
        " ".repeat(before),
        "^".repeat(mark)
    )
}

/// How many characters are printed for these.
fn wide(units: &[String]) -> usize {
    units.iter().map(|unit| unit.chars().count()).sum()
}
