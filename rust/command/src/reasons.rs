//! A sentence taken apart.

use pilzdamo::{Counts, Reason};

/// What a sentence says, a line each.
pub fn text(reason: Reason, sentence: &[u8]) -> String {
    let Reason { number, place, .. } = reason;
    let (counts, tag) = (counted(reason), tag(reason, sentence));
    format!("number: {number}\ncounts: {counts}\nplace: {place}\ntag: {tag}\n")
}

fn counted(reason: Reason) -> String {
    let words = match reason.counted() {
        Some(Counts::Nothing) => "nothing",
        Some(Counts::Word) => "words",
        Some(Counts::Session) => "sessions",
        Some(Counts::Node) => "nodes",
        Some(Counts::Choice) => "choices",
        Some(Counts::Row) => "rows",
        Some(Counts::Notice) => "notices",
        None => return reason.counts.to_string(),
    };
    words.to_string()
}

/// The tag's number, and its words as the sentence ends with them.
fn tag(reason: Reason, sentence: &[u8]) -> String {
    let sentence = String::from_utf8_lossy(sentence);
    match (reason.tag, sentence.rsplit_once(", ")) {
        (tag @ 0..=8, Some((_, words))) => format!("{tag}, {}", words.trim_end_matches('.')),
        _ => "none".to_string(),
    }
}
