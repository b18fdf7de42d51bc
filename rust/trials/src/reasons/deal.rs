//! Reasons, and bytes that are near their sentences.

use super::second_reason;
use crate::bare::filled;
use crate::rng::Rng;
use second::{Reason, SENTENCE};

/// Words that a sentence begins with, has before its place, and ends in, for changes
/// of one part; and some that none has.
const COUNTS: [&str; 9] = [
    "; no place",
    " at word ",
    " at session ",
    " at node ",
    " at choice ",
    " at row ",
    " at notice ",
    " at place ",
    " at",
];
const ENDINGS: [&str; 12] = [
    ", an end.",
    ", a fork.",
    ", a repeat.",
    ", a new channel.",
    ", a compare.",
    ", a receive.",
    ", a send.",
    ", an on.",
    ", an off.",
    ".",
    ", a end.",
    "",
];

/// A reason that has a sentence: the number first, all as likely.
pub fn given_reason(rng: &mut Rng) -> Reason {
    let number = rng.from(1, 28);
    loop {
        let counts = rng.from(0, 6);
        let place = match counts {
            0 => 0,
            _ => any_place(rng),
        };
        let reason = Reason {
            number,
            counts,
            place,
            tag: rng.from(0, 9),
        };
        if second::cause_in_reason(reason, SENTENCE).is_none() {
            return reason;
        }
    }
}

/// A place that isn't 0, of each number of digits as often.
fn any_place(rng: &mut Rng) -> u16 {
    let digits = rng.from(0, 4).into();
    let least = 10u16.pow(digits);
    let most = least.saturating_mul(10).max(least) - u16::from(digits < 4);
    let any = rng.from(least, most);
    *rng.of(&[any, any, least, most])
}

/// Reason `index` under `seed`, and an output with what it holds beforehand. About
/// half of them have a sentence.
pub fn deal_reason(seed: u64, index: u64) -> (Reason, Vec<u8>) {
    let rng = &mut Rng::new(seed.rotate_left(14), index);
    let mut reason = given_reason(rng);
    let any = rng.word();
    match rng.below(12) {
        0 => reason.number = *rng.of(&[0, 29, 30, 31, 32, 33, 256, any]),
        1 => reason.number = rng.from(0, 33),
        2 => reason.counts = *rng.of(&[7, 7, 8, 9, 256, any]),
        3 => reason.counts = rng.from(0, 8),
        4 => reason.place = *rng.of(&[0, 1, any]),
        5 => reason.tag = rng.from(0, 10),
        6 => reason.tag = *rng.of(&[9, 10, 256, any]),
        _ => {}
    }
    let room = match rng.below(12) {
        0 => SENTENCE - 1,
        1 => rng.below(SENTENCE),
        2 => SENTENCE + 1,
        3 => SENTENCE + rng.below(300),
        _ => SENTENCE,
    };
    let before = filled(rng, room);
    (reason, before)
}

/// What was done to a sentence.
#[derive(Clone, Copy, Debug, PartialEq, Eq, PartialOrd, Ord)]
pub enum Change {
    None,
    OtherByte,
    OtherDigit,
    CutAtTheEnd,
    CutAtTheStart,
    Longer,
    BytesBefore,
    ByteTakenOut,
    BytePutIn,
    OtherNumber,
    OtherMeaning,
    OtherCounts,
    OtherEnding,
    /// Its digits with zeros before them, or none, or 0.
    PlaceAgainstIt,
    PlaceTooHigh,
    OtherCase,
    TwoSentences,
    PhraseAlone,
    Noise,
}

impl Change {
    pub const ALL: [Change; 19] = [
        Change::None,
        Change::OtherByte,
        Change::OtherDigit,
        Change::CutAtTheEnd,
        Change::CutAtTheStart,
        Change::Longer,
        Change::BytesBefore,
        Change::ByteTakenOut,
        Change::BytePutIn,
        Change::OtherNumber,
        Change::OtherMeaning,
        Change::OtherCounts,
        Change::OtherEnding,
        Change::PlaceAgainstIt,
        Change::PlaceTooHigh,
        Change::OtherCase,
        Change::TwoSentences,
        Change::PhraseAlone,
        Change::Noise,
    ];
}

/// A sentence by its parts.
struct Parts {
    number: u16,
    meaning: String,
    counts: String,
    place: String,
    ending: String,
}

impl Parts {
    fn of(reason: Reason) -> Parts {
        let counts = COUNTS[usize::from(reason.counts)].to_string();
        let place = match reason.place {
            0 => String::new(),
            place => place.to_string(),
        };
        Parts {
            number: reason.number,
            meaning: meaning(reason.number),
            counts,
            place,
            ending: ENDINGS[usize::from(reason.tag)].to_string(),
        }
    }

    fn joined(&self) -> String {
        [&self.meaning, &self.counts, &self.place, &self.ending]
            .map(String::as_str)
            .concat()
    }
}

fn meaning(number: u16) -> String {
    let mut out = [0; SENTENCE];
    let length = usize::from(second::phrase(number, &mut out));
    String::from_utf8_lossy(&out[..length]).into_owned()
}

/// String `index` under `seed`, and what was done to a sentence for it.
pub fn deal_bytes(seed: u64, index: u64) -> (Change, Vec<u8>) {
    let rng = &mut Rng::new(seed.rotate_left(15), index);
    let change = Change::ALL[(index % Change::ALL.len() as u64) as usize];
    let reason = given_reason(rng);
    let mut parts = Parts::of(reason);
    let mut out = [0; SENTENCE];
    let length = usize::from(second_reason(reason, &mut out));
    assert_eq!(parts.joined().as_bytes(), &out[..length], "by its parts");
    change_parts(rng, change, &mut parts);
    let mut bytes = parts.joined().into_bytes();
    change_bytes(rng, change, &mut bytes);
    (change, bytes)
}

fn change_parts(rng: &mut Rng, change: Change, parts: &mut Parts) {
    match change {
        Change::OtherNumber => {
            let (_, words) = parts.meaning.split_once(':').expect("a number before it");
            let number = *rng.of(&[parts.number + 1, parts.number - 1, parts.number + 10]);
            parts.meaning = format!("Refused {number}:{words}");
        }
        Change::OtherMeaning => parts.meaning = meaning(rng.from(1, 28)),
        Change::OtherCounts => {
            parts.counts = rng.of(&COUNTS).to_string();
            if rng.once_in(2) {
                parts.place = any_place(rng).to_string();
            }
        }
        Change::OtherEnding => parts.ending = rng.of(&ENDINGS).to_string(),
        Change::PlaceAgainstIt => {
            let place = format!("0{}", parts.place);
            let words = [&place[..], "0", "", "00", "1,024", "-1", "+4", " 4", "4 "];
            parts.place = rng.of(&words).to_string();
        }
        Change::PlaceTooHigh => {
            let any = 65_536 + rng.number() % 1_000_000;
            let long = rng.number();
            parts.place = rng.of(&[65_536, any, 99_999, 100_000, long]).to_string();
        }
        Change::PhraseAlone => {
            parts.counts.clear();
            parts.place.clear();
            parts.ending = rng.of(&["", "."]).to_string();
        }
        _ => {}
    }
}

fn change_bytes(rng: &mut Rng, change: Change, bytes: &mut Vec<u8>) {
    let at = rng.below(bytes.len());
    let any = rng.word() as u8;
    let byte = *rng.of(&[b' ', b'0', b'.', b',', any, any]);
    match change {
        Change::OtherByte => bytes[at] = byte,
        Change::OtherDigit => {
            if let Some(at) = rng.find(bytes, u8::is_ascii_digit) {
                bytes[at] = b'0' + rng.below(10) as u8;
            }
        }
        Change::CutAtTheEnd => bytes.truncate(at),
        Change::CutAtTheStart => drop(bytes.drain(..=at)),
        Change::Longer => {
            let most = *rng.of(&[1, 5, 200]);
            let more = 1 + rng.below(most);
            let last = filled(rng, more);
            bytes.extend(last.iter().map(|&any| if any < 128 { byte } else { any }));
        }
        Change::BytesBefore => bytes.splice(..0, [byte]).for_each(drop),
        Change::ByteTakenOut => drop(bytes.remove(at)),
        Change::BytePutIn => bytes.insert(at, byte),
        Change::OtherCase => {
            let letter = rng.find(bytes, u8::is_ascii_alphabetic);
            bytes[letter.expect("a letter")] ^= 0x20;
        }
        Change::TwoSentences => {
            let again = bytes.clone();
            if rng.once_in(2) {
                bytes.push(*rng.of(b" \n"));
            }
            bytes.extend(again);
        }
        Change::Noise => {
            let most = *rng.of(&[2, 130, 300]);
            let length = rng.below(most);
            *bytes = filled(rng, length);
        }
        _ => {}
    }
}
