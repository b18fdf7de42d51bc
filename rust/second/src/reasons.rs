//! Refusals as sentences of fixed words, and sentences read back.
//!
//! A sentence is what the number means, what its place counts, the place in digits,
//! and, for 9 to 15 at a node, that node's tag.

use crate::answers::Reason;

/// The bytes that an output for a sentence or a phrase must have. No sentence has
/// more.
pub const SENTENCE: usize = 120;

/// What each number means, from 1 on.
const MEANINGS: [&[u8]; 28] = [
    b"Refused 1: the file has 1 to 25 bytes (to 27 in versions 2 and 3), or an odd number",
    b"Refused 2: the version is not one that can be read here",
    b"Refused 3: a count is out of range",
    b"Refused 4: an offset is not the one that the counts give",
    b"Refused 5: the length is not the one that the counts give",
    b"Refused 6: the record names a role, kind or user that is not there",
    b"Refused 7: the session's user is not there, or a starting role is not that user's",
    b"Refused 8: the tree's root, tag, field, second child, end or ninth variable is wrong",
    b"Refused 9: an operand names nothing, or a role or kind is out of count",
    b"Refused 10: the step is against the rules of kinds and owners",
    b"Refused 11: the role put on is not assigned to the session's user",
    b"Refused 12: the role put off is not active",
    b"Refused 13: no active role permits the step",
    b"Refused 14: a routine to be placed has an on, an off or a starting role",
    b"Refused 15: no role that the user may put on permits the step",
    b"Refused 16: the placed file would have over 1,024 nodes",
    b"Refused 17: the output is too short, or the list of choices or of seats does not fit",
    b"Refused 18: the list lent, the thread or its partner is not one for this step",
    b"Refused 19: the values compared are not equal, or the two channels differ",
    b"Refused 20: it would be the 65th thread or made channel",
    b"Refused 21: a junior role's number is not lower than its senior's",
    b"Refused 22: the minute is above 10,079, or the hours are not whole rows, at most 64",
    b"Refused 23: the row names no such role, or no stretch of the week",
    b"Refused 24: the role put on is closed at that minute",
    b"Refused 25: the two files' tables of roles or kinds differ",
    b"Refused 26: the role has no free seat, or other sessions are before this one in line",
    b"Refused 27: the notice has under 4 bytes, a wrong length word or a refused file",
    b"Refused 28: neither notice has begun on that day",
];

/// The endings by tag; the last is that of a sentence without one.
const ENDINGS: [&[u8]; 10] = [
    b", an end.",
    b", a fork.",
    b", a repeat.",
    b", a new channel.",
    b", a compare.",
    b", a receive.",
    b", a send.",
    b", an on.",
    b", an off.",
    b".",
];

/// Where no tag belongs.
const NO_TAG: u16 = 9;

/// What a place counts.
#[derive(Clone, Copy, Debug, PartialEq, Eq)]
enum Counts {
    Nothing,
    Word,
    Session,
    Node,
    Choice,
    Row,
    Notice,
}

use Counts::{Choice, Node, Nothing, Notice, Row, Session, Word};

impl Counts {
    const ALL: [Counts; 7] = [Nothing, Word, Session, Node, Choice, Row, Notice];

    /// The words before the place.
    fn words(self) -> &'static [u8] {
        match self {
            Nothing => b"; no place",
            Word => b" at word ",
            Session => b" at session ",
            Node => b" at node ",
            Choice => b" at choice ",
            Row => b" at row ",
            Notice => b" at notice ",
        }
    }
}

/// Why there is no sentence.
#[derive(Clone, Copy, Debug, PartialEq, Eq, PartialOrd, Ord)]
pub enum Unsaid {
    /// An output that is too short.
    Room,
    /// No such refusal.
    Number,
    /// Nothing is counted by this number.
    NoCounts,
    /// A count that neither the paper nor a request gives the number.
    OtherCounts,
    /// A place where nothing is counted.
    PlaceOfNothing,
    /// A count, and place 0.
    NoPlace,
    /// 9 to 15 at a node, without its tag.
    NoTag,
    /// The same, with a tag that isn't one.
    TagAbove,
    /// A tag where none belongs.
    TagOfNone,
}

impl Unsaid {
    pub const ALL: [Unsaid; 9] = [
        Unsaid::Room,
        Unsaid::Number,
        Unsaid::NoCounts,
        Unsaid::OtherCounts,
        Unsaid::PlaceOfNothing,
        Unsaid::NoPlace,
        Unsaid::NoTag,
        Unsaid::TagAbove,
        Unsaid::TagOfNone,
    ];
}

/// What the places of a number count, none for a number that no refusal has.
fn counts_of(number: u16) -> &'static [Counts] {
    match number {
        1..=5 | 16 | 17 | 22 | 25 | 28 => &[Nothing],
        6 | 21 => &[Word],
        7 => &[Session],
        8..=10 | 15 | 24 => &[Node],
        11..=13 => &[Node, Choice],
        14 => &[Node, Nothing],
        18 => &[Nothing, Choice],
        19 | 20 => &[Choice],
        23 => &[Row],
        26 => &[Session, Choice],
        27 => &[Notice],
        _ => &[],
    }
}

/// Whether the sentence says a node's tag.
fn has_tag(number: u16, counts: Counts) -> bool {
    (9..=15).contains(&number) && counts == Node
}

/// What the place counts, if there is such a reason.
fn judge(reason: Reason) -> Result<Counts, Unsaid> {
    let Reason {
        number,
        counts,
        place,
        tag,
    } = reason;
    if counts_of(number).is_empty() {
        return Err(Unsaid::Number);
    }
    let Some(&counts) = Counts::ALL.get(usize::from(counts)) else {
        return Err(Unsaid::NoCounts);
    };
    if !counts_of(number).contains(&counts) {
        return Err(Unsaid::OtherCounts);
    }
    match (counts, place) {
        (Nothing, 1..) => return Err(Unsaid::PlaceOfNothing),
        (Word | Session | Node | Choice | Row | Notice, 0) => return Err(Unsaid::NoPlace),
        _ => {}
    }
    match (has_tag(number, counts), tag) {
        (true, 0..=8) | (false, NO_TAG) => Ok(counts),
        (true, NO_TAG) => Err(Unsaid::NoTag),
        (true, _) => Err(Unsaid::TagAbove),
        (false, _) => Err(Unsaid::TagOfNone),
    }
}

/// Why there is no sentence in an output of so many bytes, if there is none.
pub fn unsaid(reason: Reason, room: usize) -> Option<Unsaid> {
    match judge(reason) {
        _ if room < SENTENCE => Some(Unsaid::Room),
        judged => judged.err(),
    }
}

/// Writes the sentence and gives its length. For what is no reason, or in an output
/// under [`SENTENCE`] bytes, nothing is written, and the length is 0.
pub fn write(reason: Reason, out: &mut [u8]) -> u16 {
    let Ok(counts) = judge(reason) else {
        return 0;
    };
    if out.len() < SENTENCE {
        return 0;
    }
    let mut at = 0;
    let mut put = |part: &[u8]| {
        out[at..at + part.len()].copy_from_slice(part);
        at += part.len();
    };
    put(MEANINGS[usize::from(reason.number) - 1]);
    put(counts.words());
    if counts != Nothing {
        let mut digits = [0; 5];
        put(in_digits(reason.place, &mut digits));
    }
    put(ENDINGS[usize::from(reason.tag)]);
    at as u16
}

/// A number in base ten.
fn in_digits(mut number: u16, digits: &mut [u8; 5]) -> &[u8] {
    let mut first = digits.len();
    while number > 0 {
        first -= 1;
        digits[first] = b'0' + (number % 10) as u8;
        number /= 10;
    }
    &digits[first..]
}

/// The reason that a sentence says, all 0 for bytes that are no sentence.
pub fn read(sentence: &[u8]) -> Reason {
    for (number, meaning) in (1..).zip(MEANINGS) {
        let Some(rest) = sentence.strip_prefix(meaning) else {
            continue;
        };
        for &counts in counts_of(number) {
            let Some(rest) = rest.strip_prefix(counts.words()) else {
                continue;
            };
            let digits = rest.iter().take_while(|byte| byte.is_ascii_digit());
            let (digits, ending) = rest.split_at(digits.count());
            let (Some(place), Some(tag)) = (place(digits, counts), tag(number, counts, ending))
            else {
                continue;
            };
            return Reason {
                number,
                counts: counts as u16,
                place,
                tag,
            };
        }
    }
    Reason::NONE
}

/// The place that these digits are, 0 where nothing is counted and there are none.
fn place(digits: &[u8], counts: Counts) -> Option<u16> {
    match (counts, digits) {
        (Nothing, []) => Some(0),
        (Nothing, _) | (_, [] | [b'0', ..]) => None,
        _ => std::str::from_utf8(digits).ok()?.parse().ok(),
    }
}

/// The tag that an ending says, if it is one that belongs there.
fn tag(number: u16, counts: Counts, ending: &[u8]) -> Option<u16> {
    let tag = ENDINGS.iter().position(|said| *said == ending)? as u16;
    (has_tag(number, counts) == (tag != NO_TAG)).then_some(tag)
}

/// Writes what a number means and gives the length. For a number that no refusal has,
/// or in an output under [`SENTENCE`] bytes, nothing is written, and it is 0.
pub fn write_phrase(number: u16, out: &mut [u8]) -> u16 {
    let at = usize::from(number).checked_sub(1);
    match at.and_then(|at| MEANINGS.get(at)) {
        Some(meaning) if out.len() >= SENTENCE => {
            out[..meaning.len()].copy_from_slice(meaning);
            meaning.len() as u16
        }
        _ => 0,
    }
}
