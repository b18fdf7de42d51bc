//! Reasons in words, and bytes that are none.

use crate::Reason;

/// A reason, and its sentence, if it has one.
pub struct ReasonCase {
    pub reason: Reason,
    pub sentence: Option<&'static str>,
}

impl ReasonCase {
    /// Fails unless `reason` writes the sentence that is due, and nothing past it, or
    /// nothing at all.
    pub fn demand(&self, who: &str, reason: impl Fn(Reason, &mut [u8]) -> u16) {
        let due = self.sentence.unwrap_or("").as_bytes();
        for room in [120, 121, 500] {
            let mut out = vec![0xa5; room];
            let length = usize::from(reason(self.reason, &mut out));
            let (written, past) = out.split_at(length);
            let [told, sentence] = [written, due].map(String::from_utf8_lossy);
            assert_eq!(told, sentence, "{who}: {:?}", self.reason);
            assert!(past.iter().all(|byte| *byte == 0xa5), "{who}: past it");
        }
        for room in [0, 119] {
            let mut out = vec![0xa5; room];
            assert_eq!(reason(self.reason, &mut out), 0, "{who}: {room} bytes");
            assert!(out.iter().all(|byte| *byte == 0xa5), "{who}: {room} bytes");
        }
    }

    /// Fails unless `read` gives the reason back for the sentence, if there is one.
    pub fn demand_read(&self, who: &str, read: impl Fn(&[u8]) -> Reason) {
        if let Some(sentence) = self.sentence {
            assert_eq!(read(sentence.as_bytes()), self.reason, "{who}: {sentence}");
        }
    }
}

fn of([number, counts, place, tag]: [u16; 4], sentence: Option<&'static str>) -> ReasonCase {
    let reason = Reason {
        number,
        counts,
        place,
        tag,
    };
    ReasonCase { reason, sentence }
}

/// All of them.
pub fn cases() -> Vec<ReasonCase> {
    let said = SAID.iter();
    let said = said.map(|&(words, sentence)| of(words, Some(sentence)));
    said.chain(UNSAID.iter().map(|&words| of(words, None)))
        .collect()
}

/// Number, what is counted, place and tag, and the sentence.
const SAID: [([u16; 4], &str); 49] = [
    (
        [1, 0, 0, 9],
        "Refused 1: the file has 1 to 25 bytes (to 27 in versions 2 and 3), or an odd number; no place.",
    ),
    (
        [2, 0, 0, 9],
        "Refused 2: the version is not one that can be read here; no place.",
    ),
    ([3, 0, 0, 9], "Refused 3: a count is out of range; no place."),
    (
        [4, 0, 0, 9],
        "Refused 4: an offset is not the one that the counts give; no place.",
    ),
    (
        [5, 0, 0, 9],
        "Refused 5: the length is not the one that the counts give; no place.",
    ),
    (
        [6, 1, 27, 9],
        "Refused 6: the record names a role, kind or user that is not there at word 27.",
    ),
    (
        [7, 2, 32, 9],
        "Refused 7: the session's user is not there, or a starting role is not that user's at session 32.",
    ),
    (
        [8, 3, 1_025, 9],
        "Refused 8: the tree's root, tag, field, second child, end or ninth variable is wrong at node 1025.",
    ),
    (
        [9, 3, 2, 6],
        "Refused 9: an operand names nothing, or a role or kind is out of count at node 2, a send.",
    ),
    (
        [9, 3, 2, 3],
        "Refused 9: an operand names nothing, or a role or kind is out of count at node 2, a new channel.",
    ),
    (
        [10, 3, 2, 5],
        "Refused 10: the step is against the rules of kinds and owners at node 2, a receive.",
    ),
    (
        [10, 3, 2, 4],
        "Refused 10: the step is against the rules of kinds and owners at node 2, a compare.",
    ),
    (
        [11, 3, 1, 7],
        "Refused 11: the role put on is not assigned to the session's user at node 1, an on.",
    ),
    (
        [11, 4, 1, 9],
        "Refused 11: the role put on is not assigned to the session's user at choice 1.",
    ),
    (
        [12, 3, 1, 8],
        "Refused 12: the role put off is not active at node 1, an off.",
    ),
    (
        [12, 4, 65_535, 9],
        "Refused 12: the role put off is not active at choice 65535.",
    ),
    (
        [13, 3, 4, 6],
        "Refused 13: no active role permits the step at node 4, a send.",
    ),
    (
        [13, 4, 4, 9],
        "Refused 13: no active role permits the step at choice 4.",
    ),
    (
        [14, 0, 0, 9],
        "Refused 14: a routine to be placed has an on, an off or a starting role; no place.",
    ),
    (
        [14, 3, 10, 8],
        "Refused 14: a routine to be placed has an on, an off or a starting role at node 10, an off.",
    ),
    (
        [15, 3, 99, 5],
        "Refused 15: no role that the user may put on permits the step at node 99, a receive.",
    ),
    (
        [15, 3, 100, 0],
        "Refused 15: no role that the user may put on permits the step at node 100, an end.",
    ),
    (
        [15, 3, 9, 1],
        "Refused 15: no role that the user may put on permits the step at node 9, a fork.",
    ),
    (
        [15, 3, 1, 2],
        "Refused 15: no role that the user may put on permits the step at node 1, a repeat.",
    ),
    (
        [16, 0, 0, 9],
        "Refused 16: the placed file would have over 1,024 nodes; no place.",
    ),
    (
        [17, 0, 0, 9],
        "Refused 17: the output is too short, or the list of choices or of seats does not fit; no place.",
    ),
    (
        [18, 0, 0, 9],
        "Refused 18: the list lent, the thread or its partner is not one for this step; no place.",
    ),
    (
        [18, 4, 1, 9],
        "Refused 18: the list lent, the thread or its partner is not one for this step at choice 1.",
    ),
    (
        [19, 4, 2, 9],
        "Refused 19: the values compared are not equal, or the two channels differ at choice 2.",
    ),
    (
        [20, 4, 63, 9],
        "Refused 20: it would be the 65th thread or made channel at choice 63.",
    ),
    (
        [21, 1, 24, 9],
        "Refused 21: a junior role's number is not lower than its senior's at word 24.",
    ),
    (
        [22, 0, 0, 9],
        "Refused 22: the minute is above 10,079, or the hours are not whole rows, at most 64; no place.",
    ),
    (
        [23, 5, 6, 9],
        "Refused 23: the row names no such role, or no stretch of the week at row 6.",
    ),
    (
        [24, 3, 1, 9],
        "Refused 24: the role put on is closed at that minute at node 1.",
    ),
    (
        [25, 0, 0, 9],
        "Refused 25: the two files' tables of roles or kinds differ; no place.",
    ),
    (
        [26, 2, 2, 9],
        "Refused 26: the role has no free seat, or other sessions are before this one in line at session 2.",
    ),
    (
        [26, 4, 65_535, 9],
        "Refused 26: the role has no free seat, or other sessions are before this one in line at choice 65535.",
    ),
    (
        [27, 6, 1, 9],
        "Refused 27: the notice has under 4 bytes, a wrong length word or a refused file at notice 1.",
    ),
    (
        [27, 6, 2, 9],
        "Refused 27: the notice has under 4 bytes, a wrong length word or a refused file at notice 2.",
    ),
    (
        [27, 6, 65_535, 9],
        "Refused 27: the notice has under 4 bytes, a wrong length word or a refused file at notice 65535.",
    ),
    (
        [28, 0, 0, 9],
        "Refused 28: neither notice has begun on that day; no place.",
    ),
    (
        [9, 3, 65_535, 3],
        "Refused 9: an operand names nothing, or a role or kind is out of count at node 65535, a new channel.",
    ),
    (
        [14, 3, 65_535, 3],
        "Refused 14: a routine to be placed has an on, an off or a starting role at node 65535, a new channel.",
    ),
    (
        [8, 3, 65_535, 9],
        "Refused 8: the tree's root, tag, field, second child, end or ninth variable is wrong at node 65535.",
    ),
    (
        [7, 2, 65_535, 9],
        "Refused 7: the session's user is not there, or a starting role is not that user's at session 65535.",
    ),
    (
        [18, 4, 65_535, 9],
        "Refused 18: the list lent, the thread or its partner is not one for this step at choice 65535.",
    ),
    (
        [10, 3, 10_000, 0],
        "Refused 10: the step is against the rules of kinds and owners at node 10000, an end.",
    ),
    (
        [6, 1, 9, 9],
        "Refused 6: the record names a role, kind or user that is not there at word 9.",
    ),
    (
        [21, 1, 65_535, 9],
        "Refused 21: a junior role's number is not lower than its senior's at word 65535.",
    ),
];

/// Against what the paper and the requests give a number.
const UNSAID: [[u16; 4]; 36] = [
    // No such number.
    [0, 0, 0, 9],
    [0, 0, 0, 0],
    [29, 0, 0, 9],
    [65_535, 0, 0, 9],
    [256 + 13, 3, 4, 6],
    // Another count.
    [3, 3, 1, 9],
    [6, 3, 1, 9],
    [8, 4, 1, 9],
    [10, 4, 1, 9],
    [15, 4, 1, 9],
    [15, 0, 0, 9],
    [16, 3, 1, 9],
    [19, 0, 0, 9],
    [24, 4, 1, 9],
    [25, 3, 1, 9],
    [26, 0, 0, 9],
    [26, 3, 1, 9],
    [13, 0, 0, 9],
    [23, 6, 1, 9],
    [23, 65_535, 1, 9],
    [27, 0, 0, 9],
    [27, 7, 1, 9],
    [28, 6, 1, 9],
    // A place against it.
    [3, 0, 1, 9],
    [14, 0, 1, 9],
    [14, 3, 0, 7],
    [18, 4, 0, 9],
    [26, 2, 0, 9],
    [27, 6, 0, 9],
    // A tag against it.
    [13, 3, 4, 9],
    [13, 3, 4, 10],
    [13, 4, 4, 6],
    [8, 3, 1, 0],
    [24, 3, 1, 7],
    [27, 6, 1, 6],
    [3, 0, 0, 0],
];

/// Bytes that are near a sentence, and none.
pub const NO_SENTENCES: [&str; 26] = [
    "",
    ".",
    "Refused",
    "Refused 3",
    "Refused 3: a count is out of range",
    "Refused 3: a count is out of range.",
    "Refused 3: a count is out of range; no place",
    "Refused 3: a count is out of range; no place..",
    "Refused 3: a count is out of range; no place.\n",
    " Refused 3: a count is out of range; no place.",
    "refused 3: a count is out of range; no place.",
    "Refused 03: a count is out of range; no place.",
    "Refused 4: a count is out of range; no place.",
    "Refused 3: a count is out of range; no place0.",
    "Refused 3: a count is out of range; no place, an end.",
    "Refused 3: a count is out of range at node 1.",
    "Refused 13: no active role permits the step at node 4.",
    "Refused 13: no active role permits the step at node 4, a send",
    "Refused 13: no active role permits the step at node 4, an send.",
    "Refused 13: no active role permits the step at node 04, a send.",
    "Refused 13: no active role permits the step at node 0, a send.",
    "Refused 13: no active role permits the step at node , a send.",
    "Refused 13: no active role permits the step at node 65536, a send.",
    "Refused 13: no active role permits the step at node 4294967300, a send.",
    "Refused 13: no active role permits the step at choice 4, a send.",
    "Refused 13: no active role permits the step; no place.",
];
