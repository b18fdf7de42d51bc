//! Cases of a sheet.

use super::{clinic, place_cases, BOOKING, END};
use crate::draft::{to_bytes, Draft};
use crate::Sheet;

/// Files in a row, and their sheet.
pub struct SheetCase {
    pub name: &'static str,
    pub input: Vec<u8>,
    pub due: Sheet,
}

impl SheetCase {
    /// Fails unless `sheet` gives the sheet that is due.
    pub fn demand(&self, who: &str, sheet: impl Fn(&[u8]) -> Sheet) {
        assert_eq!(sheet(&self.input), self.due, "{who}: {}", self.name);
    }
}

/// All of them.
pub fn sheet_cases() -> Vec<SheetCase> {
    [in_words(), sessions(), ends(), refusals()]
        .into_iter()
        .flatten()
        .collect()
}

/// Files, each after a word with its length in bytes.
pub fn records<F: AsRef<[u8]>>(files: impl IntoIterator<Item = F>) -> Vec<u8> {
    let mut input = Vec::new();
    for file in files {
        let file = file.as_ref();
        input.extend((file.len() as u16).to_le_bytes());
        input.extend(file);
    }
    input
}

fn case(name: &'static str, input: Vec<u8>, due: Sheet) -> SheetCase {
    SheetCase { name, input, due }
}

/// A sheet without refusals.
fn placed(files: u32, sessions: u32, on_steps: u32, most: u32) -> Sheet {
    let per_1_000 = 1_000 * on_steps;
    Sheet {
        files,
        sessions,
        on_steps,
        most,
        quotient: if sessions == 0 {
            0
        } else {
            per_1_000 / sessions
        },
        remainder: if sessions == 0 {
            0
        } else {
            per_1_000 % sessions
        },
        ..Sheet::default()
    }
}

/// With refused files besides, one for each of these numbers.
fn with_refused(mut sheet: Sheet, numbers: &[usize]) -> Sheet {
    for number in numbers {
        sheet.files += 1;
        sheet.refused[number - 1] += 1;
    }
    sheet
}

/// The booking, a clinic with nothing planned, one byte, and the booking again, word by
/// word, with two bytes behind them that are no record.
fn in_words() -> Vec<SheetCase> {
    let mut input = to_bytes(&[82]);
    input.extend(to_bytes(&BOOKING));
    input.extend([0, 0]);
    input.extend([1, 0, 7]);
    input.extend(to_bytes(&[82]));
    input.extend(to_bytes(&BOOKING));
    input.extend([1, 0]);
    let mut refused = [0; 28];
    refused[0] = 1;
    let due = Sheet {
        files: 4,
        refused,
        sessions: 2,
        on_steps: 2,
        most: 1,
        quotient: 1_000,
        remainder: 0,
    };
    vec![case("a sheet in words", input, due)]
}

/// A clinic with a session of user 1 for each of these numbers of on steps, in which
/// sends in role 1 and in role 2 take turns.
fn with_steps(steps: &[u16]) -> Vec<u8> {
    let mut draft = Draft {
        sessions: vec![],
        ..clinic(&[])
    };
    for &steps in steps {
        draft.sessions.push([1, 0, draft.nodes.len() as u16 + 1]);
        let sends = [[6, 257, 1], [6, 258, 257]].into_iter().cycle();
        draft.nodes.extend(sends.take(steps.into()));
        draft.nodes.push(END);
    }
    draft.bytes()
}

/// The most is that of a session, not of a file.
fn sessions() -> Vec<SheetCase> {
    let sheet_of = |files: &[&[u16]]| records(files.iter().map(|steps| with_steps(steps)));
    vec![
        case("no session", sheet_of(&[&[]]), placed(1, 0, 0, 0)),
        case("no on step", sheet_of(&[&[0, 0]]), placed(1, 2, 0, 0)),
        case("the first", sheet_of(&[&[4, 1, 2]]), placed(1, 3, 7, 4)),
        case("the second", sheet_of(&[&[1, 4, 2]]), placed(1, 3, 7, 4)),
        case("the last", sheet_of(&[&[1, 2, 4]]), placed(1, 3, 7, 4)),
        case(
            "a file with more in all",
            sheet_of(&[&[2, 2, 2], &[3]]),
            placed(2, 4, 9, 3),
        ),
        case(
            "the first file's last and the second's first",
            sheet_of(&[&[0, 2], &[2, 0]]),
            placed(2, 4, 4, 2),
        ),
        case(
            "a remainder",
            sheet_of(&[&[1, 0, 0, 0], &[1, 0, 0]]),
            Sheet {
                quotient: 285,
                remainder: 5,
                ..placed(2, 7, 2, 1)
            },
        ),
        case(
            "more on steps than sessions",
            sheet_of(&[&[7]]),
            Sheet {
                quotient: 7_000,
                ..placed(1, 1, 7, 7)
            },
        ),
    ]
}

/// Where it ends.
fn ends() -> Vec<SheetCase> {
    let booking = to_bytes(&BOOKING);
    let many = |count| records(vec![&booking; count]);
    let mut all = vec![
        case("nothing at all", vec![], placed(0, 0, 0, 0)),
        case("half a word", vec![0], placed(0, 0, 0, 0)),
        case("a file of no bytes", vec![0, 0], placed(1, 0, 0, 0)),
        case("and half a word", vec![0, 0, 0], placed(1, 0, 0, 0)),
        case("999 files", many(999), placed(999, 999, 999, 1)),
        case("1,000 files", many(1_000), placed(1_000, 1_000, 1_000, 1)),
        case("1,001 files", many(1_001), placed(1_000, 1_000, 1_000, 1)),
    ];
    let two = many(2);
    for length in 84..two.len() {
        let cut = two[..length].to_vec();
        all.push(case("the second is cut", cut, placed(1, 1, 1, 1)));
    }
    // Behind a broken record nothing is read, whatever there is.
    let mut broken = many(1);
    broken.extend(to_bytes(&[65_535]));
    broken.extend(many(3));
    all.push(case("a broken record", broken, placed(1, 1, 1, 1)));
    let mut longest = vec![0; 65_535];
    longest[0] = 1;
    let input = records([&longest[..], &booking]);
    let due = with_refused(placed(1, 1, 1, 1), &[1]);
    all.push(case("a file of 65,535 bytes", input, due));
    all
}

/// A refused file adds to the files and to its refusal only.
fn refusals() -> Vec<SheetCase> {
    let booking = to_bytes(&BOOKING);
    let mut all = Vec::new();
    let wrong = |file: &[u8]| records([&booking[..], file, &booking]);
    for given in super::cases() {
        let number = usize::from(given.answer.0);
        if !crate::is_of_file(given.answer.0) || given.file.len() > usize::from(u16::MAX) {
            continue;
        }
        let due = with_refused(placed(2, 2, 2, 1), &[number]);
        all.push(case(given.name, wrong(&given.file), due));
    }
    for given in place_cases() {
        let (super::Due::Refused(number, _), true) = (given.due, given.room >= crate::ROOM) else {
            continue;
        };
        let due = with_refused(placed(2, 2, 2, 1), &[number.into()]);
        all.push(case(given.name, wrong(&given.file), due));
    }
    let (one, versions) = (vec![1], [0, 3, 4].map(|first| vec![first; 26]));
    let [zero, third, fourth] = &versions;
    let input = records([&one, zero, &one, third, fourth, &booking]);
    let due = with_refused(placed(1, 1, 1, 1), &[1, 2, 1, 2, 2]);
    all.push(case("refused five times", input, due));
    all
}
