//! The program `place`: the placed file, or the line of the refusal.

use crate::run::{of_any_length, refused, Program};
use second::cases::{place_cases, Due, NOTHING};
use second::draft::to_bytes;
use second::{room_for, Version, ROOM};
use std::collections::BTreeSet;
use trials::{full_bare, largest_bare, seed};

const PLACE: Program = Program("place");

/// The named cases, but for those whose output is too short: the program has
/// its own.
#[test]
fn named_cases() {
    let mut numbers = BTreeSet::new();
    for case in place_cases() {
        if case.room < room_for(&case.file) {
            continue;
        }
        let (number, due) = match case.due {
            Due::Refused(number, place) => (number, refused(number, place)),
            Due::Placed(file, _) => (0, file),
        };
        PLACE.assert_writes(&case.file, &due, case.name);
        numbers.insert(number);
    }
    assert_eq!(numbers, BTreeSet::from([0, 1, 8, 9, 10, 14, 15, 16, 21]));
}

#[test]
fn inputs_of_any_length() {
    let larges = [full_bare(seed()), largest_bare(Version::Two, seed())];
    let inputs = larges.map(|large| {
        let itself = ("a large file".to_string(), large.clone());
        [of_any_length(large), vec![itself]].concat()
    });
    for (what, input) in inputs.concat() {
        let mut out = [0; ROOM];
        let placed = second::place(&input, &mut out);
        let due = match placed.number {
            0 => out[..placed.length.into()].to_vec(),
            number => refused(number, placed.place),
        };
        PLACE.assert_writes(&input, &due, &what);
    }
}

/// A clinic with nothing planned is placed as its 26 bytes.
#[test]
fn zero_bytes_1_25_and_26() {
    let nothing = to_bytes(&NOTHING);
    for length in [0, 1, 25, 26] {
        let due = match length {
            0 | 26 => nothing.clone(),
            _ => refused(1, 0),
        };
        let what = format!("{length} bytes of nothing planned");
        PLACE.assert_writes(&nothing[..length], &due, &what);
    }
}

#[test]
fn an_input_that_cannot_be_read() {
    PLACE.assert_unreadable();
}
