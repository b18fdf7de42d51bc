//! The program `judge`: the line `passes`, or the refusal.

use crate::run::{of_any_length, refused, Program};
use second::cases::NOTHING;
use second::draft::to_bytes;
use second::Version;
use std::collections::BTreeSet;
use trials::{largest, second_check, seed};

const JUDGE: Program = Program("judge");

/// Asserts the line that the second implementation would have it write. Gives
/// the refusal's number.
fn assert_line(input: &[u8], what: &str) -> u16 {
    let (number, place) = second_check(input);
    let line = match number {
        0 => b"passes\n".to_vec(),
        _ => refused(number, place),
    };
    JUDGE.assert_writes(input, &line, what);
    number
}

#[test]
fn every_refusal_and_none() {
    let cases = second::cases::cases();
    let numbers: BTreeSet<u16> = cases
        .iter()
        .map(|case| assert_line(&case.file, case.name))
        .collect();
    assert_eq!(numbers, (0..=13).chain([21]).collect());
}

#[test]
fn inputs_of_any_length() {
    for version in Version::ALL {
        for (what, input) in of_any_length(largest(version, seed())) {
            assert_line(&input, &what);
        }
    }
}

/// A clinic with nothing planned, and less than a head.
#[test]
fn zero_bytes_1_25_and_26() {
    let nothing = to_bytes(&NOTHING);
    for (length, due) in [
        (0, "passes\n"),
        (1, "refused 1 0\n"),
        (25, "refused 1 0\n"),
        (26, "passes\n"),
    ] {
        let what = format!("{length} bytes of nothing planned");
        JUDGE.assert_writes(&nothing[..length], due.as_bytes(), &what);
    }
}

#[test]
fn an_input_that_cannot_be_read() {
    JUDGE.assert_unreadable();
}
