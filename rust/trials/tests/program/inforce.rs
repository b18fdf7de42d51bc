//! The program `inforce`: the file of the notice in force, or the refusal. Its input is
//! the day and then two notices, the first as long as its own length word says.

use crate::run::{refused, Program};
use second::cases::notice_cases;
use second::draft::{to_bytes, word_at};
use second::in_force;
use std::collections::BTreeSet;

const IN_FORCE: Program = Program("inforce");

/// As many bytes as the program keeps of its input.
const KEPT: usize = 16_384;

/// Asserts what the second implementation would have it write. Gives the refusal.
fn assert_plan(day: u16, both: &[u8], what: &str) -> (u16, u16) {
    let length = if both.len() < 4 { 0 } else { word_at(both, 1) };
    let (first, second) = both.split_at(both.len().min(4 + usize::from(length)));
    let told = in_force(first, second, day);
    let due = match told.number {
        0 => {
            let notice = if told.notice == 1 { first } else { second };
            notice[usize::from(told.at)..][..usize::from(told.length)].to_vec()
        }
        number => refused(number, told.place),
    };
    let input = [&to_bytes(&[day]), both].concat();
    IN_FORCE.assert_writes(&input, &due, what);
    (told.number, told.place)
}

#[test]
fn every_refusal_and_none() {
    let mut came = BTreeSet::new();
    for case in notice_cases() {
        let both = [&case.first[..], &case.second].concat();
        if both.len() + 2 <= KEPT {
            came.insert(assert_plan(case.day, &both, case.name));
        }
    }
    assert_eq!(came, [(0, 0), (27, 1), (27, 2), (28, 0)].into());
}

#[test]
fn no_day() {
    for input in [&[][..], &[1]] {
        let output = IN_FORCE.run(&[input]);
        assert_eq!(output.stdout, b"");
        assert_eq!(output.stderr, b"inforce: standard input holds no day\n");
    }
}
