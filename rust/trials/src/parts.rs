//! Parts of certificates, by both implementations: cut anywhere, damaged and counted.

mod damage;
mod tally;

pub use tally::PartTally;

use crate::certificates::{agreed_closing, anything, each_routine, most_rows, search};
use crate::certificates::{Certified, Found, Routine};
use crate::columns::row_file;
use crate::rng::Rng;
use second::{Certificate, Closing, Version};
use std::fmt::Display;
use std::ops::Range;

/// Some rows of a certificate, from 0 on, and the numbers in `next` of their choices.
#[derive(Clone, Debug, PartialEq, Eq)]
pub struct Part {
    pub rows: Range<usize>,
    pub numbers: Range<usize>,
}

/// The engine's answer, in the second implementation's form.
pub fn engine_closing_part(
    file: &[u8],
    seats: &[u16],
    states: &[u16],
    places: &[u32],
    next: &[u32],
    rows: Range<usize>,
    numbers: Range<usize>,
) -> Closing {
    let closing = pilzdamo::closed_part(file, seats, states, places, next, rows, numbers);
    Closing {
        number: closing.number,
        place: closing.place,
        row: closing.row,
    }
}

impl Part {
    /// What one of the two answers of this part.
    pub fn asked(
        &self,
        certified: &Certified,
        closing: impl Fn(&[u8], &[u16], &[u16], &[u32], &[u32], Range<usize>, Range<usize>) -> Closing,
    ) -> Closing {
        let part = self.clone();
        certified.asked(|file, seats, states, places, next| {
            let Part { rows, numbers } = part.clone();
            closing(file, seats, states, places, next, rows, numbers)
        })
    }
}

/// What both answer. Panics where they differ.
pub fn agreed_part(certified: &Certified, part: &Part, origin: impl Display) -> Closing {
    let engine = part.asked(certified, engine_closing_part);
    let second = part.asked(certified, second::closing_part);
    assert!(
        engine == second,
        "the answer differs at {origin}: engine {engine:?}, second {second:?}, {part:?}, \
         seats {:?}, {:?}, on {} bytes, to be had back by `xxd -r -p`:\n{}",
        certified.seats,
        certified.certificate,
        certified.file.len(),
        certified
            .file
            .iter()
            .map(|byte| format!("{byte:02x}"))
            .collect::<String>()
    );
    engine
}

/// The part with these rows and the numbers that are theirs.
fn part_of(found: &Found, rows: Range<usize>) -> Part {
    let numbers = found.numbers_before(rows.start)..found.numbers_before(rows.end);
    Part { rows, numbers }
}

/// A chain of parts of the rows that were gone on from, cut anywhere: at most so many.
fn chain(rng: &mut Rng, found: &Found, most: usize) -> Vec<Part> {
    let mut ends: Vec<usize> = (1..rng.from(1, most as u16))
        .map(|_| rng.below(found.done + 1))
        .chain([0, found.done])
        .collect();
    ends.sort();
    ends.dedup();
    let rows = ends.windows(2).map(|ends| ends[0]..ends[1]);
    rows.map(|rows| part_of(found, rows)).collect()
}

/// Deals routines, searches them, gives both the parts of their certificates, damaged too, and
/// panics at the first difference.
pub fn compare_parts(version: Version, seed: u64, inputs: u64) -> PartTally {
    let mut tally = PartTally::new(version);
    each_routine(version, seed, inputs, |routine| {
        if second::begin_seated(routine.file, routine.seats).is_ok() {
            return compare_one(routine, &mut tally);
        }
        let refused = Certified {
            certificate: anything(routine.rng),
            file: routine.file.to_vec(),
            seats: routine.seats.to_vec(),
        };
        let Certificate { places, next, .. } = &refused.certificate;
        let part = Part {
            rows: 0..places.len(),
            numbers: 0..next.len(),
        };
        let answer = agreed_part(&refused, &part, routine.origin);
        assert!(answer.number != 0 && answer.row == 0, "{}", routine.origin);
        tally.count("refused before the rows", answer);
        true
    });
    tally
}

/// Searches a file that can be run, and asks both about parts of what is found, damaged too.
/// False where there are too many states.
fn compare_one(routine: Routine, tally: &mut PartTally) -> bool {
    let Routine {
        rng,
        file,
        seats,
        origin,
        ..
    } = routine;
    let start = second::begin_seated(file, seats).expect("it can be run");
    let most = most_rows(rng);
    let found = search(start.clone(), most, |_| false);
    let holds = Certified {
        file: file.to_vec(),
        seats: seats.to_vec(),
        certificate: found.certificate.clone(),
    };
    let whole = agreed_closing(&holds, origin);
    assert_eq!(whole == Closing::CLEAN, found.is_whole(), "{origin}");
    let parts = chain(rng, &found, 6);
    let kind = match found.is_whole() {
        true => "a part of what is found",
        false => "a part of a search that isn't at its end",
    };
    for part in &parts {
        let answer = agreed_part(&holds, part, origin);
        assert_eq!(answer, Closing::CLEAN, "{part:?}: {origin}");
        tally.count(kind, answer);
    }
    if !found.is_whole() {
        return false;
    }
    tally.note(&found, parts.len());
    let rows = found.done;
    for row in 0..rows.min(60) {
        let answer = agreed_part(&holds, &part_of(&found, row..row + 1), origin);
        assert_eq!(answer, Closing::CLEAN, "row {row}: {origin}");
        tally.count("a row by itself", answer);
    }
    if let Some(by_row) = row_file(file) {
        let by_row = Certified {
            file: by_row,
            ..holds.clone()
        };
        for part in &parts {
            assert_eq!(
                agreed_part(&by_row, part, origin),
                Closing::CLEAN,
                "{origin}"
            );
        }
    }
    damage::bounds(rng, &holds, &found, origin, tally);
    damage::damage_all(rng, holds, &found, &parts, origin, tally);
    let twice = search(start, 2 * most, |rows| rows < most && rng.once_in(4));
    if twice.is_whole() && twice.done > rows {
        let twins = Certified {
            file: file.to_vec(),
            seats: seats.to_vec(),
            certificate: twice.certificate.clone(),
        };
        for part in chain(rng, &twice, 4) {
            let answer = agreed_part(&twins, &part, origin);
            assert_eq!(answer, Closing::CLEAN, "{part:?}: {origin}");
            tally.count("states in two rows", answer);
        }
    }
    true
}
