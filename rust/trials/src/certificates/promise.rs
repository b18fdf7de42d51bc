//! What a certificate that holds promises, tried on lists of choices.

use super::{Certified, Found};
use crate::rng::Rng;
use crate::seats::{engine_run_seated, engine_seats};
use second::draft::word_at;
use second::RUN_ROOM;
use std::collections::HashSet;

/// The words of the row to which the engine's run comes by a list, or at which it stops;
/// the sessions of the threads are those of the second implementation.
fn row_after(certified: &Certified, choices: &[u16]) -> Vec<u16> {
    let Certified { file, seats, .. } = certified;
    let mut out = [0; RUN_ROOM];
    let written = engine_run_seated(file, choices, seats, &mut out);
    let words = usize::from(written.length) / 2;
    let mut row: Vec<u16> = (2..words).map(|at| word_at(&out, at)).collect();
    let mut run = second::begin_seated(file, seats).expect("nothing is refused");
    for &[thread, partner] in &choices.as_chunks().0[..word_at(&out, 0).into()] {
        run.choose(thread, partner).expect("it is done");
    }
    row.extend(run.owners());
    let told = engine_seats(file, choices, seats);
    for role in 0..seats.len() {
        let waiting = usize::from(told.waiting[role]);
        row.push(told.waiting[role]);
        row.extend(&told.line[32 * role..32 * role + waiting]);
    }
    row
}

/// The list of choices with which the search came to a row.
pub(crate) fn list_to(found: &Found, row: usize) -> Vec<u16> {
    let firsts = found.firsts();
    let (mut at, mut list) = (row, Vec::new());
    while at > 0 {
        let (from, choice) = found.steps[firsts[at - 1]];
        list.push(choice);
        at = from as usize;
    }
    list.reverse();
    list.into_flattened()
}

/// Some rows are the states to which the search's own choices lead.
pub fn assert_rows_are_reached(rng: &mut Rng, certified: &Certified, found: &Found, origin: &str) {
    for _ in 0..4 {
        let row = rng.index(found.certificate.places.len());
        let words = row_after(certified, &list_to(found, row));
        assert_eq!(words, found.row(row), "row {row}: {origin}");
    }
}

/// Lists of choices, also such as stop, lead to states that are rows.
pub fn assert_lists_end_in_rows(rng: &mut Rng, certified: &Certified, dealt: &[u16], origin: &str) {
    let certificate = &certified.certificate;
    let begins = certificate.places.iter().map(|&place| place as usize);
    let ends = begins.clone().skip(1).chain([certificate.states.len()]);
    let rows = begins.zip(ends);
    let rows: HashSet<&[u16]> = rows
        .map(|(begin, end)| &certificate.states[begin..end])
        .collect();
    let assert_row = |choices: &[u16]| {
        let row = row_after(certified, choices);
        assert!(
            rows.contains(&row[..]),
            "no row after {choices:?}: {origin}"
        );
    };
    let even = dealt.len().is_multiple_of(2) && dealt.len() <= 2 * second::MOST_CHOICES;
    if even {
        assert_row(dealt);
    }
    for _ in 0..4 {
        let mut run = second::begin_seated(&certified.file, &certified.seats).expect("it starts");
        let mut choices = Vec::new();
        for _ in 0..rng.below(60) {
            let threads = run.run().threads().len() as u16;
            let choice = [rng.from(1, threads.max(1)), rng.from(0, threads)];
            let choice = *rng.of(&[choice, [choice[0], 0]]);
            if run.choose(choice[0], choice[1]).is_ok() {
                choices.extend(choice);
            }
        }
        assert_row(&choices);
    }
}
