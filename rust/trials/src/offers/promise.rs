//! An offer is what a run's next choice does, and no other choice is done.

use super::{offers_of, Lending};
use crate::certificates::{list_to, Found};
use crate::seats::{engine_run_seated, engine_seats};
use second::draft::word_at;
use second::RUN_ROOM;

/// The run through the search's list and one choice more does that choice exactly if it is
/// offered, and comes to the threads, made channels and lines of the offer.
pub fn assert_offers_are_the_choices(lending: &Lending, found: &Found, row: usize, origin: &str) {
    let Lending { file, seats, .. } = lending;
    let threads = found.row(row)[0];
    let mut list = list_to(found, row);
    let offers = offers_of(found, row);
    let mut offers = &offers[..];
    let (before, mut out) = (list.len(), [0; RUN_ROOM]);
    for thread in 0..=threads + 1 {
        for partner in 0..=threads + 1 {
            list.extend([thread, partner]);
            let written = engine_run_seated(file, &list, seats, &mut out);
            let told = engine_seats(file, &list, seats);
            list.truncate(before);
            let is_next = offers.starts_with(&[thread, partner]);
            let origin = format!("choice {thread} {partner} in row {row}: {origin}");
            assert_eq!(written.number == 0, is_next, "{origin}");
            if !is_next {
                continue;
            }
            let (offer, rest) = offers.split_at(4 + usize::from(offers[3]));
            offers = rest;
            assert_eq!(told.last, offer[2], "{origin}");
            let words = usize::from(written.length) / 2;
            let state: Vec<u16> = (2..words).map(|at| word_at(&out, at)).collect();
            assert_eq!(offer[4..][..state.len()], state, "{origin}");
            let mut lines = &offer[4 + state.len() + usize::from(state[0])..];
            for role in 0..seats.len() {
                let waiting = usize::from(told.waiting[role]);
                assert_eq!(usize::from(lines[0]), waiting, "{origin}");
                let line = &told.line[32 * role..32 * role + waiting];
                assert_eq!(lines[1..=waiting], *line, "{origin}");
                lines = &lines[1 + waiting..];
            }
            assert!(lines.is_empty(), "{origin}");
        }
    }
    assert!(offers.is_empty(), "row {row}: {origin}");
}
