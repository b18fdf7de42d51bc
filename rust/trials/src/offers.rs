//! What is offered in a lent state, by both implementations: compared, damaged and counted; and
//! a search by offers alone.

mod damage;
mod promise;
mod search;
mod tally;

pub use search::{search_by_choose, search_by_offers};
pub use tally::OfferTally;

use crate::certificates::{each_routine, most_rows, search, Found, Routine};
use crate::columns::row_file;
use crate::rng::Rng;
use second::{Offers, Version};
use std::fmt::Display;

/// A file, a table of seats, the words of a state, and the output before the call.
#[derive(Clone)]
pub struct Lending {
    pub file: Vec<u8>,
    pub seats: Vec<u16>,
    pub state: Vec<u16>,
    pub before: Vec<u16>,
}

/// The engine's answer, in the second implementation's form.
pub fn engine_offers(file: &[u8], seats: &[u16], state: &[u16], out: &mut [u16]) -> Offers {
    let offers = pilzdamo::offers(file, seats, state, out);
    Offers {
        number: offers.number,
        place: offers.place,
        count: offers.count,
        length: offers.length,
    }
}

/// What both answer, and the output. Panics where they differ, or where a word past the
/// length isn't what it was.
pub fn agreed_offers(lending: &Lending, origin: impl Display) -> (Offers, Vec<u16>) {
    let Lending {
        file,
        seats,
        state,
        before,
    } = lending;
    let (mut out, mut of_second) = (before.clone(), before.clone());
    let engine = engine_offers(file, seats, state, &mut out);
    let second = second::offers(file, seats, state, &mut of_second);
    let other = out
        .iter()
        .zip(&of_second)
        .position(|(one, other)| one != other);
    assert!(
        engine == second && other.is_none(),
        "the offers differ at {origin}: engine {engine:?}, second {second:?}, at word {other:?}, \
         seats {seats:?}, state {state:?}, room {}, on {} bytes, to be had back by \
         `xxd -r -p`:\n{}",
        before.len(),
        file.len(),
        file.iter()
            .map(|byte| format!("{byte:02x}"))
            .collect::<String>()
    );
    let length = engine.length as usize;
    assert_eq!(out[length..], before[length..], "{origin}");
    (engine, out)
}

/// Words of no state.
fn anything(rng: &mut Rng, most: usize) -> Vec<u16> {
    (0..rng.below(most)).map(|_| rng.word()).collect()
}

/// Deals routines, searches them, asks both what is offered in each state and in such as are
/// none, and panics at the first difference.
pub fn compare_offers(version: Version, seed: u64, inputs: u64) -> OfferTally {
    let mut tally = OfferTally::new(version);
    each_routine(version, seed, inputs, |routine| {
        if second::begin_seated(routine.file, routine.seats).is_ok() {
            return compare_one(routine, &mut tally);
        }
        let Routine { rng, origin, .. } = routine;
        let refused = Lending {
            file: routine.file.to_vec(),
            seats: routine.seats.to_vec(),
            state: anything(rng, 40),
            before: anything(rng, 40),
        };
        let (answer, _) = agreed_offers(&refused, origin);
        assert!(answer.number != 0 && answer.count == 0, "{origin}");
        tally.count("refused before the state", answer);
        true
    });
    tally
}

/// Searches a file that can be run, and asks both about its states. False where there are too
/// many.
fn compare_one(routine: Routine, tally: &mut OfferTally) -> bool {
    let Routine {
        rng,
        file,
        seats,
        origin,
        ..
    } = routine;
    let start = second::begin_seated(file, seats).expect("it can be run");
    let found = search(start, most_rows(rng), |_| false);
    let rows = found.certificate.places.len();
    let by_offers = search_by_offers(file, seats, rows);
    let by_second = second::search(file, seats, rows);
    assert!(
        by_offers == by_second,
        "the search by offers differs: {origin}"
    );
    if found.is_whole() {
        assert!(by_offers.as_ref() == Some(&found.certificate), "{origin}");
        tally.note_search(rows);
    }
    let mut lending = Lending {
        file: file.to_vec(),
        seats: seats.to_vec(),
        state: Vec::new(),
        before: Vec::new(),
    };
    for row in 0..found.done {
        lending.state = found.row(row).to_vec();
        let due = offers_of(&found, row);
        lending.before = vec![rng.word(); due.len() + rng.below(3)];
        let (answer, out) = agreed_offers(&lending, origin);
        assert_eq!((answer.number, answer.place), (0, 0), "row {row}: {origin}");
        assert_eq!(answer.length as usize, due.len(), "row {row}: {origin}");
        assert_eq!(out[..due.len()], due, "row {row}: {origin}");
        tally.count("a state", answer);
        tally.note_offers(&due);
    }
    if let Some(by_row) = row_file(file) {
        let mut by_row = Lending {
            file: by_row,
            ..lending.clone()
        };
        let row = rng.index(found.done);
        by_row.state = found.row(row).to_vec();
        by_row.before = vec![0; offers_of(&found, row).len()];
        let (answer, out) = agreed_offers(&by_row, origin);
        assert_eq!(
            (answer.number, out),
            (0, offers_of(&found, row)),
            "{origin}"
        );
    }
    let row = some_row(rng, &found);
    promise::assert_offers_are_the_choices(&lending, &found, row, origin);
    lending.state = found.row(row).to_vec();
    let due = offers_of(&found, row);
    rooms(&mut lending, &due, origin, tally);
    damage::damage_all(rng, &lending, due.len(), origin, tally);
    found.is_whole()
}

/// A row, often one in which somebody waits for a seat.
fn some_row(rng: &mut Rng, found: &Found) -> usize {
    let rows: Vec<usize> = (0..found.done).collect();
    let waits = |row: &usize| {
        let choices = found.numbers_before(*row)..found.numbers_before(row + 1);
        found.answers[choices].contains(&26)
    };
    let any = rng.index(rows.len());
    match rng.once_in(2) {
        true => rng.find(&rows, waits).unwrap_or(any),
        false => any,
    }
}

/// The words of all offers in a row, by the search.
fn offers_of(found: &Found, row: usize) -> Vec<u16> {
    let numbers = found.numbers_before(row)..found.numbers_before(row + 1);
    let mut words = Vec::new();
    for at in numbers {
        let (_, [thread, partner]) = found.steps[at];
        let next = found.row(found.certificate.next[at] as usize);
        words.extend([thread, partner, found.answers[at], next.len() as u16]);
        words.extend(next);
    }
    words
}

/// Every room from none to more than enough: the offers that have room are written.
fn rooms(lending: &mut Lending, due: &[u16], origin: &str, tally: &mut OfferTally) {
    // Where each offer ends.
    let mut ends = vec![0];
    while let Some(count) = due.get(ends[ends.len() - 1] + 3) {
        ends.push(ends[ends.len() - 1] + 4 + usize::from(*count));
    }
    for room in 0..=due.len() + 1 {
        lending.before = vec![0x5a5a; room];
        let (answer, out) = agreed_offers(lending, format_args!("room {room}: {origin}"));
        let count = ends.iter().filter(|end| **end <= room).count() - 1;
        let whole = count + 1 == ends.len();
        let length = ends[count];
        let told = Offers {
            number: if whole { 0 } else { 17 },
            place: 0,
            count: count as u16,
            length: length as u32,
        };
        assert_eq!(answer, told, "room {room}: {origin}");
        assert_eq!(out[..length], due[..length], "room {room}: {origin}");
        let kind = match length == room {
            true => "room for so many",
            false => "room for part of one more",
        };
        tally.count(kind, answer);
    }
}
